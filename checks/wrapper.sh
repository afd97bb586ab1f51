#!/bin/sh
# Runs the wrapper ./normd with the proved program, with the unproved one, and with neither, if the tool fails and if the program does
# not compile; and ./build. It is run after `rt ci`; the first row that differs is named, and ends it with status 1.
cd "$(dirname "$0")/.." || exit 1
top=$(pwd -P)
usage='usage: normd session | show | generate N | send PROFILE | recv PROFILE NODE | hub PROFILE | gather PROFILE NODE .. | relay UP NODE DOWN | mirror'
hello='enq 1 1 7 0 data 5
up 2 7 0 data 5 - 68656c6c6f
end objects 1 octets 5 handed 1 lost 0 satisfied 0 expired 0 cut 0'
rows=0

scratch=$(mktemp -d) || exit 1
trap 'rm -rf "$scratch"' EXIT

wrong() {
    echo "wrapper: $1"
    cat "$scratch/out" "$scratch/err"
    exit 1
}

# row NAME STATUS OUTPUT LINES: what ended with $status is compared, and the lines that stand on standard error are counted, but for
# those that say how long it takes.
row() {
    rows=$((rows + 1))
    [ "$status" = "$2" ] || wrong "$1 ended with status $status, and not $2"
    [ "$(cat "$scratch/out")" = "$3" ] || wrong "$1 wrote something else"
    [ "$(grep -vcE '^build: (compiling for [0-9]* seconds\.|[0-9]* of [0-9]* crates, .*)$' "$scratch/err")" = "$4" ] ||
        wrong "$1 did not write $4 lines on standard error"
}

# run FOLDER NORMD WORD..: from another folder; the input stands in $scratch/in.
run() {
    folder=$1
    shift
    (cd "$folder" && exec "$@") <"$scratch/in" >"$scratch/out" 2>"$scratch/err"
    status=$?
}

# The proved program, through two links, from another folder, with its statuses.
ln -s "$top/normd" "$scratch/link"
ln -s link "$scratch/again"
cp examples/hello.norm "$scratch/in"
run / "$scratch/again" session
row 'the proved program through links' 0 "$hello" 0
run / "$scratch/again" sessions
row 'the proved program at other words' 2 "$usage" 2
grep -q '^the word sessions is unknown$' "$scratch/err" || wrong 'why words are refused is lost'
grep -q '^normd [0-9.]*$' "$scratch/err" || wrong 'the version is lost'
echo '1 data 6' >"$scratch/in"
run / "$scratch/again" session
row 'the proved program at a refused line' 3 'refused line 1' 1
cp examples/hello.norm "$scratch/in"

# A copy without the program: its tool is first none, then one that says what a test wants, and then the real one.
copy="$scratch/a copy"
mkdir -p "$copy" "$scratch/empty" "$scratch/fake" "$scratch/folder"
git ls-files -co --exclude-standard | tar -cf - -T - | tar -xf - -C "$copy" || exit 1
for tool in sh dirname readlink find head; do
    ln -s "$(command -v "$tool")" "$scratch/empty/$tool"
done
run / env PATH="$scratch/empty" "$copy/normd" session
row 'no tool' 125 '' 2

# tool LINE..: the tool is a script of these lines.
tool() {
    printf '#!/bin/sh\n' >"$scratch/fake/rt"
    printf '%s\n' "$@" >>"$scratch/fake/rt"
    chmod +x "$scratch/fake/rt"
}

# nothing_left NAME: out/ is empty.
nothing_left() {
    [ -z "$(ls -A "$copy/out")" ] || wrong "$1 left $(ls -A "$copy/out")"
}

tool 'exit 0'
: >"$copy/out"
run / env PATH="$scratch/fake:$PATH" "$copy/normd" session
row 'no folder out/' 125 '' 2
rm "$copy/out"
tool 'echo "run=none proved=no" >&2' 'exit 2'
run / env PATH="$scratch/fake:$PATH" "$copy/normd" session
row 'a tool that fails' 125 '' 3
nothing_left 'a tool that fails'
tool 'echo "lib.rt:1:2: error[unexpected-token]: a word" >&2' 'echo "run=none proved=no" >&2' 'exit 1'
run / env PATH="$scratch/fake:$PATH" "$copy/normd" session
row 'a program that does not compile' 125 '' 4
grep -q 'error\[unexpected-token\]: a word' "$scratch/err" || wrong 'what the tool says of a program that does not compile is lost'
nothing_left 'a program that does not compile'
tool 'printf "#!/bin/sh\nexit 0\n" >"$TMPDIR/program"' 'chmod +x "$TMPDIR/program"' 'exec sleep 60'
run / env PATH="$scratch/fake:$PATH" "$copy/normd" session
row 'a program that writes nothing' 125 '' 3
nothing_left 'a program that writes nothing'

tool 'exec sleep 60'
(cd / && PATH="$scratch/fake:$PATH" exec "$copy/normd" session) </dev/null >"$scratch/out" 2>"$scratch/err" &
normd=$!
tries=0
until [ -d "$(echo "$copy"/out/unproved.*/rt)" ] || [ $tries -gt 200 ]; do
    tries=$((tries + 1))
    sleep 0.1
done
kill "$normd"
wait "$normd"
status=$?
row 'a signal' 143 '' 1
nothing_left 'a signal'

run / "$copy/build" --proved
row 'a build of other words' 2 '' 1
tool 'echo "checked lib::size, 1 of 9"' 'echo "lib.rt:1:2: error[unexpected-token]: a word"' 'exit 1'
run / env PATH="$scratch/fake:$PATH" "$copy/build"
row 'a build that fails' 1 '' 3
grep -q 'error\[unexpected-token\]: a word' "$scratch/err" || wrong 'what the tool says of a crate that is not proved is lost'
nothing_left 'a build that fails'
# The tool's own build takes as long as the proofs of the program, which the gate has behind it.
tool 'case $1 in run) cat stdout ;; esac'
run / env PATH="$scratch/fake:$PATH" "$copy/build"
row 'a build' 0 '' 2
nothing_left 'a build'
: >"$scratch/folder/calls"
tool 'mkdir -p out' ': >out/kept' "echo called >>'$scratch/folder/calls'" 'exec sleep 60'
(cd / && PATH="$scratch/fake:$PATH" exec "$copy/build") </dev/null >"$scratch/out" 2>"$scratch/err" &
build=$!
tries=0
until [ -s "$scratch/folder/calls" ] || [ $tries -gt 600 ]; do
    tries=$((tries + 1))
    sleep 0.1
done
kill "$build"
wait "$build"
status=$?
row 'a build that a signal ends' 143 '' 1
nothing_left 'a build that a signal ends'
[ -n "$(find "$copy/crates" -path '*/out/kept')" ] || wrong 'what the tool keeps of a crate is lost after a signal'

# In lanes: the tool makes a library only if those of all crates below are there.
cat >"$scratch/fake/rt" <<'END'
#!/bin/sh
name=${PWD##*/}
echo "$1 $name $3" >>"$CALLS"
[ "$4" != --cpu ] || echo "$4 $5" >>"$CALLS"
[ "$1" != run ] || exec cat stdout
for below in $(sed -n "s/^$name://p" ../../crates.txt); do
    [ ! -d "../$below" ] || [ -s "../$below/out/rlib/stamp" ] || exit 1
done
mkdir -p out/rlib
if [ "$name" = norm_ext ] && [ ! -e out/killed ]; then
    : >out/killed
    exit 247
fi
echo made >out/rlib/stamp
END

# in_lanes NAME LINES: a build in four lanes. What the tool was called for is in $scratch/folder/calls.
in_lanes() {
    : >"$scratch/folder/calls"
    run / env PATH="$scratch/fake:$PATH" CALLS="$scratch/folder/calls" "$copy/tools/prove" --lanes 4
    row "$1" 0 '' "$2"
}

rm -rf "$copy"/crates/*/out
in_lanes 'a build in lanes' 2
nothing_left 'a build in lanes'
crates=$(cut -d' ' -f2 "$scratch/folder/calls" | sort -u | wc -l)
[ "$(ls -d "$copy"/crates/*/out/rlib/stamp | wc -l)" = $((crates - 1)) ] || wrong 'a library that was built in a lane is lost'
[ "$(wc -l <"$scratch/folder/calls")" = $((crates + 1)) ] || wrong 'a crate was proved more than once, or the killed one not again'
[ "$(grep -c '^lib norm_ext ' "$scratch/folder/calls")" = 2 ] && grep -qx 'lib norm_ext 1' "$scratch/folder/calls" ||
    wrong 'a killed crate is not proved again with one job'
in_lanes 'a second build' 2
[ "$(cat "$scratch/folder/calls")" = 'run normd 4' ] || wrong 'a second build proves crates again'
run / env PATH="$scratch/fake:$PATH" CALLS="$scratch/folder/calls" "$copy/tools/prove" --lanes 4 --cpu x86-64-v3
row 'a build for newer processors' 0 '' 2
[ "$(tail -n 2 "$scratch/folder/calls" | paste -sd ,)" = 'run normd 4,--cpu x86-64-v3' ] || wrong 'a build for newer processors compiles for others'
# What a killed build left is taken back, so only the crates above the one that changed are proved.
mkdir -p "$copy/out/lanes/3/crates/norm_base"
mv "$copy/crates/norm_base/out" "$copy/out/lanes/3/crates/norm_base/out"
touch "$copy/crates/norm_program/src/lib.rt"
in_lanes 'a build after a killed one' 2
nothing_left 'a build after a killed one'
[ "$(cut -d' ' -f-2 "$scratch/folder/calls" | paste -sd ,)" = 'lib norm_program,run normd' ] || wrong 'a build after a killed one proves crates again'
# If no lane can be made, the tool proves all by itself.
rm -rf "$copy/out" "$copy"/crates/*/out
: >"$copy/out"
in_lanes 'a build without lanes' 3
[ "$(cat "$scratch/folder/calls")" = 'run normd 4' ] || wrong 'a build without lanes calls the tool for something else'
rm -rf "$copy/out" "$copy"/crates/*/out

# The unproved program, made once, from the folder of whoever calls it.
printf 'hi' >"$scratch/folder/hi.txt"
printf 'set instance 7\nset octets 64\n1 file hi.txt\n' >"$scratch/in"
file='enq 1 1 7 0 file 2
up 2 7 0 file 2 68692e747874 6869
end objects 1 octets 2 handed 1 lost 0 satisfied 0 expired 0 cut 0'
run "$scratch/folder" "$copy/normd" session
row 'the unproved program, made' 0 "$file" 3
run "$scratch/folder" "$scratch/a copy/normd" session
row 'the unproved program, kept' 0 "$file" 1
grep -q '^normd: this program is not proved' "$scratch/err" || wrong 'the unproved program does not say so'
[ "$(ls -A "$copy/out")" = normd-unproved ] || wrong "the unproved program stands beside $(ls -A "$copy/out")"
run / "$copy/normd" "$(printf '\377\376')"
row 'a word that is no text, unproved' 2 "$usage" 3
(cd / && exec "$copy/normd" session) </ >"$scratch/out" 2>"$scratch/err"
status=$?
row 'a folder as input, unproved' 4 'fault read' 2
run / "$copy/examples/cast" "$copy/examples/letter.txt" 1 --port $((10000 + $$ % 400 * 16)) --grtt 1000000
[ "$status" = 0 ] || wrong "two nodes and a hub of the unproved program ended with status $status"
grep -q ' the same$' "$scratch/out" || wrong 'two nodes and a hub of the unproved program gave no copy'
[ "$(grep -c '^normd: this program is not proved' "$scratch/err")" = 1 ] || wrong 'the nodes of the unproved program do not say so once'

# It is made again after a source changed, here by a tool that makes another, and is not run once the proved one is there.
cat >"$scratch/fake/rt" <<'END'
#!/bin/sh
printf '#!/bin/sh\necho another >&2\ncat "%s/stdout"\n' "$PWD" >"$TMPDIR/program"
chmod +x "$TMPDIR/program"
exec sleep 60
END
touch "$copy/crates/norm_base/src/lib.rt"
run / env PATH="$scratch/fake:$PATH" "$copy/normd" session
row 'the unproved program, made again' 0 "$hello" 4
grep -qx another "$scratch/err" || wrong 'the unproved program is not made again after a source changed'
mkdir -p "$copy/crates/normd/out"
cp crates/normd/out/normd "$copy/crates/normd/out/normd"
cp examples/hello.norm "$scratch/in"
run / "$copy/normd" session
row 'the proved program beside an unproved one' 0 "$hello" 0

# A session gets huge pages by glibc's tunables, unless they are set. Other commands get nothing.
printf '#!/bin/sh\necho "$1 has ${GLIBC_TUNABLES-nothing}"\n' >"$copy/crates/normd/out/normd"
for words in session send ''; do
    run / env -u GLIBC_TUNABLES "$copy/normd" $words
    [ "$words" = session ] && tunables=glibc.malloc.hugetlb=1 || tunables=nothing
    row "the tunables of '$words'" 0 "$words has $tunables" 0
done
run / env GLIBC_TUNABLES= "$copy/normd" session
row 'a session with tunables that are set to nothing' 0 'session has ' 0
run / env GLIBC_TUNABLES=glibc.malloc.arena_max=1 "$copy/normd" session
row 'a session with other tunables' 0 'session has glibc.malloc.arena_max=1' 0

# On a processor without AVX2 what was built for it is not run, and the build is for older ones.
sed -i "s|/proc/cpuinfo|'$scratch/cpuinfo'|" "$copy/tools/processor"
level='bmi1 bmi2 fma f16c movbe abm'
printf '#!/bin/sh\necho "$*"\n' >"$copy/tools/prove"
printf '#!/bin/sh\nexit 127\n' >"$copy/crates/normd/out/normd"
for flags in "ssse3 avx2 $level" "ssse3 $level" 'avx2 fma'; do
    printf 'processor\t: 0\nflags\t\t: fpu %s\nbugs\t\t: avx2\n' "$flags" >"$scratch/cpuinfo"
    run / "$copy/normd" session
    case $flags in
        *avx2\ *abm) cpu=x86-64-v3 lines=0 ;;
        *) cpu=x86-64-v2 lines=1 ;;
    esac
    row "a program that ends with 127, with $flags" 127 '' $lines
    [ $lines = 0 ] || grep -q "'./build --older'" "$scratch/err" || wrong 'the word that builds for older processors is lost'
    run / env PATH="$scratch/fake:$PATH" "$copy/build"
    row "a build with $flags" 0 "--cpu $cpu" 0
done
run / env PATH="$scratch/fake:$PATH" "$copy/build" --older
row 'a build for older processors' 0 '--cpu x86-64-v2' 0
printf '#!/bin/sh\necho ran\n' >"$copy/crates/normd/out/normd"
run / "$copy/normd" session
row 'a program for older processors' 0 ran 0

sed -i '1i fn' "$copy/crates/normd/src/main.rt"
run / "$copy/build" --unproved
[ "$status" = 1 ] || wrong "a program that does not compile ended ./build --unproved with status $status"
grep -q 'error\[' "$scratch/err" || wrong 'what the tool says of the program is lost'
[ "$(ls -A "$copy/out")" = normd-unproved ] || wrong "a program that does not compile left $(ls -A "$copy/out")"

echo "wrapper: $rows rows passed"
