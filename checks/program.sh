#!/bin/sh
# Runs the built program at each status, and compares what it writes on standard output and standard error. What a session has to
# write is worked out by hand, or was printed by another program that was written from the rules alone (checks/sessions).
# It is run after `rt ci`, which leaves the program; the first row that differs is named, and ends it with status 1.
cd "$(dirname "$0")/.." || exit 1
program=$PWD/crates/normd/out/normd
usage='usage: normd session | show | generate N | send PROFILE | recv PROFILE NODE | hub PROFILE | gather PROFILE NODE .. | relay UP NODE DOWN | mirror'
version='normd 0.1.0'
rows=0

[ -x "$program" ] || { echo "program: $program is not there: run './build' first"; exit 1; }
scratch=$(mktemp -d) || exit 1
# Where senders keep the number of their last instance. `forget` takes all of it away, so that the next sender may use any number without a warning.
export XDG_STATE_HOME="$scratch/state"
forget() { rm -rf "$XDG_STATE_HOME"; }
nodes='' sender='' unheard=''
# shellcheck disable=SC2086 # each is a process of its own
trap 'kill $nodes $sender $unheard 2>/dev/null; rm -rf "$scratch"' EXIT
# Sixteen ports for each process, below those that the system gives out itself, and below those of tests_outside.
port=$((10000 + $$ % 400 * 16))
files=$scratch/files
mkdir "$files" "$files/folder" || exit 1
cp examples/letter.txt checks/sessions/files/* "$files" || exit 1
printf 'hi' >"$files/hi.txt"
: >"$files/empty"

# row NAME STATUS OUTPUT WORD..: the input stands in $scratch/in, and the program runs in the folder $files. The output is compared with
# its line feeds, and so is standard error with $reason, the lines that may stand there.
reason=
row() {
    name=$1 wanted=$2 output=$3
    shift 3
    (cd "$files" && exec "$program" "$@") <"$scratch/in" >"$scratch/out" 2>"$scratch/err"
    ended $? "$name" "$wanted"
    printf '%b' "$output" | cmp -s - "$scratch/out" || { echo "program: $name wrote"; cat "$scratch/out"; exit 1; }
    said "$name"
}

# said NAME: standard error is $reason, which is none for the next row.
said() {
    printf '%b' "$reason" | cmp -s - "$scratch/err" || { echo "program: $1 said"; cat "$scratch/err"; exit 1; }
    reason=
}

# script INPUT OUTPUT: a script that is run to its end. fails STATUS REASON INPUT OUTPUT: one that is broken off, or has its turns spent.
# refused LINE WHY INPUT: one of which this line is the first without meaning. recorded NAME: one of checks/sessions.
script() {
    printf '%b' "$1" >"$scratch/in"
    row "the script $1" 0 "$2" session
}

fails() {
    printf '%b' "$3" >"$scratch/in"
    reason=$2
    row "the script $3" "$1" "$4" session
}

recorded() {
    cp "checks/sessions/$1.in" "$scratch/in"
    row "the session $1" 0 "$(cat "checks/sessions/$1.out")\n" session
}

refused() {
    printf '%b' "$3" >"$scratch/in"
    reason="line $1: $2\n"
    row "the script $3" 3 "refused line $1\n" session
}

# unshown LINE WHY OUTPUT INPUT: datagrams of which this line spells none.
unshown() {
    printf '%b' "$4" >"$scratch/in"
    reason="line $1: $2\n"
    row "the datagrams $4" 3 "$3refused line $1\n" show
}

# words WHY WORD..: words that are no command.
words() {
    reason="$1\n$version\n"
    shift
    row "the words $*" 2 "$usage\n" "$@"
}

# helps COMMAND WORD..: words that ask for help, and get the text of this command, or of the program if it is `COMMAND`: at most 24 lines of 79 letters.
helps() {
    command=$1
    shift
    : >"$scratch/in"
    (cd "$files" && exec "$program" "$@") <"$scratch/in" >"$scratch/out" 2>"$scratch/err"
    ended $? "the words $*" 2
    printf '%s\n' "$usage" | cmp -s - "$scratch/out" || { echo "program: the words $* wrote"; cat "$scratch/out"; exit 1; }
    if ! head -n 1 "$scratch/err" | grep -q "^usage: normd $command" || [ "$(wc -l <"$scratch/err")" -gt 24 ] || grep -q '.\{80\}' "$scratch/err"; then
        echo "program: the words $* said"
        cat "$scratch/err"
        exit 1
    fi
}

# digits N: that many digits 0.
digits() {
    head -c "$1" /dev/zero | tr '\0' 0
}

# ended STATUS NAME WANTED
ended() {
    rows=$((rows + 1))
    [ "$1" = "$3" ] || { echo "program: $2 ended with status $1, and not $3"; exit 1; }
}

# awaits FILE TEXT: the text is there within twenty seconds.
awaits() {
    tries=0
    until grep -qs "$2" "$scratch/$1"; do
        tries=$((tries + 1))
        [ $tries -le 200 ] || { echo "program: '$2' does not come to $1, which has"; cat "$scratch/$1"; exit 1; }
        sleep 0.1
    done
}

# node NAME WORD..: a node that runs on until `end_nodes`, in a folder of its own. What it writes stands in NAME.out, and what it says in NAME.err.
node() {
    folder=$scratch/$1
    shift
    mkdir "$folder" || exit 1
    (cd "$folder" && exec "$program" "$@" </dev/null) >"$folder.out" 2>"$folder.err" &
    nodes="$nodes $!"
}

end_nodes() {
    # shellcheck disable=SC2086 # each is a process of its own
    kill $nodes
    # shellcheck disable=SC2086
    wait $nodes 2>/dev/null
    nodes=''
}

# silent FILE..: nothing stands there.
silent() {
    for file in "$@"; do
        [ ! -s "$scratch/$file" ] || { echo "program: $file has"; cat "$scratch/$file"; exit 1; }
    done
}

# A receiver to which nothing comes, and which says so after ten seconds: it is looked at behind all other rows.
printf 'fabric = "udp"\nport = %s\nstep = 0\n' $((port + 8)) >"$scratch/unheard.toml"
"$program" recv "$scratch/unheard.toml" 2 </dev/null >"$scratch/unheard.out" 2>"$scratch/unheard.err" &
unheard=$!

# Sessions, and words.
cp examples/hello.norm "$scratch/in"
row 'a session' 0 'enq 1 1 7 0 data 5\nup 2 7 0 data 5 - 68656c6c6f\nend objects 1 octets 5 handed 1 lost 0 satisfied 0 expired 0 cut 0\n' session
words 'no word says what to do'
words 'the word sessions is unknown' sessions
words 'the word normd is unknown' normd session
group_takes='--group ADDRESS or ADDRESS:PORT, four numbers with points and a port from 1024 to 65534'
send_takes="send takes one word, the path of a profile, --instance I, from 0 to 65535, and $group_takes, each at most once"
hub_takes='hub takes one word, the path of a profile'
recv_takes="recv takes two words, the path of a profile and a node, from 1 to 4294967294, and $group_takes, at most once"
words "$send_takes" send
words "$send_takes" send one two
helps send send one --help
words "$send_takes" send --instance 1
words "$send_takes" send one --instance
words "$send_takes" send one --instance=
words "$send_takes" send one --instance 01
words "$send_takes" send one --instance +1
words "$send_takes" send one --instance -1
words "$send_takes" send one --instance 65536
words "$send_takes" send one --instance 1 --instance=1
words "$send_takes" send one --port 1
words "$send_takes" send one --tail 1
words "$send_takes" send one --group
words "$send_takes" send one --group=
words "$send_takes" send one --group localhost
words "$send_takes" send one --group 127.255.255
words "$send_takes" send one --group 127.255.255.255.255
words "$send_takes" send one --group 127.255.255.256
words "$send_takes" send one --group 127.255.255.0255
words "$send_takes" send one --group 127.255.255.255:
words "$send_takes" send one --group 127.255.255.255:1023
words "$send_takes" send one --group 127.255.255.255:65535
words "$send_takes" send one --group 127.255.255.255:09999
words "$send_takes" send one --group 255.255.255.255
words "$send_takes" send one --group ::1
words "$send_takes" send one --group 127.255.255.255 --group 127.255.255.255
helps hub hub --help
words "$hub_takes" hub one --group 127.255.255.255
words "$hub_takes" hub one --instance 1
words "$recv_takes" recv profile
words "$recv_takes" recv profile 0
words "$recv_takes" recv profile 02
words "$recv_takes" recv profile 4294967295
words "$recv_takes" recv profile 2 --instance 1
words "$recv_takes" recv profile 2 --group 255.255.255.255:5000
words "$recv_takes" recv profile 2 --group 127.255.255.255:80
gather_takes='gather takes one to eight pairs of words, the path of a profile and a node, from 1 to 4294967294'
words "$gather_takes" gather
words "$gather_takes" gather a.toml
words "$gather_takes" gather a.toml 2 b.toml
words "$gather_takes" gather a.toml 0
words "$gather_takes" gather a.toml 02
words "$gather_takes" gather a.toml two
words "$gather_takes" gather none.toml 4294967295
helps gather gather a.toml 2 --help
words "$gather_takes" gather a.toml 2 --instance 1
words "$gather_takes" gather a.toml 2 b.toml 3 c.toml 4 d.toml 5 e.toml 6 f.toml 7 g.toml 8 h.toml 9 i.toml 10
relay_takes='relay takes three words, the path of the profile above, a node of it, from 1 to 4294967294, and the path of the profile below, and --instance I, from 0 to 65535, at most once'
words 'the word NAMES is one too many behind mirror' mirror NAMES
words "$relay_takes" relay
words "$relay_takes" relay up.toml 2
words "$relay_takes" relay up.toml 2 down.toml 3
words "$relay_takes" relay up.toml 0 down.toml
words "$relay_takes" relay none.toml 4294967295 down.toml
words "$relay_takes" relay up.toml two none.toml
words "$relay_takes" relay up.toml 2 down.toml --instance 65536
words "$relay_takes" relay --instance 1 up.toml 2 down.toml --instance 2
helps relay relay up.toml 2 down.toml --help
session_takes='session takes --chance N, from 0 to 4294967295, --turns N and --tail T, from 1 to 4000000, each at most once, and no other word'
words "$session_takes" session now
for asks in --help -h help; do
    helps COMMAND $asks
    helps COMMAND normd $asks
    for command in session show generate send recv hub gather relay mirror; do
        helps $command $command $asks now
    done
done
for command in '' session show generate send recv hub gather relay mirror; do
    reason="$version\n"
    # shellcheck disable=SC2086 # none, or one
    row "the version $command" 2 "$usage\n" $command --version
done
words "$session_takes" session --turns 0
words "$session_takes" session --turns 4000001
words "$session_takes" session --chance 4294967296
words "$session_takes" session --chance 01
words "$session_takes" session --chance
words "$session_takes" session --turns 1 --turns=2
words "$session_takes" session --tail 0
words "$session_takes" session --tail 4000001
words "$session_takes" session --tail 05
words "$session_takes" session --tail 1 --tail=1
words "$session_takes" session --chance 07
words "$session_takes" session --chance 1 --chance 2
words "$session_takes" session --tail 5 --tail 5
words "$session_takes" session --loss 1
words "$session_takes" session --group 127.255.255.255
generate_takes='generate takes one word, a number from 0 to 4294967295'
words "$generate_takes" generate
words "$generate_takes" generate x
words "$generate_takes" generate 4294967296
words "$generate_takes" generate 1 2
words 'the word now is one too many behind show' show now
words 'a word is not UTF-8' "$(printf '\377\376')"
none='end objects 0 octets 0 handed 0 lost 0 satisfied 0 expired 0 cut 0\n'
script '' "$none"
: >"$scratch/in"
row 'both options at their greatest' 0 "$none" session --turns=4000000 --chance=4294967295
row 'a tail after the first turn of at most five' 0 "$none" session --tail 1 --turns 5
row 'a tail after the greatest turn' 0 "$none" session --tail=4000000
one='enq 1 1 1 0 data 1\nup 2 1 0 data 1 - 61\nend objects 1 octets 1 handed 1 lost 0 satisfied 0 expired 0 cut 0\n'
script '1 data 61\n' "$one"
script '1 data 61' "$one"
script '# a comment\n\n1 data 61\n\n# \0303\0251' "$one"
script 'set instance 7\nset e 64\nset b 4\n1 data 68656c6c6f\n' 'enq 1 1 7 0 data 5\nup 2 7 0 data 5 - 68656c6c6f\nend objects 1 octets 5 handed 1 lost 0 satisfied 0 expired 0 cut 0\n'

# Objects of many symbols, watermarks, restarts, strikes, and files; commands that wait, and those that are refused for good.
set='set instance 7\nset e 64\nset b 4\n'
text=68656c6c6f
script "${set}1 data $text\n1 mark\n" "enq 1 1 7 0 data 5\nup 2 7 0 data 5 - $text\nmark 1 2 7 1 0 0 0\npast 2 7 0 0 0\ndone 1 satisfied\nend objects 1 octets 5 handed 1 lost 0 satisfied 1 expired 0 cut 0\n"
script "${set}set window 1\n1 data 01\n1 mark\n1 data 02\n" 'enq 1 1 7 0 data 1\nup 2 7 0 data 1 - 01\nmark 1 2 7 1 0 0 0\npast 2 7 0 0 0\ndone 1 satisfied\nenq 1 3 7 1 data 1\nup 2 7 1 data 1 - 02\nend objects 2 octets 2 handed 2 lost 0 satisfied 1 expired 0 cut 0\n'
script "${set}1 data 01\n1 mark 3\n1 strike 9\n1 strike 2\n1 mark 1\n" 'enq 1 1 7 0 data 1\nup 2 7 0 data 1 - 01\nno 1 2 quorum 3\nno 1 3 not-member 9\nno 1 4 last-member 2\nmark 1 5 7 1 0 0 0 1\npast 2 7 0 0 0\ndone 1 satisfied\nend objects 1 octets 1 handed 1 lost 0 satisfied 1 expired 0 cut 0\n'
script "${set}1 data 01\n1 restart 8\n1 data 02\n1 restart 7\n" 'enq 1 1 7 0 data 1\nup 2 7 0 data 1 - 01\nrestart 1 2 8\nenq 1 3 8 0 data 1\nup 2 8 0 data 1 - 02\nno 1 4 id-used 7\nend objects 2 octets 2 handed 2 lost 0 satisfied 0 expired 0 cut 0\n'
script 'set instance 65535\n1 restart 0\n1 restart 65535\n1 restart 32767\n1 restart 32766\n' "restart 1 1 0\nno 1 2 id-used 65535\nno 1 3 id-used 32767\nrestart 1 4 32766\n$none"
script '1 strike 2\n' "no 1 1 last-member 2\n$none"
script 'set receivers 2\n' "$none"
script '1 mark\n' "no 1 1 nothing-enqueued\n$none"
script "${set}1 file hi.txt\n" 'enq 1 1 7 0 file 2\nup 2 7 0 file 2 68692e747874 6869\nend objects 1 octets 2 handed 1 lost 0 satisfied 0 expired 0 cut 0\n'
script '1 file empty\n' "no 1 1 empty\n$none"
script 'set octets 64\n1 file letter.txt\n' "no 1 1 too-big 141\n$none"

# A file of three symbols to three receivers: the copy of the first is lost to node 2, that of the last to node 3, and one parity symbol
# repairs both. Worked out from the rules, with the words that the network draws.
cp examples/lossy.norm "$scratch/in"
up="1 0 file 141 6c65747465722e747874 $(od -An -v -tx1 examples/letter.txt | tr -d ' \n')"
row 'a file over a network that loses' 0 "enq 1 1 1 0 file 141\nmark 1 2 1 1 0 0 2\nup 4 $up\npast 4 1 0 0 2\nup 2 $up\nup 3 $up\npast 2 1 0 0 2\npast 3 1 0 0 2\ndone 1 satisfied\nend objects 1 octets 141 handed 3 lost 0 satisfied 1 expired 0 cut 0\n" session
recorded direct
recorded many-commands
recorded file-over-loss
recorded drop-over-loss
recorded stream
recorded streams

# Options stand in place of the script's keys: the last turn, and the seed of what the network and the session draw.
printf '1 data 61\n1 data 62\n' >"$scratch/in"
row 'a session of one turn' 8 'enq 1 1 1 0 data 1\nup 2 1 0 data 1 - 61\nend objects 1 octets 1 handed 1 lost 0 satisfied 0 expired 0 cut 0\nturns spent\n' session --turns 1
sed 's/^set chance 3684811790$/set chance 1/' checks/sessions/file-over-loss.in >"$scratch/in"
grep -qx 'set chance 1' "$scratch/in" || { echo 'program: file-over-loss has another chance'; exit 1; }
row 'a session with the chance of its words' 0 "$(cat checks/sessions/file-over-loss.out)\n" session --turns=1000000 --chance=3684811790

# A tail: after its turn nothing is lost any more. What is said of a refusal has the numbers that decide.
tails() {
    printf '%b' "$3" >"$scratch/in"
    reason=$2
    row "a tail after turn $5 of the script $3" "$1" "$4" session --tail "$5"
}
marked='enq 1 1 7 0 data 1\nup 2 7 0 data 1 - 01\nmark 1 2 7 1 0 0 0\n'
open='end objects 1 octets 1 handed 1 lost 0 satisfied 0 expired 0 cut 0\n'
tails 0 '' "${set}set gap 100\nset step 100\n1 data 01\n1 mark\n" "${marked}past 2 7 0 0 0\ndone 1 satisfied\nend objects 1 octets 1 handed 1 lost 0 satisfied 1 expired 0 cut 0\ntail 200 5200\n" 2
tails 0 '' "${set}1 data 68656c6c6f\n" 'enq 1 1 7 0 data 5\nup 2 7 0 data 5 - 68656c6c6f\nend objects 1 octets 5 handed 1 lost 0 satisfied 0 expired 0 cut 0\n' 5
tails 12 'after turn 1 a command was not pulled yet, or waits\n' "${set}1 data 01\n1 mark\n" "enq 1 1 7 0 data 1\nup 2 7 0 data 1 - 01\n${open}tail refused waiting\n" 1
tails 12 'after turn 2 no watermark is open, and the session is not whole\n' "${set}set gap 3000\n1 data 01\n1 data 02\n" 'enq 1 1 7 0 data 1\nup 2 7 0 data 1 - 01\nenq 1 2 7 1 data 1\nend objects 2 octets 2 handed 1 lost 0 satisfied 0 expired 0 cut 0\ntail refused no-request\n' 2
tails 12 'the mode of the profile is drop, and a tail wants hold\n' "${set}set mode drop\n1 data 01\n1 mark\n" "$marked${open}tail refused mode\n" 2
tails 12 'the number of streams in the window is 1, and a tail wants none\n' "${set}1 open\n1 write 41\n1 mark\n" 'enq 1 1 7 0 open\nenq 1 2 7 0 write 1 0\nmark 1 3 7 1 0 0 0\nup 2 7 0 open\nup 2 7 0 bytes 0 1 41\nend objects 1 octets 1 handed 0 lost 0 satisfied 0 expired 0 cut 0\ntail refused streams\n' 3
tails 12 'the step of 251 microseconds is not from 1 to the gap of 250\n' "${set}set gap 250\nset step 251\n1 data 01\n1 mark\n" "$marked${open}tail refused step\n" 2
tails 12 'the number of infos and symbols in the window is 1: with one more, sent twice, a gap of 100 and a step of 50 apart, they take longer than the grtt of 599 microseconds\n' "${set}set grtt 599\nset gap 100\nset step 50\n1 data 01\n1 mark\n" "$marked${open}tail refused pace\n" 2
tails 12 'the number of flushes that were counted is 1: with twice the k of 8 it is above 15\n' "${set}set gap 250\nset step 250\nset k 8\n1 data 01\n1 mark\n" "$marked${open}tail refused flushes\n" 2

# 300 commands of three producers to 16 receivers, where one copy in ten is lost, some come twice and some late: each of the 270 objects is
# handed up by all, and each of the 30 watermarks is satisfied. The script is that of `norm_script/specs/Generated` for 42, which the program
# writes octet for octet.
python3 - >"$scratch/script" <<'END'
print('set instance 7\nset receivers 16\nset producers 3\nset e 64\nset b 4\nset turns 4000000\nset fabric chance')
print('set chance 42\nset loss 100\nset repeat 50\nset late 3')
for p in 1, 2, 3:
    for i in range(100):
        octets = range(1 + (42 + 37 * p + 101 * i) % 500)
        print(p, 'mark' if i % 10 == 9 else 'data ' + bytes((42 + p + i + j) % 256 for j in octets).hex())
END
(cd "$files" && exec "$program" generate 42) </dev/null >"$scratch/in" 2>"$scratch/err"
ended $? 'the script of 42' 0
cmp -s "$scratch/script" "$scratch/in" || { echo 'program: generate 42 wrote another script'; exit 1; }
said 'the script of 42'
(cd "$files" && exec "$program" session) <"$scratch/in" >"$scratch/all" 2>"$scratch/err"
ended $? 'the session of 300 commands' 0
tail -n 1 "$scratch/all" | grep -qx 'end objects 270 octets 71820 handed 4320 lost 0 satisfied 30 expired 0 cut 0' ||
    { echo "program: the session of 300 commands ended so"; tail -n 1 "$scratch/all"; exit 1; }
said 'the session of 300 commands'

# Three files of 1 MiB through a window of two: the ring has room for 1,499 symbols, and the third file goes round its end.
python3 - "$files" >"$scratch/ups" <<'END'
import sys
for index, name in enumerate('abc'):
    octets = bytes((index + i * i) % 251 for i in range(1048576))
    open(f'{sys.argv[1]}/{name}', 'wb').write(octets)
    print('up 2 1', index, 'file 1048576', name.encode().hex(), octets.hex())
END
printf '%s\n' 'set e 1400' 'set b 200' 'set octets 2097152' 'set window 2' '1 file a' '1 mark' '1 file b' '1 mark' '1 file c' '1 mark' >"$scratch/in"
(cd "$files" && exec "$program" session) <"$scratch/in" >"$scratch/all" 2>"$scratch/err"
ended $? 'three files in a ring' 0
grep '^up ' "$scratch/all" | cmp -s - "$scratch/ups" || { echo 'program: three files in a ring were handed up otherwise'; exit 1; }
tail -n 1 "$scratch/all" | grep -qx 'end objects 3 octets 3145728 handed 3 lost 0 satisfied 3 expired 0 cut 0' ||
    { echo 'program: three files in a ring ended so'; tail -n 1 "$scratch/all"; exit 1; }
said 'three files in a ring'

# Sessions that come to no summary, or to one that is not whole.
fails 8 '' "${set}set window 1\nset turns 50\n1 data 01\n1 data 02\n" 'enq 1 1 7 0 data 1\nup 2 7 0 data 1 - 01\nend objects 1 octets 1 handed 1 lost 0 satisfied 0 expired 0 cut 0\nturns spent\n'
# More turns than the default of `turns`: the second object goes a million turns after the first, and the third would as many after that.
fails 8 '' 'set step 1\nset gap 1000000\nset turns 1200000\n1 data 61\n1 data 62\n1 data 63\n' 'enq 1 1 1 0 data 1\nup 2 1 0 data 1 - 61\nenq 1 2 1 1 data 1\nenq 1 3 1 2 data 1\nup 2 1 1 data 1 - 62\nend objects 3 octets 3 handed 2 lost 0 satisfied 0 expired 0 cut 0\nturns spent\n'
fails 7 '' '1 file none.txt\n' 'absent none.txt\n'
fails 7 '' "${set}1 data 01\n1 file none.txt\n1 data 02\n" 'enq 1 1 7 0 data 1\nup 2 7 0 data 1 - 01\nabsent none.txt\n'
fails 7 'cannot use the file ./folder: is a directory\n' '1 file folder\n' 'fault files\n'
fails 0 '' "set fabric udp\nset port $port\n1 data 61\n1 mark\n" 'enq 1 1 1 0 data 1\nup 2 1 0 data 1 - 61\nmark 1 2 1 1 0 0 0\npast 2 1 0 0 0\ndone 1 satisfied\nend objects 1 octets 1 handed 1 lost 0 satisfied 1 expired 0 cut 0\n'

# Over a direct network a script of data, files and marks tells how many turns are enough (docs/scripts.md). It ends whole with so many, and with as few
# as it takes; with one fewer they are spent. The least numbers are those of checks/plain.
first="enq 1 1 7 0 data 5\nup 2 7 0 data 5 - $text\n"
marked="${first}mark 1 2 7 1 0 0 0\n"
for turns in 4 1; do
    script "${set}set turns $turns\n1 data $text\n" "${first}end objects 1 octets 5 handed 1 lost 0 satisfied 0 expired 0 cut 0\n"
done
for turns in 27 3; do
    script "${set}set turns $turns\n1 data $text\n1 mark\n" "${marked}past 2 7 0 0 0\ndone 1 satisfied\nend objects 1 octets 5 handed 1 lost 0 satisfied 1 expired 0 cut 0\n"
done
fails 8 '' "${set}set turns 2\n1 data $text\n1 mark\n" "${marked}end objects 1 octets 5 handed 1 lost 0 satisfied 0 expired 0 cut 0\nturns spent\n"
for turns in 2 1; do script "set turns $turns\n" "$none"; done
# Of 17 marks in a row one waits. If a step is a microsecond shorter than the gap, eight symbols take more turns than that; nothing tells how many.
marks=$(printf '1 mark\\n%.0s' 1 2 3 4 5 6 7 8 9 10 11 12 13 14 15 16 17)
for turns in 395 18; do
    printf '%b' "set turns $turns\n1 data 61\n$marks" >"$scratch/in"
    (cd "$files" && exec "$program" session) <"$scratch/in" >"$scratch/all" 2>"$scratch/err"
    ended $? "17 marks in $turns turns" 0
    tail -n 1 "$scratch/all" | grep -qx 'end objects 1 octets 1 handed 1 lost 0 satisfied 17 expired 0 cut 0' ||
        { echo "program: 17 marks in $turns turns ended so"; tail -n 1 "$scratch/all"; exit 1; }
    said "17 marks in $turns turns"
done
symbols=$(printf '41%.0s' $(seq 512))
script "set e 64\nset turns 11\n1 data $symbols\n" "enq 1 1 1 0 data 512\nup 2 1 0 data 512 - $symbols\nend objects 1 octets 512 handed 1 lost 0 satisfied 0 expired 0 cut 0\n"
fails 8 '' "set e 64\nset step 999\nset turns 11\n1 data $symbols\n" 'enq 1 1 1 0 data 512\nend objects 1 octets 512 handed 0 lost 0 satisfied 0 expired 0 cut 0\nturns spent\n'

# Commands of streams that are refused.
fails 0 '' '1 mark\n1 open\n1 data 01\n' 'no 1 1 nothing-enqueued\nenq 1 2 1 0 open\nno 1 3 stream-open 0\nend objects 1 octets 0 handed 0 lost 0 satisfied 0 expired 0 cut 0\n'
script 'set octets 4096\n1 open\n' "no 1 1 too-big 1048576\n$none"
script "set e 64\nset b 1\nset blocks 2\n1 open\n1 write $(printf '%0130d' 0)\n" 'enq 1 1 1 0 open\nno 1 2 too-big 65\nend objects 1 octets 0 handed 0 lost 0 satisfied 0 expired 0 cut 0\n'
fails 0 '' '1 write 41\n1 close\n' 'no 1 1 no-stream\nno 1 2 no-stream\nend objects 0 octets 0 handed 0 lost 0 satisfied 0 expired 0 cut 0\n'

# Lines of a script without a meaning, and why.
contents='contents are an even number of hexadecimal digits, 2 to 16384'
form='it is neither `set KEY VALUE` nor `P VERB ..`, P a producer'"'"'s number from 1 on'
refused 1 'a quorum is a number from 1 to 16' '1 mark 0\n'
refused 1 'a quorum is a number from 1 to 16' '1 mark 17\n'
refused 1 '63 is below 64, the least e' 'set e 63\n'
refused 1 'the value is above 200, the greatest b' 'set b 201\n'
refused 1 'the value is above 1400, the greatest e' 'set e 1401'
refused 2 '63 is below 64, the least e' '\nset e 63'
refused 3 'the key e was set on line 1' 'set e 64\n\nset e 65'
refused 1 "$contents" '1 data 616'
refused 3 'the key e was set on line 2' '#\nset e 64\nset e 64\n'
refused 2 'no key is set here: keys are set before every command' '1 data 61\nset e 64\n1 mark\n'
refused 2 "$contents" 'set e 64\n1 data 6\n'
refused 1 "$contents" '1 data \0303\0251\n'
refused 1 "$form" 'set e\n'
refused 1 "$form" ' 1 data 61\n'
refused 1 'the value of e is a number, in decimal digits without a sign or leading zeros' 'set e 064\n'
refused 1 'it sets no key that there is' 'set f 64\n'
refused 1 'the producer is 2, and there are 1' '2 data 61\n'
refused 4097 'a script has at most 4096 commands' "$(digits 4097 | sed 's/0/1 data 61\\n/g')"
refused 1 'it ends with a carriage return: write lines that end with a line feed alone' 'set e 64\r\n'
refused 2 'it ends with a carriage return: write lines that end with a line feed alone' '\n1 data 61\r\n'
refused 1 'it begins with a byte order mark: write UTF-8 without one' '\0357\0273\0277set e 64\n'
refused 1 'it has an octet 0, 254 or 255, as UTF-16 has: write ASCII or UTF-8' '\0377\0376s\0000e\0000t\0000\n\0000'
refused 1 'it has an octet 0, 254 or 255, as UTF-16 has: write ASCII or UTF-8' 's\0000e\0000t\0000 \0000e\0000\n'
refused 1 'it ends with a space' '1 data 61 \n'
refused 1 'it has two spaces in a row: words have one between them' 'set  e 64\n'

# at_line LINE SCRIPT: this line is the first without meaning. What is said of it is not compared.
at_line() {
    printf '%b' "$2" >"$scratch/in"
    (cd "$files" && exec "$program" session) <"$scratch/in" >"$scratch/out" 2>"$scratch/err"
    ended $? "the script $2" 3
    echo "refused line $1" | cmp -s - "$scratch/out" || { echo "program: the script $2 wrote"; cat "$scratch/out"; exit 1; }
}

# Each key at the least and the greatest of its values, with a line behind it that means nothing. Then each just past its range, and values in forms
# that are refused.
within='instance 0,instance 65535,first 0,first 65535,sender 1,sender 4294967278,receivers 1,receivers 16,producers 1,producers 4,e 64,e 1400,b 1
b 200,max_n 64,max_n 255,auto 0,auto 255,window 1,window 256,octets 1,octets 16777216,blocks 2,blocks 256,mode hold,mode drop,gap 1
gap 1000000,grtt 1,grtt 10000000,grtt_code 0,grtt_code 255,gsize_code 0,gsize_code 15,k 0,k 15,step 0,step 1000000,turns 1,turns 4000000
fabric direct,fabric chance,fabric udp,chance 0,chance 4294967295,loss 0,loss 900,repeat 0,repeat 900,late 0,late 64,port 1024,port 65000'
past='instance 65536,first 65536,sender 0,sender 4294967279,receivers 0,receivers 17,producers 0,producers 5,e 63,e 1401,b 0,b 201,max_n 0
max_n 256,auto 256,window 0,window 257,octets 0,octets 16777217,blocks 1,blocks 257,mode hole,mode 0,gap 0,gap 1000001,grtt 0,grtt 10000001
grtt_code 256,gsize_code 16,k 16,step 1000001,turns 0,turns 4000001,fabric tcp,fabric 1,chance 4294967296,loss 901,repeat 901,late 65
port 1023,port 65001,instance -1,instance +1,instance 01,instance ,K 1'
echo "$within" | tr ',' '\n' >"$scratch/rows"
while IFS= read -r line; do at_line 2 "set $line\nbogus\n"; done <"$scratch/rows"
echo "$past" | tr ',' '\n' >"$scratch/rows"
while IFS= read -r line; do at_line 1 "set $line\n"; done <"$scratch/rows"
at_line 1 'set instance\nbogus\n'
at_line 1 'set max_n 10\n# c\n1 data 61'
at_line 3 'set b 200\nset e 1400\nset blocks 60\n1 bogus'
at_line 2 'set max_n 10\nbogus\nset b 4'
at_line 2 '1 mark\nset e 64'
at_line 4 '\n\n1 mark\n2 mark'
at_line 5 '1 mark 1\n1 mark 16\n1 strike 1\n1 strike 4294967294\n1 mark 17'
at_line 1 '1 Mark\n'
at_line 1 '1 strike\n'
script 'set max_n 1\nset b 1' "$none"
script 'set max_n 10\nset b 4\n1 data 61' "$one"
script '1 data 4A6b 00\n' 'enq 1 1 1 0 data 2\nup 2 1 0 data 2 00 4a6b\nend objects 1 octets 2 handed 1 lost 0 satisfied 0 expired 0 cut 0\n'

# One line too many, and one that is too long: of each the number is said.
yes '' | head -n 8193 >"$scratch/in"
reason='line 8193: a script has at most 8192 lines\n'
row 'a script of 8,193 empty lines' 3 'refused line 8193\n' session
{ printf '1 data 61\n#'; digits 16500; printf '\n'; } >"$scratch/in"
reason='line 2: the line has 16501 octets, and a line has at most 16500\n'
row 'a script with a line of 16,501 octets' 3 'refused line 2\n' session

# Nodes, each in a process of its own, which are ended by a signal. send_letter QUORUM WORD..: a sender with these words that sends a file to two
# receivers and waits for so many; for all where none is said.
send_letter() {
    forget
    printf '1 file letter.txt\n1 mark%s\n' "$1" >"$scratch/in"
    shift
    (cd "$files" && exec "$program" send "$scratch/profile" "$@") <"$scratch/in" >"$scratch/out" 2>"$scratch/err" &
    sender=$!
}

# letter_sent NAME QUORUM PART: the sender ends and lists both receivers, PART.2 and PART.3, which put the file and hand it up.
letter_sent() {
    wait "$sender"
    ended $? "$1" 0
    sender=''
    said "$1"
    {
        printf 'enq 1 1 1 0 file 141\nmark 1 2 1 1 0 0 0%s\ndone 1 satisfied\n' "$2"
        printf 'end objects 1 octets 141 handed 0 lost 0 satisfied 1 expired 0 cut 0\npast 2 1 0 0 0\npast 3 1 0 0 0\n'
    } | LC_ALL=C sort >"$scratch/wanted"
    LC_ALL=C sort "$scratch/out" | cmp -s "$scratch/wanted" - || { echo "program: $1 wrote"; cat "$scratch/out"; exit 1; }
    for at in 2 3; do
        cmp -s examples/letter.txt "$scratch/$3.$at/n$at-i1-x0" || { echo "program: of $1 receiver $at put another file"; exit 1; }
        echo "up $at $up" | cmp -s - "$scratch/$3.$at.out" || { echo "program: of $1 receiver $at wrote"; cat "$scratch/$3.$at.out"; exit 1; }
    done
}

# progress FILE: a node said how far it is, on one line that is drawn over itself, and nothing else.
progress() {
    line='[0-9]+ octets, [01] objects, [0-9]+ repairs, 0 receivers past the oldest watermark'
    tr '\r' '\n' <"$scratch/$1" | tail -n +2 | grep -qvxE "$(printf '\033')\\[K$line" && { echo "program: $1 has"; cat "$scratch/$1"; exit 1; }
    rows=$((rows + 1))
}

printf 'fabric = "udp"\nport = %s\nreceivers = 2\nstep = 0\ninstance = 1\n' "$port" >"$scratch/profile"
node still.hub hub ../profile
node still.2 recv ../profile 2
export NORMD_PROGRESS=1
node still.3 recv ../profile 3
unset NORMD_PROGRESS
send_letter ''
letter_sent 'a sender alone' '' still
awaits still.3.err '141 octets, 1 objects'
end_nodes
progress still.3.err
silent still.hub.out still.hub.err still.2.err

# A group, without a hub: at the profile's port, and at another. grouped NAME ADDRESS
grouped() {
    node "$1.2" recv ../profile 2 --group "$2"
    node "$1.3" recv ../profile 3 --group "$2"
    send_letter '' --group "$2"
    letter_sent "a sender in a $1" '' "$1"
    end_nodes
    silent "$1.2.err" "$1.3.err"
}
printf 'fabric = "udp"\nport = %s\nreceivers = 2\nstep = 0\ninstance = 1\ngrtt = 100000\n' "$port" >"$scratch/profile"
grouped group 127.255.255.255
# Not the port of the receiver that hears nothing: it listens at this address too.
grouped group.port "127.255.255.255:$((port + 5))"

# Addresses that are no broadcast addresses: this machine's own, none, and one of a multicast group. Of the last a machine without a way there says that it
# cannot be reached.
for at in 127.0.0.1 0.0.0.0 $(ip route get 239.1.1.1 >/dev/null 2>&1 && echo 239.1.1.1); do
    : >"$scratch/in"
    reason="cannot join a group at $at:$((port + 1)): it is no broadcast address of this machine\n"
    row "a group at $at" 6 'fault fabric\n' recv "$scratch/profile" 2 --group "$at"
done

# noise PORT..: two thousand random datagrams to each node, each time the same, as soon as it is there. They come from the place of a receiver that
# is not there, so that the hub hands them on.
noise() {
    python3 - $((port + 4)) "$@" <<'END' || { echo 'program: a node does not take random datagrams'; exit 1; }
import random, socket, sys, time
own, *ports = map(int, sys.argv[1:])
out = socket.socket(socket.AF_INET, socket.SOCK_DGRAM)
out.bind(('127.0.0.1', own))

def is_there():
    try:
        out.send(b'?')
        out.send(b'?')  # fails if nobody had the first
    except ConnectionRefusedError:
        return False
    return True

for port in ports:
    out.connect(('127.0.0.1', port))
    end = time.monotonic() + 20
    while not is_there():
        time.sleep(0.01)
        if time.monotonic() > end:
            sys.exit(f'nobody is at {port}')
    draws = random.Random(own - port)
    for number in range(2000):
        out.send(draws.randbytes(draws.randrange(1, 1600)))
        if number % 50 == 0:
            time.sleep(0.001)
END
}

# The hub comes last, so that the file goes through behind the random datagrams of all others.
printf 'fabric = "udp"\nport = %s\nreceivers = 3\nstep = 0\ninstance = 1\ngrtt = 200000\nk = 1\n' "$port" >"$scratch/profile"
node noisy.2 recv ../profile 2
node noisy.3 recv ../profile 3
send_letter ' 2'
# The sender hears the hub alone, which hands on to it what it gets.
noise $((port + 2)) $((port + 3))
node noisy.hub hub ../profile
noise "$port"
letter_sent 'a sender amid random datagrams' ' 2' noisy
end_nodes
silent noisy.hub.out noisy.hub.err noisy.2.err noisy.3.err

# Three receivers that run throughout. Each send draws a number above that of the send before it, so that nobody takes what it sends for what came before.
printf 'fabric = "udp"\nport = %s\nreceivers = 3\nstep = 0\ne = 1400\nb = 100\nmax_n = 255\ngap = 500\ngrtt = 100000\nk = 1\n' "$port" >"$scratch/profile"
node on.hub hub ../profile
for at in 2 3 4; do
    node on.$at recv ../profile $at
done
sent=''

# start_send FILE: a sender alone begins to send a file.
start_send() {
    printf '1 file %s\n1 mark\n' "$1" >"$scratch/in"
    : >"$scratch/out"
    (cd "$files" && exec "$program" send "$scratch/profile") <"$scratch/in" >"$scratch/out" 2>"$scratch/err" &
    sender=$!
}

# all_have FILE: its sender ends with everyone's confirmation. Then each receiver has each file that was sent so far, under the instance of its send, and
# nothing else.
all_have() {
    wait "$sender"
    ended $? "a send of $1" 0
    sender=''
    said "a send of $1"
    grep -qx 'done 1 satisfied' "$scratch/out" || { echo "program: not everyone confirmed $1"; cat "$scratch/out"; exit 1; }
    sent="$sent $(sed -n 's/^enq 1 1 \([0-9]*\) 0 file [0-9]*$/\1/p' "$scratch/out"):$1"
    wanted=$(echo "$sent" | wc -w)
    for at in 2 3 4; do
        for one in $sent; do
            cmp -s "$files/${one#*:}" "$scratch/on.$at/n$at-i${one%%:*}-x0" ||
                { echo "program: receiver $at has another ${one#*:} after the send of $1"; ls -l "$scratch/on.$at"; exit 1; }
        done
        for one in "$(find "$scratch/on.$at" -type f | wc -l)" "$(wc -l <"$scratch/on.$at.out")"; do
            [ "$one" -eq "$wanted" ] || { echo "program: receiver $at has $one and not $wanted after the send of $1"; ls -l "$scratch/on.$at"; exit 1; }
        done
    done
}

for file in letter.txt hi.txt; do
    start_send $file
    all_have $file
done

# A sender that is killed amid a file, and then another of a file of the same length: of the first nothing is left, and of the second nothing is missing.
python3 - "$files" <<'END'
import random, sys
for seed, name in enumerate(('cut', 'whole')):
    open(f'{sys.argv[1]}/{name}', 'wb').write(random.Random(seed).randbytes(3_000_000))
END
start_send cut
awaits out '^enq '
sleep 0.25
kill -9 "$sender"
wait "$sender" 2>/dev/null
ended $? 'a sender that is killed' 137
sender=''
grep -q '^done ' "$scratch/out" && { echo 'program: a sender was to be killed before it ended'; cat "$scratch/out"; exit 1; }
start_send whole
all_have whole
end_nodes
silent on.hub.out on.hub.err on.2.err on.3.err on.4.err
# What is passed over, and what is said of it, once each. Each profile differs from the others in one key.
head -c 20000 /dev/zero >"$files/zeros"
symbols=313
here=$(printf 'fabric = "udp"\nport = %s\nstep = 0\ne = 64\ngrtt = 40000\ninstance = 12' "$port")
printf '%s\n' "$here" >"$scratch/profile"

# sends NAME KEY SCRIPT LINE: a sender whose profile has this key, whose datagrams are traced, and whose output has this line.
sends() {
    forget
    { printf '%s\n' "$here" | grep -v "^${2%% *} "; echo "$2"; } >"$scratch/other"
    printf '%b' "$3" >"$scratch/in"
    (cd "$files" && NORMD_LOG=trace exec "$program" send "$scratch/other") <"$scratch/in" >"$scratch/out" 2>"$scratch/err"
    ended $? "$1" 0
    grep -qx "$4" "$scratch/out" || { echo "program: $1 does not have '$4' in"; cat "$scratch/out"; exit 1; }
}

# tells FILE TEXT: a node says this, and nothing else.
tells() {
    awaits "$1" "$(printf '%b' "$2" | tail -n 1)"
    cp "$scratch/$1" "$scratch/err"
    reason=$2
    said "$1"
    rows=$((rows + 1))
}

# misfit NAME SENDER RECEIVER WHY: a sender and a receiver with these keys, which do not fit. Nothing is repaired, and the watermark names the receiver.
misfit() {
    { printf '%s\n' "$here"; echo "$3"; } >"$scratch/misfit"
    node "$1.hub" hub ../profile
    node "$1.2" recv ../misfit 2
    sends "a sender with '$2' before a receiver with '$3'" "$2" '1 file zeros\n1 mark\n' 'done 1 expired 2'
    sent=$(grep -c '^offer 1 12' "$scratch/err")
    { [ "$sent" -ge $symbols ] && [ "$sent" -lt $((2 * symbols)) ]; } || { echo "program: the $1 sender sent $sent symbols"; exit 1; }
    tells "$1.2.err" "$4: nothing of instance 12 is taken\n"
    silent "$1.2.out" "$1.hub.err"
    end_nodes
}

misfit wide 'b = 80' '' 'sender 1 sends with e 64, b 80, max_n 120, and this profile has 64, 64, 96'
misfit long '' 'octets = 10000' "sender 1 sends an object of 20000 octets, and this profile's octets are 10000"

# One forged datagram cuts nobody off: DATA that fits ends that.
node forged.hub hub ../profile
node forged.2 recv ../profile 2
python3 - $((port + 2)) <<'END' || { echo 'program: nobody takes a forged datagram'; exit 1; }
import socket, sys, time
forged = bytes.fromhex('1208000000000001000c4041000500000000000040030000000000050080406068656c6c6f')
out = socket.socket(socket.AF_INET, socket.SOCK_DGRAM)
out.connect(('127.0.0.1', int(sys.argv[1])))
for _ in range(2000):
    try:
        out.send(forged)
        out.send(forged)  # fails if nobody had the first
        sys.exit(0)
    except ConnectionRefusedError:
        time.sleep(0.01)
sys.exit(1)
END
tells forged.2.err 'sender 1 sends with e 128, b 64, max_n 96, and this profile has 64, 64, 96: nothing of instance 12 is taken\n'
sends 'a sender after a forged datagram' '' '1 data 61\n1 mark\n' 'done 1 satisfied'
end_nodes

# An older instance, and another sender.
older='datagrams of instance 5 come, and this receiver is in 12: they are passed over\n'
node older.hub hub ../profile
node older.2 recv ../profile 2
sends 'a sender in instance 12' '' '1 data 61\n1 mark\n' 'done 1 satisfied'
sends 'a sender in an older instance' 'instance = 5' '1 data 62\n1 mark\n' 'done 1 expired 2'
tells older.2.err "$older"
sends 'another sender' 'sender = 9' '1 data 62\n1 mark\n' 'done 1 expired 10'
tells older.2.err "${older}datagrams of sender 9 come, and the profile's sender is 1\n"
end_nodes
echo 'up 2 12 0 data 1 - 61' | cmp -s - "$scratch/older.2.out" || { echo 'program: a receiver wrote'; cat "$scratch/older.2.out"; exit 1; }

# A hub that is killed.
node killed.hub hub ../profile
end_nodes
printf '1 data 61\n1 mark\n' >"$scratch/in"
forget
reason="nothing came to 127.0.0.1:$((port + 1))\nthe hub is to be at 127.0.0.1:$port\n"
row 'a sender whose hub was killed' 0 'enq 1 1 12 0 data 1\nmark 1 2 12 1 0 0 0\ndone 1 expired 2\nend objects 1 octets 1 handed 0 lost 0 satisfied 0 expired 1 cut 0\n' send "$scratch/profile"

# A hub whose turns are spent while a member still sends.
python3 - "$port" >"$scratch/sending" <<'END' &
import socket, sys, time
port = int(sys.argv[1])
out = socket.socket(socket.AF_INET, socket.SOCK_DGRAM)
out.bind(('127.0.0.1', port + 1))
for number in range(10000):
    out.sendto(b'?', ('127.0.0.1', port))
    if number == 0:
        print('sends', flush=True)
    time.sleep(0.002)
END
nodes=$!
awaits sending sends
printf '%s\nturns = 1000\n' "$here" >"$scratch/profile"
: >"$scratch/in"
reason='the 1000 turns are spent, and datagrams still came\n'
row 'a hub whose turns are spent' 0 '' hub "$scratch/profile"
end_nodes

# Ports that another process has.
python3 - "$port" >"$scratch/held" <<'END' &
import socket, sys, time
held = [socket.socket(socket.AF_INET, socket.SOCK_DGRAM) for _ in range(3)]
for at, it in enumerate(held):
    it.bind(('127.0.0.1', int(sys.argv[1]) + at))
print('held', flush=True)
time.sleep(600)
END
nodes=$!
awaits held held

# taken PORT WORD..
taken() {
    reason="cannot bind 127.0.0.1:$1: Address already in use (os error 98)\n"
    shift
    row "$1 at a port that is taken" 6 'fault fabric\n' "$@"
}

: >"$scratch/in"
taken "$port" hub "$scratch/profile"
forget
taken $((port + 1)) send "$scratch/profile"
taken $((port + 2)) recv "$scratch/profile" 2
taken $((port + 2)) recv "$scratch/profile" 2 --group 127.255.255.255
printf 'set fabric udp\nset port %s\n' "$port" >"$scratch/in"
taken $((port + 1)) session
end_nodes

# profile STATUS LINE WHY TEXT: a profile that gives no run. Its turns are few, so that a node that ran would end.
profile() {
    printf '%b' "$4" >"$scratch/profile"
    : >"$scratch/in"
    for node in send recv hub; do
        reason=$3
        case $node in
            recv) row "$node with the profile $4" "$1" "$2" recv "$scratch/profile" 2 ;;
            *) row "$node with the profile $4" "$1" "$2" "$node" "$scratch/profile" ;;
        esac
    done
}

refuses() {
    profile 3 'refused profile\n' "the profile is refused: $1\n" "$2"
}

refuses 'it is no TOML document' 'e 64\n'
refuses 'it is no TOML document' '\0377'
refuses 'it has more than 65536 octets' "#$(digits 65536)"
refuses 'the key f is unknown' 'e = 64\nf = 1\n'
refuses 'the key e takes a whole number from 64 to 1400' 'e = "64"\n'
refuses 'the key e takes a whole number from 64 to 1400' 'e = 63\n'
refuses 'the key mode takes "hold" or "drop"' 'mode = 1\n'
refuses 'the key max_n is 3, and less than b, 4' 'b = 4\nmax_n = 3\n'
# within FABRIC: nodes of their own over a network within one process.
within() {
    printf 'turns = 3\nfabric = "%s"\n' "$1" >"$scratch/profile"
    for node in send recv hub; do
        reason="the fabric is $1, a network within one process: a node of its own needs fabric = \"udp\"\n"
        case $node in
            recv) row "$node over the fabric $1" 6 'fault fabric\n' recv "$scratch/profile" 2 ;;
            *) row "$node over the fabric $1" 6 'fault fabric\n' "$node" "$scratch/profile" ;;
        esac
    done
}

: >"$scratch/in"
within direct
within chance
printf 'turns = 3\nfabric = "udp"\nport = %s\nstep = 0\ninstance = 1\n' "$port" >"$scratch/profile"
reason='the 3 turns are spent\n'
row 'a receiver that hears nothing' 0 '' recv "$scratch/profile" 2
reason='the 3 turns are spent\n'
row 'a hub that hears nothing' 0 '' hub "$scratch/profile"
forget
row 'a sender with nothing to do' 0 "$none" send "$scratch/profile"
reason='the node 3 is no receiver of the profile, whose receivers are 2 to 2\n'
row 'a node that is no receiver' 3 'refused profile\n' recv "$scratch/profile" 3
row 'a hub without its profile' 7 'absent ../none.toml\n' hub ../none.toml
row 'a sender without its profile' 7 'absent ../none.toml\n' send ../none.toml
row 'a receiver without its profile' 7 'absent ../none.toml\n' recv ../none.toml 2
printf '1 data 61\n1 data 62\n' >"$scratch/in"
printf 'turns = 1\nfabric = "udp"\nport = %s\nstep = 0\ninstance = 1\n' "$port" >"$scratch/profile"
forget
row 'a sender whose turns are spent' 8 'enq 1 1 1 0 data 1\nend objects 1 octets 1 handed 0 lost 0 satisfied 0 expired 0 cut 0\nturns spent\n' send "$scratch/profile"

# What is said of a node at work: a step that is none for sockets, and each datagram.
: >"$scratch/in"
printf 'fabric = "udp"\nport = %s\nturns = 1\n' "$port" >"$scratch/profile"
step="the profile's step is 1000: over sockets it is to be 0, so that the clock gives the moments\n"
reason="${step}the 1 turns are spent\n"
row 'a receiver by steps over sockets' 0 '' recv "$scratch/profile" 2
reason=$step
row 'a sender by steps over sockets' 0 "$none" send "$scratch/profile"
reason='the 1 turns are spent\n'
row 'a hub by steps over sockets' 0 '' hub "$scratch/profile"
printf 'fabric = "udp"\nport = %s\nstep = 0\nturns = 1200\n' "$port" >"$scratch/profile"
NORMD_PROGRESS=1 "$program" hub "$scratch/profile" <"$scratch/in" >"$scratch/out" 2>"$scratch/err"
ended $? 'a hub that says how far it is' 0
silent out
# The line of progress ends before what is said after it.
[ "$(tail -n 1 "$scratch/err")" = 'the 1200 turns are spent' ] || { echo 'program: a hub does not end its line'; cat "$scratch/err"; exit 1; }
sed -i '$d' "$scratch/err"
progress err

# An instance that the words give stands in place of the profile's. Each is above the one before, and the port is no other row's.
printf 'fabric = "udp"\nport = %s\nstep = 0\ninstance = 7\n' $((port + 11)) >"$scratch/numbered"
printf '1 data 61\n' >"$scratch/in"
one_object='0 data 1\nend objects 1 octets 1 handed 0 lost 0 satisfied 0 expired 0 cut 0\n'
row 'a sender in the greatest instance' 0 "enq 1 1 65535 $one_object" send "$scratch/numbered" --instance 65535
row 'a sender in the least instance' 0 "enq 1 1 0 $one_object" send --instance=0 "$scratch/numbered"
row 'a sender in the instance of its profile' 0 "enq 1 1 7 $one_object" send "$scratch/numbered"

hello=120800000000000100074041000500000000000040030000000000050040406068656c6c6f
NORMD_LOG=trace "$program" session <examples/hello.norm >"$scratch/out" 2>"$scratch/err"
ended $? 'a session whose datagrams are traced' 0
reason="offer 1 $hello\ntake 2 $hello\n"
said 'a session whose datagrams are traced'

# A record of the same session: each datagram once offered and once taken, and each line of the journal without the octets of the object.
NORMD_LOG=record "$program" session <examples/hello.norm >"$scratch/out" 2>"$scratch/record"
ended $? 'a session that is recorded' 0
sed -E 's/^[0-9]+ //' "$scratch/record" | grep -v '^offer \|^take ' >"$scratch/err"
sed -E 's/^(up [0-9]+ [0-9]+ [0-9]+ data [0-9]+) .*/\1/' "$scratch/out" >"$scratch/wanted"
cmp -s "$scratch/wanted" "$scratch/err" || { echo 'program: the lines of a record differ from those of the journal'; exit 1; }
printf 'turns = 1\n' >"$scratch/profile"

# unsent LINE WHY INPUT: a script for `send` of which this line is the first without meaning.
unsent() {
    printf '%b' "$3" >"$scratch/in"
    reason="line $1: $2\n"
    row "the script for send $3" 3 "refused line $1\n" send "$scratch/profile"
}

unsent 1 'no key is set here: keys are set before every command' 'set e 64\n1 data 61\n'
unsent 1 'no key is set here: keys are set before every command' 'set producers 2\n1 data 61\n'
unsent 3 "$contents" '1 data 61\n1 open\n1 data 6\n'
unsent 2 'the producer is 2, and there are 1' '\n2 data 61\n'

# Which instance a send takes, by what the user's folder keeps of the send before it. The port is no other row's.
state=$scratch/numbers at=$((port + 13)) kept=$scratch/numbers/normd/$((port + 13))-1
printf 'fabric = "udp"\nport = %s\nstep = 0\n' $at >"$scratch/unnumbered"
printf 'fabric = "udp"\nport = %s\nstep = 0\ninstance = 20000\n' $at >"$scratch/numbered"
printf '1 data 61\n' >"$scratch/in"
sent='0 data 1\nend objects 1 octets 1 handed 0 lost 0 satisfied 0 expired 0 cut 0\n'
advice='give --instance I, or the key instance\n'
export XDG_STATE_HOME="$state"

# keeps TEXT: the folder keeps this, and nothing else. holds NAME TEXT: it keeps this after a send.
keeps() {
    rm -rf "$state"
    mkdir -p "$state/normd" || exit 1
    printf '%b' "$1" >"$kept"
}

holds() {
    printf '%b' "$2" | cmp -s - "$kept" || { echo "program: after $1 the kept number is"; cat "$kept"; exit 1; }
}

# minute: the one since 1970, of 65,536. next LAST: the instance that comes after this one in this minute: the minute, if it is less than half of all
# ids ahead, or the next id; the minute if LAST is none.
minute() {
    echo $(($(date +%s) / 60 % 65536))
}

next() {
    now=$(minute)
    rise=$(((now + 65536 - ${1:-$((now - 1))}) % 65536))
    if [ $rise -ge 1 ] && [ $rise -le 32767 ]; then echo "$now"; else echo $((($1 + 1) % 65536)); fi
}

# drawn NAME LAST: a send draws the instance that comes after this one, by the minute before it or the one after it, and keeps it.
drawn() {
    before=$(next "$2")
    (cd "$files" && exec "$program" send "$scratch/unnumbered") <"$scratch/in" >"$scratch/out" 2>"$scratch/err"
    ended $? "$1" 0
    said "$1"
    taken=$(sed -n 's/^enq 1 1 \([0-9]*\) 0 data 1$/\1/p' "$scratch/out")
    [ "$taken" = "$before" ] || [ "$taken" = "$(next "$2")" ] || { echo "program: $1 draws $taken, and not $before"; exit 1; }
    holds "$1" "$taken\n"
}

now=$(minute)
rm -rf "$state"
drawn 'a first send' ''
[ "$(stat -c %a "$state" "$state/normd" "$kept" | xargs)" = '700 700 600' ] || { echo 'program: others may see what is kept'; ls -lR "$state"; exit 1; }
for last in 65535 65534 0 "$now" $(((now + 100) % 65536)) $(((now + 65436) % 65536)) $(((now + 32668) % 65536)) $(((now + 32868) % 65536)); do
    keeps "$last\n"
    drawn "a send after the instance $last" "$last"
done

# Eight at once draw eight: one of them has the port.
last=$(((now + 1000) % 65536)) eight=''
keeps "$last\n"
for _ in 1 2 3 4 5 6 7 8; do
    "$program" send "$scratch/unnumbered" <"$scratch/in" >/dev/null 2>&1 &
    eight="$eight $!"
done
# shellcheck disable=SC2086 # each is a process of its own
wait $eight
holds 'eight sends at once' "$(((last + 8) % 65536))\n"

# One that is given is kept if it is above the kept one, and else it is used with a warning. So is that of a restart.
passed() {
    printf '%s\\n' "instance $1 is not above $2, the one kept for port $at: receivers that run since then pass it over, or take it for what they have"
}

rm -rf "$state"
row 'a first send of a given instance' 0 "enq 1 1 20000 $sent" send "$scratch/numbered"
holds 'a given instance' '20000\n'
reason=$(passed 20000 20000)
row 'a send of the same instance' 0 "enq 1 1 20000 $sent" send "$scratch/numbered"
reason=$(passed 1 20000)
row 'a send of an instance below' 0 "enq 1 1 1 $sent" send "$scratch/numbered" --instance 1
holds 'an instance below' '20000\n'
row 'a send of an instance above' 0 "enq 1 1 20007 $sent" send "$scratch/unnumbered" --instance 20007
holds 'an instance above' '20007\n'
two='0 data 1\nend objects 2 octets 2 handed 0 lost 0 satisfied 0 expired 0 cut 0\n'
printf '1 data 61\n1 restart 20011\n1 data 61\n' >"$scratch/in"
row 'a send that restarts' 0 "enq 1 1 20008 0 data 1\nrestart 1 2 20011\nenq 1 3 20011 $two" send "$scratch/numbered" --instance=20008
holds 'a restart' '20011\n'
printf '1 data 61\n1 restart 20010\n1 restart 20012\n1 data 61\n' >"$scratch/in"
reason=$(passed 20009 20011)$(passed 20010 20011)
row 'a send that restarts below the last instance, and then above it' 0 "enq 1 1 20009 0 data 1\nrestart 1 2 20010\nrestart 1 3 20012\nenq 1 4 20012 $two" send "$scratch/numbered" --instance=20009
holds 'a restart above' '20012\n'
printf '1 data 61\n' >"$scratch/in"

# No place for it: nothing is sent, unless an instance is given.
for held in 'x\n' '\n' '' '65536\n' '033\n' '33012' '33012\n\n'; do
    keeps "$held"
    reason="cannot keep the instance in $kept: it holds no number from 0 to 65535: $advice"
    row "a send after '$held'" 7 'fault files\n' send "$scratch/unnumbered"
    holds "a send that was refused" "$held"
    row "a send of a given instance after '$held'" 0 "enq 1 1 20000 $sent" send "$scratch/numbered"
    holds "a given instance" "$held"
done
export XDG_STATE_HOME="$files/hi.txt"
reason="cannot keep the instance in $files/hi.txt/normd/$at-1: Not a directory (os error 20): $advice"
row 'a send without a folder' 7 'fault files\n' send "$scratch/unnumbered"
row 'a send of a given instance without a folder' 0 "enq 1 1 20000 $sent" send "$scratch/numbered"
home=$HOME
unset XDG_STATE_HOME HOME
reason="neither XDG_STATE_HOME nor HOME is set to a path that begins with a slash: $advice"
row 'a send without a variable' 7 'fault files\n' send "$scratch/unnumbered"
row 'a send of a given instance without a variable' 0 "enq 1 1 20000 $sent" send "$scratch/numbered"
export HOME="$scratch/home" XDG_STATE_HOME=numbers
row 'a send of a given instance in a home' 0 "enq 1 1 20000 $sent" send "$scratch/numbered"
kept=$scratch/home/.local/state/normd/$at-1
holds 'a send in a home' '20000\n'
export HOME="$home" XDG_STATE_HOME="$state"

# Nobody but `send` keeps a number: a session restarts by itself, and its members are all new.
rm -rf "$state"
printf '1 data 61\n1 restart 8\n' >"$scratch/in"
row 'a session that restarts' 0 'enq 1 1 1 0 data 1\nup 2 1 0 data 1 - 61\nrestart 1 2 8\nend objects 1 octets 1 handed 1 lost 0 satisfied 0 expired 0 cut 0\n' session
"$program" send "$scratch/none.toml" </dev/null >/dev/null 2>&1
[ ! -e "$state" ] || { echo 'program: a number is kept of no send'; ls -lR "$state"; exit 1; }
export XDG_STATE_HOME="$scratch/state"

# Datagrams, and lines that spell none.
printf '1908000000000001\n\n1304E4DB0000000183CD53C40600FF3E' >"$scratch/in"
row 'datagrams of which one is refused' 9 'refused type 9\nackreq 1 58587 33741 83.12.4 255 62 -\n' show
printf '13041685fffffffe8068007702000001\n' >"$scratch/in"
row 'a datagram' 0 'eot 4294967294 5765 32872 0.7.7\n' show
# Each message, worked out by hand, and some refusals.
cat >"$scratch/in" <<'END'
11072e54df000001fb3ee99d8b05cd75400381539f74473bf2fd3731
120800000000000100074041000500000000000040030000000000050040040668656c6c6f
1305015f00000001000940010105ffff000000000000000200000003
13041685fffffffe8068007702000001
130500210000000100004021030500000000000000000003
130ad543cc9ca19962233bb7059000004003df0c0347099e4fc0a880400387ebf45ecd5710ae588a020200100500ffff000003ed05000801ffffff9a
1304e4db0000000183cd53c40600ff3e
1304565e03841f9f127290820700000033
1406cc5650dcc4a1dab21731b6eb004000000000000000000104000002080000
1506000000000013000000010000020000000000000000000500000000000100
15067e7500000001fffffe7ee8053e0000000000000000b942dd
16029abb00002010
1908000000000001
140600000000000200000001000700000000000000000000030100088100000000000001
END
row 'each message' 9 'info 3741319169 11860 64318 233.9.13 139 52597 142196157466427,62205,55,49 -\ndata 1 0 7 64.4.1 0 0 0 0 5,64,4,6 68656c6c6f\nflush 1 351 9 64.0.1 65535 0 0 2,3\neot 4294967294 5765 32872 0.7.7\nsquelch 1 33 0 64.2.1 0 0 0 0,3\nadv 3432817049 54595 25123 59.11.7 144 2:2:65535.3.237+2049.16777215.154\nackreq 1 58587 33741 83.12.4 255 62 -\nopaque 58990495 22110 4722 144.8.2 7\nnack 1356645537 52310 3669104433 46827 1:4:,2:8:\nack 19 0 1 0 2 0 0 1 0\nack 1 32373 4294966910 59397 62 0 opaque 2\nreport 8208 39611\nrefused type 9\nrefused item-fec 28 129\n' show
printf '\n13041685fffffffe8068007702000001\n1908000000000001\n' >"$scratch/in"
row 'datagrams behind an empty line' 9 'eot 4294967294 5765 32872 0.7.7\nrefused type 9\n' show
printf '16029ABB00002010' >"$scratch/in"
row 'a datagram without a line feed' 0 'report 8208 39611\n' show
digits 3000 >"$scratch/in"
row 'a line of 3000 digits' 9 'refused version 0\n' show
unshown 1 'it has more than 3000 octets' '' "$(digits 3001)"
unshown 2 'it has an octet that is no hexadecimal digit' 'refused type 9\n' '1908000000000001\nxy\n1908000000000001\n'
unshown 1 'it has an odd number of hexadecimal digits' '' '190800000000000\n'
unshown 1 'it ends with a carriage return: write lines that end with a line feed alone' '' '1908000000000001\r\n'
unshown 1 'it begins with a byte order mark: write UTF-8 without one' '' '\0357\0273\02771908000000000001\n'
unshown 1 'it has an octet 0, 254 or 255, as UTF-16 has: write ASCII or UTF-8' '' '1\00009\0000\n'
unshown 1 'it ends with a space' '' '1908000000000001 \n'
unshown 1 'it has two spaces in a row: words have one between them' '' '1908  000000000001\n'

# Several senders at once: a first object of each, and the second of one whose first is missing, for which it asks.
# gathers STATUS WHY OUTPUT INPUT WORD..
gathers() {
    printf '%b' "$4" >"$scratch/in"
    reason=$2 status=$1 printed=$3
    shift 4
    row "gather $*" "$status" "$printed" gather "$@"
}

for profile in 'a 1 0' 'b 100 0' 'c 1 4' 'd 100 4'; do
    # shellcheck disable=SC2086 # three words
    set -- $profile
    printf 'e = 64\nb = 4\nsender = %s\nk = %s\n' "$2" "$3" >"$files/$1.toml"
done
printf 'e = 63\n' >"$files/refused.toml"
printf 'sender = 2\n' >"$files/second.toml"
hello=120800000000000100074041000500000000000040030000000000050040040668656c6c6f
hi=12080000000000640009404100050000000000004003000000000002004004066869
later=120800010000000100074001000500010000000040030000000000010040040602
nack=140600000000000200000001000700000000000000000000010c00080500000000000000
up_hello='of 1 up 2 7 0 data 5 - 68656c6c6f\n' up_hi='of 100 up 101 9 0 data 2 - 6869\n'
gathers 0 '' "$up_hello${up_hi}end lines 2 handed 2\n" "$hello\n$hi\n" a.toml 2 b.toml 101
gathers 0 '' "$up_hello${up_hi}end lines 2 handed 2\n" "$hello\n\n$hi" b.toml 101 a.toml 2
gathers 0 '' "send 1 $nack\n${up_hi}end lines 2 handed 1\n" "$later\n$hi\n" a.toml 2 b.toml 101
# With a back-off: sixty empty lines are sixty milliseconds, and the datagram after them ticks, though it is refused.
pause=
while [ ${#pause} -lt 120 ]; do pause="$pause\\n"; done
gathers 0 '' "${up_hi}send 1 $nack\nend lines 3 handed 1\n" "$later\n$hi\n${pause}00\n" c.toml 2 d.toml 101
gathers 0 '' "${up_hi}end lines 3 handed 1\n" "$later\n$hi\n00\n" c.toml 2 d.toml 101
gathers 0 '' "${up_hi}end lines 2 handed 1\n" "$later\n$hi\n$pause" c.toml 2 d.toml 101
# Another receiver's NACK is for the sender that it names: node 3 of sender 1 asks for all that node 2 would ask for.
printf 'e = 64\nb = 4\nreceivers = 2\n' >"$files/two.toml"
heard=140600000000000300000001000700000000000000000000010c00080500000000000000
stranger=140600000000000300000064000700000000000000000000010c00080500000000000000
gathers 0 '' 'end lines 3 handed 0\n' "$later\n$heard\n${pause}00\n" two.toml 2
gathers 0 '' "send 1 $nack\nend lines 3 handed 0\n" "$later\n$stranger\n${pause}00\n" two.toml 2
# Datagrams that spell nothing, a report, and those of senders that nobody asked for.
gathers 0 '' 'end lines 4 handed 0\n' "00\n16029abb00002010\n$hi\n1908000000000001\n" a.toml 2
gathers 0 '' 'end lines 0 handed 0\n' '' a.toml 2
gathers 0 '' 'end lines 0 handed 0\n' '\n\n' a.toml 2 b.toml 101
gathers 7 '' 'absent none.toml\n' "$hello\n" a.toml 2 none.toml 101
gathers 7 '' 'absent none.toml\n' "$hello\n" none.toml 2 refused.toml 101
refused_e='the profile is refused: the key e takes a whole number from 64 to 1400\n'
gathers 3 "$refused_e" 'refused profile\n' "$hello\n" a.toml 2 b.toml 101 refused.toml 2 none.toml 9
gathers 3 'the node of pair 2 is no receiver of its profile\n' 'refused profile\n' "$hello\n" a.toml 2 b.toml 102
gathers 3 'the node of pair 2 is no receiver of its profile\n' 'refused profile\n' "$hello\n" a.toml 2 a.toml 3
gathers 3 'the id 1 stands twice among the senders and nodes\n' 'refused profile\n' "$hello\n" a.toml 2 c.toml 2
gathers 3 'the id 2 stands twice among the senders and nodes\n' 'refused profile\n' "$hello\n" a.toml 2 second.toml 3
gathers 3 'line 1: it has an octet that is no hexadecimal digit\n' 'refused line 1\n' "xy\n$hello\n" a.toml 2
gathers 3 'line 3: it has an odd number of hexadecimal digits\n' "${up_hello}refused line 3\n" "$hello\n\n123" a.toml 2
gathers 3 'line 1: it has more than 3000 octets\n' 'refused line 1\n' "$(digits 3002)\n$hello\n" a.toml 2
gathers 3 'line 2: it has more than 3000 octets\n' "${up_hello}refused line 2\n" "$hello\n$(digits 3002)" a.toml 2
gathers 3 'line 2: it ends with a carriage return: write lines that end with a line feed alone\n' "${up_hello}refused line 2\n" "$hello\n00\r\n" a.toml 2
gathers 0 '' 'end lines 1 handed 0\n' "$(digits 3000)" a.toml 2

# A folder: its manifest and its file, each with a watermark, and the copy of each receiver. The digest is that of `sha256sum`.
# mirrors STATUS WHY OUTPUT INPUT
mirrors() {
    printf '%b' "$4" >"$scratch/in"
    reason=$2
    row "the folder $4" "$1" "$3" mirror
}

# unmirrored LINE WHY INPUT: an input of which this line is the first without meaning.
unmirrored() {
    mirrors 3 "line $1: $2\n" "refused line $1\n" "$3"
}

# has FILE OCTETS: a file has these octets. lacks FILE: it is not there.
has() {
    printf '%b' "$2" | cmp -s - "$files/$1" || { echo "program: $1 has other octets"; exit 1; }
}

lacks() {
    [ ! -e "$files/$1" ] || { echo "program: $1 is there"; exit 1; }
}

printf 'abc' >"$files/a.txt"
: >"$files/b"
folder='set instance 7\nset e 64\nset b 4\n'
manifest=612e747874203320626137383136626638663031636665613431343134306465356461653232323362303033363161333936313737613963623431306666363166323030313561640a
mirrors 8 '' "enq 1 1 7 0 data 73\nmark 1 2 7 1 0 0 1\nup 2 7 0 data 73 - $manifest\nenq 1 3 7 1 file 3
end objects 2 octets 76 handed 1 lost 0 satisfied 0 expired 0 cut 0\nturns spent\n" "${folder}set turns 3\na.txt\n"
lacks n2-a.txt
mirrors 11 'watermark 1 expired, and the number of receivers that had not confirmed it is 2: its line `done` names them\n' \
    'enq 1 1 7 0 data 73\nmark 1 2 7 1 0 0 1\nenq 1 3 7 1 file 3\nmark 1 4 7 2 1 0 0\ndone 1 expired 2 3\ndone 2 expired 2 3
end objects 2 octets 76 handed 0 lost 0 satisfied 0 expired 2 cut 0\nnot satisfied\n' \
    "${folder}set receivers 2\nset fabric chance\nset loss 900\nset chance 4\nset turns 4000\na.txt\n"
mirrors 14 'the manifest does not fit the octets of the profile\n' \
    'no 1 1 too-big 73\nno 1 2 nothing-enqueued\nenq 1 3 7 0 file 3\nmark 1 4 7 1 0 0 0\nup 2 7 0 file 3 612e747874 616263\npast 2 7 0 0 0\ndone 1 satisfied
end objects 1 octets 3 handed 1 lost 0 satisfied 1 expired 0 cut 0\nnot accepted\n' "${folder}set octets 72\na.txt\n"
lacks n2-a.txt
mirrors 14 'b has 0 octets, and a file of a folder has 1 to 16777216\n' 'not accepted b\n' "${folder}a.txt\nb\n"
mirrors 7 '' 'absent b.txt\n' 'set instance 7\nb.txt\n'
mirrors 7 "cannot use the file ./folder: is a directory\n" 'fault files\n' "${folder}folder\na.txt\n"
lacks n2-a.txt
mirrors 0 '' "enq 1 1 7 0 data 73\nmark 1 2 7 1 0 0 1\nup 2 7 0 data 73 - $manifest\nenq 1 3 7 1 file 3\nmark 1 4 7 2 1 0 0\nup 2 7 1 file 3 612e747874 616263
past 2 7 0 0 1\ndone 1 satisfied\npast 2 7 1 0 0\ndone 2 satisfied\nend objects 2 octets 76 handed 2 lost 0 satisfied 2 expired 0 cut 0
mirrored 1 files to 1 receivers\n" "# a folder\n\n${folder}a.txt"
has n2-a.txt abc
unmirrored 1 'no file is named' ''
unmirrored 4 'no file is named' "$folder"
unmirrored 2 'no file is named' '# a.txt\n'
unmirrored 4 "a folder has one producer, and producers is not set" "${folder}set producers 1\na.txt\n"
unmirrored 4 'nothing of a folder is dropped: its mode is hold' "${folder}set mode drop\na.txt\n"
unmirrored 5 'no key is set here: keys are set before every name' "${folder}a.txt\nset k 0\n"
unmirrored 6 'the name stands on line 4 too' "${folder}a.txt\nb\na.txt\n"
no_name='a file'"'"'s name is 1 to 64 letters, digits, `.`, `_` or `-`, and begins neither with `.` nor with `n` and a digit'
for name in n2-a.txt n2x .a a/b "$(digits 65)"; do unmirrored 4 "$no_name" "$folder$name\na.txt\n"; done

# A relay between two sessions: an object and a flush above, the object and a watermark below, and the acknowledgement once it came from below.
# relays STATUS WHY OUTPUT INPUT WORD..
relays() {
    printf '%b' "$4" >"$scratch/in"
    reason=$2 status=$1 printed=$3
    shift 4
    row "relay $*" "$status" "$printed" relay "$@"
}

# With these octets the patience of the sender above suffices: 256 symbols a millisecond apart take less than 40 round trips of 10.
sizes='e = 64\nb = 4\noctets = 16384\n'
printf '%binstance = 7\n' "$sizes" >"$files/up.toml"
printf '%bsender = 10\ninstance = 3\n' "$sizes" >"$files/down.toml"
printf '%bsender = 10\ninstance = 3\nwindow = 1\n' "$sizes" >"$files/narrow.toml"
flush=130500010000000100074041010500000000000000000002
from_below=150600000000000b0000000a0003020000000000000000000500000000000000
below_hello='down 120800000000000a00034041000500000000000040030000000000050040040668656c6c6f\n'
below_mark='down 130500010000000a0003404101050000000000000000000b\n'
above_ack='up 1506000000000002000000010007020000000000000000000500000000000000\n'
relays 0 '' "$below_hello$below_mark${above_ack}end lines 3 enqueued 1 acknowledged 1\n" "up $hello\nup $flush\ndown $from_below\n" up.toml 2 down.toml
relays 0 '' "$below_hello$below_mark${above_ack}end lines 3 enqueued 1 acknowledged 1\n" "up $hello\nup $flush\ndown $from_below" --instance=3 up.toml 2 down.toml
relays 0 '' "$below_hello${below_mark}end lines 3 enqueued 1 acknowledged 0\n" "up $hello\nup $flush\ntick\n" up.toml 2 down.toml
relays 0 '' 'end lines 0 enqueued 0 acknowledged 0\n' '' up.toml 2 down.toml
# Digits of either case; and what spells no datagram changes nothing.
relays 0 '' 'end lines 4 enqueued 0 acknowledged 0\n' 'up 00\ndown 1908000000000001\nup 16029ABB00002010\ntick\n' up.toml 2 down.toml
# A second object waits for room below, which a watermark asks for; a third one is not taken.
second=120800010000000100074041000500010000000040030000000000010040040662
third=120800020000000100074041000500020000000040030000000000010040040663
below_second='down 120800020000000a00034041000500010000000040030000000000010040040662\n'
relays 0 '' "${below_hello}${below_mark}busy\n${below_second}end lines 8 enqueued 2 acknowledged 0\n" \
    "up $hello\nup $second\nup $third\ntick\ntick\ndown $from_below\ntick\ntick\n" up.toml 2 narrow.toml
# Lines that are no events; those before stand.
not_one='it is neither `up HEX` nor `down HEX` nor `tick`\n'
relays 3 "line 2: $not_one" "${below_hello}refused line 2\n" "up $hello\n\nup $flush\n" up.toml 2 down.toml
nine='tick\ntick\ntick\ntick\ntick\ntick\ntick\ntick\ntick\n'
relays 3 "line 11: $not_one" "${below_hello}refused line 11\n" "up $hello\n${nine}tock\n" up.toml 2 down.toml
relays 3 "line 1: $not_one" 'refused line 1\n' 'up\n' up.toml 2 down.toml
relays 3 "line 1: $not_one" 'refused line 1\n' "$hello\n" up.toml 2 down.toml
relays 3 'line 1: its HEX is no datagram: it has an odd number of hexadecimal digits\n' 'refused line 1\n' 'down 123\n' up.toml 2 down.toml
relays 3 'line 1: its HEX is no datagram: it has an octet that is no hexadecimal digit\n' 'refused line 1\n' 'up xy\n' up.toml 2 down.toml
relays 3 'line 1: its HEX is no datagram: it has more than 3000 octets\n' 'refused line 1\n' "up $(digits 3002)\n" up.toml 2 down.toml
relays 3 'line 1: it ends with a space\n' 'refused line 1\n' 'up \n' up.toml 2 down.toml
relays 3 'line 1: it has two spaces in a row: words have one between them\n' 'refused line 1\n' 'up  00\n' up.toml 2 down.toml
relays 3 'line 2: it ends with a carriage return: write lines that end with a line feed alone\n' 'refused line 2\n' 'tick\ntick\r\n' up.toml 2 down.toml
# Sessions that cannot be relayed, each with why.
# unrelated WHY LINES: the profile below has these lines.
unrelated() {
    printf '%b' "$2" >"$files/odd.toml"
    relays 3 "$1\n" 'refused profile\n' "up $hello\n" up.toml 2 odd.toml
}
unrelated 'e is 64 above and 128 below' 'e = 128\nb = 4\noctets = 16384\nsender = 10\n'
unrelated 'b is 4 above and 5 below' 'e = 64\nb = 5\noctets = 16384\nsender = 10\n'
unrelated 'blocks is 16 above and 15 below' "${sizes}sender = 10\nblocks = 15\n"
unrelated 'octets is 16384 above and 16385 below' 'e = 64\nb = 4\noctets = 16385\nsender = 10\n'
unrelated 'the mode below is drop, and a relay wants hold' "${sizes}sender = 10\nmode = \"drop\"\n"
unrelated 'the id 1 is a member above and below' "$sizes"
unrelated 'the id 2 is a member above and below' "${sizes}sender = 2\n"
relays 3 'the node 3 is no receiver above, where they are 2 to 2\n' 'refused profile\n' "up $hello\n" up.toml 3 down.toml
relays 3 "$refused_e" 'refused profile\n' "up $hello\n" up.toml 2 refused.toml
relays 3 "$refused_e" 'refused profile\n' "up $hello\n" refused.toml 9 none.toml
relays 7 '' 'absent none.toml\n' "up $hello\n" up.toml 9 none.toml
# Each line begins another instance above, and so a restart below: after 32,767 of them no id is left.
awk 'BEGIN { for (i = 1; i <= 32769; i++) printf "up 1208000000000001%04x4041000500000000000040030000000000010040040661\n", i }' >"$scratch/in"
reason='the restart below under instance 32771 is refused: no relay restarts below more than 32767 times\n'
"$program" relay "$files/up.toml" 2 "$files/down.toml" <"$scratch/in" >"$scratch/out" 2>"$scratch/err"
ended $? '32,769 instances above' 13
[ "$(tail -n 1 "$scratch/out")" = 'refused command' ] || { echo 'program: 32,769 instances above wrote'; tail -n 3 "$scratch/out"; exit 1; }
said '32,769 instances above'
# What the sender above dropped, and a sender above that has less patience than large objects need below, are said at the end.
printf 'e = 64\nb = 4\noctets = 32768\ninstance = 7\n' >"$files/hasty.toml"
printf 'e = 64\nb = 4\noctets = 32768\nsender = 10\n' >"$files/slow.toml"
relays 0 '40 grtt above are 400000 microseconds, and octets / e * gap below are 512000: the sender above may give up before a large object is sent on\n' \
    'end lines 1 enqueued 0 acknowledged 0\n' 'tick\n' hasty.toml 2 slow.toml

# Faults, and what they were about.
"$program" session <. >"$scratch/out" 2>"$scratch/err"
ended $? 'a folder as input' 4
echo 'fault read' | cmp -s - "$scratch/out" || { echo 'program: a folder as input wrote'; cat "$scratch/out"; exit 1; }
reason='cannot read the input: Is a directory (os error 21)\n'
said 'a folder as input'
"$program" show <. >"$scratch/out" 2>"$scratch/err"
ended $? 'a folder as datagrams' 4
reason='cannot read the input: Is a directory (os error 21)\n'
said 'a folder as datagrams'

(cd "$files" && exec "$program" gather a.toml 2) <. >"$scratch/out" 2>"$scratch/err"
ended $? 'a folder as what is gathered' 4
echo 'fault read' | cmp -s - "$scratch/out" || { echo 'program: a folder as what is gathered wrote'; cat "$scratch/out"; exit 1; }
reason='cannot read the input: Is a directory (os error 21)\n'
said 'a folder as what is gathered'

if [ -w /dev/full ]; then
    "$program" session <examples/hello.norm >/dev/full 2>"$scratch/err"
    ended $? 'an output without room' 5
    reason='cannot write the output: No space left on device (os error 28)\n'
    said 'an output without room'
    "$program" generate 42 >/dev/full 2>"$scratch/err"
    ended $? 'a script without room' 5
    reason='cannot write the output: No space left on device (os error 28)\n'
    said 'a script without room'
fi
"$program" session <examples/hello.norm >&- 2>"$scratch/err"
ended $? 'an output that is closed' 5
reason='cannot write the output: Bad file descriptor (os error 9)\n'
said 'an output that is closed'

# A script longer than the memory that the process may take.
if (ulimit -v 200000) 2>/dev/null; then
    { echo '#'; head -c 300000000 /dev/zero | tr '\0' '#'; } | (ulimit -v 200000; exec "$program" session) >"$scratch/out" 2>"$scratch/err"
    ended $? 'a script that does not fit in memory' 1
    reason='out of memory\n'
    said 'a script that does not fit in memory'
fi

# Folders whose rows are not printed whole here: the first line and the last are compared, and each copy. Octets are those of one short file.
# folders NAME STATUS FIRST LAST: the input stands in $scratch/in, and the program runs in the folder $scratch/many.
mkdir "$scratch/many" || exit 1
folders() {
    (cd "$scratch/many" && exec "$program" mirror) <"$scratch/in" >"$scratch/out" 2>"$scratch/err"
    ended $? "$1" "$2"
    [ "$(head -n 1 "$scratch/out")" = "$3" ] || { echo "program: $1 began with"; head -n 1 "$scratch/out"; exit 1; }
    [ "$(tail -n 1 "$scratch/out")" = "$4" ] || { echo "program: $1 ended with"; tail -n 1 "$scratch/out"; exit 1; }
    said "$1"
}

# copies NAME COUNT: so many copies are there, each with the octets of the file, and nothing else is.
copies() {
    [ "$(find "$scratch/many" -name 'n[23]-*' | wc -l)" -eq "$2" ] || { echo "program: $1 put another number of copies"; exit 1; }
    find "$scratch/many" -type f | while read -r copy; do printf 'abc' | cmp -s - "$copy" || echo "$copy"; done >"$scratch/other"
    [ ! -s "$scratch/other" ] || { echo "program: $1 left other octets in"; cat "$scratch/other"; exit 1; }
}

# The longest names: of 64 characters, whose copies have 67.
long=$(digits 63)
printf 'abc' >"$scratch/many/a$long"
printf 'abc' >"$scratch/many/b$long"
printf 'set receivers 2\nb%s\na%s\n' "$long" "$long" >"$scratch/in"
folders 'a folder with names of 64 characters' 0 'enq 1 1 1 0 data 264' 'mirrored 2 files to 2 receivers'
copies 'a folder with names of 64 characters' 4
for node in 2 3; do
    for name in a b; do
        [ -e "$scratch/many/n$node-$name$long" ] || { echo "program: n$node-$name$long is not there"; exit 1; }
    done
done
rm -f "$scratch/many"/*

# The most files. The manifest has more octets than a line of a script may give as data.
: >"$scratch/in"
for number in $(seq 1001 2024); do
    printf 'abc' >"$scratch/many/$number"
    echo "$number" >>"$scratch/in"
done
folders 'a folder of 1,024 files' 0 'enq 1 1 1 0 data 73728' 'mirrored 1024 files to 1 receivers'
copies 'a folder of 1,024 files' 1024
rm -f "$scratch/many"/n2-*
echo 2025 >>"$scratch/in"
reason='line 1025: a folder has at most 1024 files\n'
folders 'a folder of 1,025 files' 3 'refused line 1025' 'refused line 1025'
rm -f "$scratch/many"/*

# One small file, and each way in which it is not mirrored. Nothing is put.
printf 'abc' >"$scratch/many/a.txt"
small='set instance 7\nset e 64\nset b 4\n'
printf '%b' "${small}set turns 20\na.txt\n" >"$scratch/in"
folders 'a small folder, and 20 turns' 8 'enq 1 1 7 0 data 73' 'turns spent'
printf '%b' "${small}set fabric chance\nset loss 900\na.txt\n" >"$scratch/in"
reason='watermark 1 expired, and the number of receivers that had not confirmed it is 1: its line `done` names them\n'
folders 'a small folder, of which nine copies in ten are lost' 11 'enq 1 1 7 0 data 73' 'not satisfied'
printf '%b' "${small}set octets 72\na.txt\n" >"$scratch/in"
reason='the manifest does not fit the octets of the profile\n'
folders 'a small folder whose manifest is too long' 14 'no 1 1 too-big 73' 'not accepted'
printf '%b' "${small}set octets 128\nb.txt\n" >"$scratch/in"
head -c 129 /dev/zero >"$scratch/many/b.txt"
reason='b.txt has 129 octets, which do not fit the octets of the profile\n'
folders 'a small folder whose file is too long' 14 'enq 1 1 7 0 data 75' 'not accepted'
: >"$scratch/many/b.txt"
printf '%b' "${small}a.txt\nb.txt\n" >"$scratch/in"
reason='b.txt has 0 octets, and a file of a folder has 1 to 16777216\n'
folders 'a small folder with an empty file' 14 'not accepted b.txt' 'not accepted b.txt'
rm -f "$scratch/many/b.txt"
copies 'small folders that are not mirrored' 0

awaits unheard.err 'the hub is to be'
kill "$unheard"
wait "$unheard" 2>/dev/null
unheard=''
cp "$scratch/unheard.err" "$scratch/err"
reason="nothing came to 127.0.0.1:$((port + 10)) for ten seconds\nthe hub is to be at 127.0.0.1:$((port + 8))\n"
said 'a receiver to which nothing comes'
silent unheard.out
echo "program: $((rows + 1)) rows passed"
