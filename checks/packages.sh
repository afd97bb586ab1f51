#!/bin/sh
# Tries what other machines get: `make install`, the archive of `make dist` and the package of `make deb`. It is run after `rt ci`, which leaves the program,
# and says of each part that cannot run which tool is missing. The first part that fails ends it with status 1.
cd "$(dirname "$0")/.." || exit 1
top=$(pwd -P)
program=crates/normd/out/normd
tools='send receive profile journal pcap bridge cast'
scratch=$(mktemp -d) || exit 1
trap 'rm -rf "$scratch"' EXIT

there() { command -v "$1" >/dev/null 2>&1; }
wrong() { echo "packages: $1"; exit 1; }
missing() { echo "packages: $1 did not run: $2"; }

# alone WORD..: runs a command as on a machine that has neither kit nor checkout, in an empty folder.
alone() {
    (cd "$scratch/empty" && exec env -i PATH="$scratch/path" HOME="$scratch/empty" "$@")
}

# tried FOLDER: the program and each tool below FOLDER work alone, and are called by the names that they are installed by.
tried() {
    alone "$1/bin/normd" session <examples/hello.norm >"$scratch/said" || wrong "the program in $1 failed"
    cmp -s "$scratch/said" crates/normd/stdout || wrong "the program in $1 does not run examples/hello.norm as it has to"
    for tool in $tools; do
        alone "$1/bin/normd-$tool" --help >"$scratch/said" || wrong "normd-$tool --help failed in $1"
        grep -q "normd-$tool" "$scratch/said" || wrong "normd-$tool calls itself something else"
        [ -f "$1/share/man/man1/normd-$tool.1" ] || wrong "normd-$tool has no manual page in $1"
    done
    alone "$1/bin/normd-profile" --size 1M --rate 10M --toml >"$scratch/said" || wrong "normd-profile failed in $1"
    alone "$1/bin/normd-cast" "$top/examples/letter.txt" 2 --grtt 200000 >"$scratch/said" || wrong "normd-cast failed in $1: $(cat "$scratch/said")"
}

[ -x "$program" ] || { missing 'everything' "$program is not there"; exit 0; }
for tool in make python3 readelf; do
    there $tool || { missing 'everything' "$tool is not there"; exit 0; }
done
mkdir "$scratch/empty" "$scratch/path" || exit 1
for tool in env python3 getconf uname; do
    ln -s "$(command -v $tool)" "$scratch/path/$tool"
done
# A Python of another place than /usr needs its own program, and not a starter of it.
ln -sf "$(python3 -c 'import sys; print(sys.executable)')" "$scratch/path/python3"
man/tools --check || exit 1

# Installed by make, and taken away.
make -s install PREFIX="$scratch/made" || wrong 'make install failed'
tried "$scratch/made"
cmp -s man/normd.1 "$scratch/made/share/man/man1/normd.1" || wrong 'the manual is not installed'
make -s uninstall PREFIX="$scratch/made" || wrong 'make uninstall failed'
[ -z "$(find "$scratch/made" ! -type d)" ] || wrong "make uninstall leaves $(find "$scratch/made" ! -type d | head -n 1)"

if there bash; then
    completed=$(bash -c '. packaging/normd.bash; COMP_WORDS=(normd recv examples/profiles/four.toml ""); COMP_CWORD=3; _normd; echo "${COMPREPLY[*]}"')
    [ "$completed" = '2 3 4 5' ] || wrong "bash completes the node numbers of four.toml as $completed"
else
    missing 'completion' 'bash is not there'
fi
if there systemd-analyze; then
    for unit in normd-receive@.service normd-hub.service normd-send.service normd-send.timer; do
        systemd-analyze verify "examples/systemd/$unit" 2>&1 | grep -v -e 'is not executable' -e 'failed with code 16' | grep -q "$unit" && wrong "systemd refuses $unit"
    done
else
    missing 'the units' 'systemd-analyze is not there'
fi

for unit in normd-receive@.service normd-hub.service; do
    for line in Restart=always RestartSec=5 StartLimitIntervalSec=0 After=network-online.target User=normd; do
        grep -qx "$line" "examples/systemd/$unit" || wrong "$unit has no line $line: it would give up, or not start, if the network is late"
    done
done

# The archive: made twice it is the same, and what it installs needs nothing else.
if [ -n "$(git status --porcelain --untracked-files=no 2>&1)" ]; then
    missing 'the archive' 'the checkout has changes'
else
    echo '9 passed, 0 failed (none)' >"$scratch/gate"
    packed=$(make -s dist GATE="$scratch/gate") || wrong 'make dist failed'
    mv "$packed" "$scratch/first.tar.gz"
    make -s dist GATE="$scratch/gate" >/dev/null || wrong 'a second make dist failed'
    cmp -s "$scratch/first.tar.gz" "$packed" || wrong 'two archives of one commit differ'
    rm -f "$packed"
    echo '8 passed, 1 failed (none)' >"$scratch/gate"
    make -s dist GATE="$scratch/gate" >/dev/null 2>&1 && wrong 'make dist packs what the gate refused'
    tar -xzf "$scratch/first.tar.gz" -C "$scratch" || wrong 'the archive cannot be read'
    unpacked=$(echo "$scratch"/normd-*-linux-x86_64)
    (cd "$unpacked" && sha256sum -c --quiet SHA256SUMS) || wrong 'the sums of the archive are not those of its files'
    mkdir -p "$scratch/put/etc/normd" && echo 'PROFILE=/mine' >"$scratch/put/etc/normd/receive.conf"
    "$unpacked/install" "$scratch/put" >/dev/null || wrong 'the archive installs nothing'
    tried "$scratch/put"
    [ "$(cat "$scratch/put/etc/normd/receive.conf")" = 'PROFILE=/mine' ] || wrong 'the archive replaces a configuration file'
    "$unpacked/install" --remove "$scratch/put" >/dev/null || wrong 'the archive removes nothing'
    [ "$(find "$scratch/put" ! -type d)" = "$scratch/put/etc/normd/receive.conf" ] || wrong 'removing leaves more than what the archive did not put there'
    : >"$scratch/file"
    "$unpacked/install" "$scratch/file/below" 2>/dev/null && wrong 'a folder below a file is taken'
    # No file may have more than 512 kB here, so the program cannot be put, as on a full disk.
    (ulimit -f 1000 && "$unpacked/install" "$scratch/full") >/dev/null 2>&1 && wrong 'a full disk is not noticed'
    [ -z "$(find "$scratch/full" ! -type d 2>/dev/null)" ] || wrong 'a full disk leaves a part'
    echo 9.99 >"$unpacked/LIBRARY"
    "$unpacked/install" "$scratch/late" 2>"$scratch/said" && wrong 'a C library that is too old is not noticed'
    grep -q 'of the C library, and normd needs 9.99' "$scratch/said" || wrong 'the version of the C library is not named'
fi

if there dpkg-deb; then
    packed=$(make -s deb) || wrong 'make deb failed'
    dpkg-deb -c "$packed" | awk '{print $2, $6}' >"$scratch/listed"
    for name in usr/bin/normd usr/bin/normd-send etc/normd/receive.conf usr/lib/systemd/system/normd-receive@.service usr/lib/sysusers.d/normd.conf \
        usr/share/man/man1/normd-cast.1.gz usr/share/normd/tools/Keys.antt usr/share/doc/normd/examples/sysctl.d/60-normd.conf; do
        grep -q "^root/root \./$name" "$scratch/listed" || wrong "the package has no $name of root"
    done
    grep -q 'sysctl.d/.*\.conf' "$scratch/listed" && grep -q ' \./etc/sysctl.d' "$scratch/listed" && wrong 'the package turns on what an administrator decides'
    if there lintian; then
        # The program stays as it was proved, symbols and all, so that its digest is that of the archive's; and nobody has a mail address here.
        lintian --fail-on error --suppress-tags unstripped-binary-or-object,bogus-mail-host "$packed" >"$scratch/said" 2>&1 || wrong "lintian: $(grep '^E:' "$scratch/said")"
    else
        missing 'lintian' 'it is not there'
    fi
    rm -f "$packed"
else
    missing 'the package' 'dpkg-deb is not there'
fi
echo 'packages: passed'
