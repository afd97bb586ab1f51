#!/bin/sh
# Tries the tools and the manual. It is run after `rt ci`, which leaves the program, and says of each part that
# cannot run which tool is missing. The first part that fails ends it with status 1.
cd "$(dirname "$0")/.." || exit 1
program=crates/normd/out/normd
fixtures=checks/tools
scratch=$(mktemp -d) || exit 1
trap 'rm -rf "$scratch"' EXIT

there() { command -v "$1" >/dev/null 2>&1; }
wrong() { echo "tools: $1"; exit 1; }
missing() { echo "tools: $1 did not run: $2"; }

if ! there python3; then
    missing 'everything' 'python3 is not there'
    exit 0
fi
python3 checks/tools/compare.py || exit 1

# The dissector: on lines with what they are shown as, and on the recorded runs with what the program shows of them.
if there tshark; then
    checks/tools/dissector.py "$fixtures/datagrams" "$fixtures/shown" || exit 1
    if [ -x "$program" ]; then
        runs=$(find checks/runs examples -maxdepth 1 -name '*.json' 2>/dev/null)
        # shellcheck disable=SC2086 # each name is a word
        checks/tools/dissector.py --runs $runs >"$scratch/lines" || exit 1
        "$program" show <"$scratch/lines" >"$scratch/shown"
        checks/tools/dissector.py "$scratch/lines" "$scratch/shown" || exit 1
    else
        missing 'the dissector on recorded runs' "$program is not there"
    fi
    tools/pcap examples/repair.json -o "$scratch/run.pcap" || exit 1
    found=$(tshark -X lua_script:tools/norm.lua -r "$scratch/run.pcap" -Y 'norm.kind == "NACK" && norm.item.object == 0' 2>/dev/null | wc -l)
    [ "$found" -eq 6 ] || wrong "a filter found $found of the 6 packets that are NACKs in examples/repair.json"
else
    missing 'the dissector' 'tshark is not there'
    for lua in luac5.4 luac5.3 luac5.2 luac; do
        if there "$lua"; then
            "$lua" -p tools/norm.lua || wrong 'tools/norm.lua is no Lua'
            break
        fi
    done
fi

# Captures of recorded sessions, and what their receivers make of them.
if [ -x "$program" ]; then
    checks/tools/captured.py "$program" checks/runs/journal-*.json examples/repair.json || exit 1
    python3 -c 'import json; print(json.load(open("examples/repair.json"))["output"], end="")' >"$scratch/printed" || exit 1
    "$program" session <examples/repair.norm | cmp -s - "$scratch/printed" || wrong 'examples/repair.norm does not make the run of examples/repair.json'
else
    missing 'captures through gather' "$program is not there"
fi

if there rsvg-convert; then
    rsvg-convert docs/pictures/repair.svg -o "$scratch/repair.png" || wrong 'docs/pictures/repair.svg cannot be drawn'
else
    missing 'drawing a picture' 'rsvg-convert is not there'
fi

if there mandoc; then
    mandoc -T lint -W warning man/normd.1 man/norm-script.5 >"$scratch/lint" || wrong "$(cat "$scratch/lint")"
elif there groff; then
    groff -man -ww -z man/normd.1 man/norm-script.5 2>"$scratch/lint"
    [ ! -s "$scratch/lint" ] || wrong "$(cat "$scratch/lint")"
else
    missing 'the manual pages' 'neither mandoc nor groff is there'
fi

# What the tools that run nodes say, with a stand-in for the program; and files and folders over sockets.
python3 checks/tools/sending.py || exit 1
if [ -x "$program" ]; then
    python3 checks/tools/transfer.py || exit 1
else
    missing 'a transfer' "$program is not there"
fi
echo 'tools: passed'
