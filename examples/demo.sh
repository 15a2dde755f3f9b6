#!/usr/bin/env bash
# What Milestarling does with two login plugins, in a dozen lines of real output of the programs `list` and `replay`.
#
# Nothing is proved here: `rt try` runs a program from its sources, on an interpreter and compiled with checks, and both must
# write what a second implementation of the rules says (examples/login.lines, login.outcomes). The gate, `bash .ci/run`,
# proves them.
set -euo pipefail
cd "$(dirname "${BASH_SOURCE[0]}")/.."
source tools/kit.sh
room=$(mktemp -d)
trap 'rm -rf "$room"' EXIT

# Compiles a program in a copy of the sources, and runs it on an input of the examples.
try() { # PROGRAM INPUT OUTPUT
    local given=$PWD/examples/$2
    echo "demo: compiling $1 and running it on examples/$2" >&2
    if ! (cd "$room/crates/$1" && rt try < "$given" 2> "$room/log" > "$room/wrote") || ! cmp "$room/wrote" "examples/$3" >> "$room/log"; then
        echo "demo: this failed, and said:" >&2
        cat "$room/log" >&2
        exit 1
    fi
}

began=$SECONDS
echo "demo: two programs are compiled and run, unproved (bash .ci/run proves them); some seconds" >&2
cp crates.txt "$room"
for sources in crates/*/src; do
    mkdir -p "$room/$(dirname "$sources")"
    cp -R "$sources" "$room/$sources"
done
try list login.words login.lines
try replay login.cases login.outcomes
echo "demo: done in $((SECONDS - began)) seconds" >&2
echo >&2

# The text of one of the four words, and fields of a line of a case.
line() { sed -n "$1p" examples/login.lines | cut -f 2; }
field() { # CASE LINE FIELDS
    awk -F '\t' -v number="$1" -v name="$2" '$1 == "case" { at = $2 } at == number && $1 == name' examples/login.outcomes | cut -f "$3"
}

echo "A plugin asks for the length of a password: $(line 1)"
echo "  There is no memory at $(field 0 case 6). Answer $(field 0 case 4), steps done: $(field 0 case 3)."
echo "  X3 holds what it held, $(field 0 registers 5), and not 0. Nothing was changed."
echo
echo "Another loads a letter of the password, copies it, and looks it up in a table:"
echo "  $(line 2); $(line 3); $(line 4)"
echo "  The letter is tainted (X2 is $(field 1 registers 4), its lowest byte), and so is its copy: taint $(field 1 taint 2 | cut -c 33-36)."
echo "  Steps done: $(field 1 case 3). The third would let the password choose an address: answer $(field 1 case 4)."
echo "  What the help desk sees, code and address of each step done: $(field 1 trace 2-5 | tr '\t' ' ')"
echo "  With another password, where X2 is $(field 2 registers 4), it sees:  $(field 2 trace 2-5 | tr '\t' ' ')"
