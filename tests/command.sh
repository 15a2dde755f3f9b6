#!/usr/bin/env bash
# Tests what the command `milestarling` hands to other tools by those tools: its manual page by man, groff and mandoc, its
# completion by bash, zsh and fish, and its JSON and its progress on a terminal by Python. Only bash has to be there; another
# that isn't is named and passed over.
#
#     bash tests/command.sh MILESTARLING
set -euo pipefail
command=$(realpath "$1")
cd "$(dirname "${BASH_SOURCE[0]}")/.."
room=$(mktemp -d)
trap 'rm -rf "$room"' EXIT

there() { # TOOL
    command -v "$1" > /dev/null || { echo "command: $1 isn't there, and what it would test is passed over"; return 1; }
}

silent() { # COMMAND...: says nothing on standard error
    "$@" > "$room/wrote" 2> "$room/said"
    [ ! -s "$room/said" ] || { cat "$room/said"; return 1; }
}

"$command" man > "$room/milestarling.1"
if there man; then
    MANWIDTH=100 silent man --warnings -l "$room/milestarling.1"
    grep -q '^ *milestarling why \[FILE\] \[PLACE\]' "$room/wrote"
    grep -q -e '--secrets' "$room/wrote"
fi
if there groff; then
    silent groff -man -Tutf8 -ww "$room/milestarling.1"
fi
if there mandoc; then
    # The page has no date.
    (mandoc -Tlint "$room/milestarling.1" || true) | (grep -v 'missing date' || true) > "$room/said"
    [ ! -s "$room/said" ] || { cat "$room/said"; exit 1; }
fi
echo "command: the manual page is as it has to be"

"$command" completion bash > "$room/completion.bash"
completed() { # WORDS...: what bash completes the last of them to
    # shellcheck disable=SC2016
    bash -c 'source "$1"; shift; COMP_WORDS=(milestarling "$@"); COMP_CWORD=$#; _milestarling; echo "${COMPREPLY[*]}"' \
        bash "$room/completion.bash" "$@"
}
[ "$(completed wo)" = word ]
[ "$(completed run --s)" = --secrets ]
[ "$(completed completion z)" = zsh ]
[ "$(completed run "$room/completion.b")" = "$room/completion.bash" ]
[ "$(completed import --out "$room/completion.b")" = "$room/completion.bash" ]
[ "$(completed import --at "")" = "" ]
"$command" completion zsh > "$room/_milestarling"
"$command" completion fish > "$room/milestarling.fish"
if there zsh; then
    zsh -n "$room/_milestarling"
fi
if there fish; then
    fish -n "$room/milestarling.fish"
    offered=$(HOME=$room fish -c "source '$room/milestarling.fish'; complete -C 'milestarling wo'; complete -C 'milestarling run --s'")
    [ "$(cut -f 1 <<< "$offered" | tr '\n' ' ')" = "word --secrets " ]
fi
echo "command: the shells complete it"

if there python3; then
    python3 tests/command.py "$command"
    echo "command: its JSON is JSON, and a terminal is told how far it is"
fi
