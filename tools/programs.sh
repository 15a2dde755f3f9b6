#!/usr/bin/env bash
# Proves and builds programs, and puts each at target/bin/PROGRAM:
#
#     bash tools/programs.sh PROGRAM..        for example: bash tools/programs.sh list replay
#
# `rt ci` and `rt run` leave a program at crates/PROGRAM/out/PROGRAM. One that isn't there, or that a source is newer than, is
# proved and built by `rt run`, which then runs it on no input.
set -euo pipefail
cd "$(dirname "${BASH_SOURCE[0]}")/.."
source tools/kit.sh
mkdir -p target/bin
for program in "$@"; do
    built=crates/$program/out/$program
    if [ ! -x "$built" ] || [ -n "$(find crates.txt crates -name out -prune -o -name must-fail -prune -o -type f \
        \( -name crates.txt -o -name '*.rt' -o -name '*.antt' \) -newer "$built" -print -quit)" ]; then
        if ! said=$(cd "crates/$program" && rt run < /dev/null 2>&1 > /dev/null); then
            echo "$said" >&2
            echo "programs: $program isn't proved, or failed on no input" >&2
            exit 1
        fi
    fi
    install -m 755 "$built" "target/bin/$program"
done
