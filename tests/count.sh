#!/usr/bin/env bash
# Counts the instructions of a step and the branches in it that are guessed wrong, as valgrind's callgrind counts and guesses them:
# those of 12,288 steps, a 12,288th of them. All that is done for a step is counted, the C library's copies and the caller's loop
# among it, and a 4,096th of what a run does once. Takes two minutes once the library is built. With names of lists, those alone.
set -euo pipefail
cd "$(dirname "${BASH_SOURCE[0]}")/.."

for command in gcc valgrind; do
    if ! command -v "$command" > /dev/null; then
        echo "count: $command isn't there. As root: apt-get install --no-install-recommends $command" >&2
        exit 1
    fi
done
if [ -z "${MILESTARLING_LIB:-}" ]; then
    bash tools/library.sh
fi

scratch=$(mktemp -d)
trap 'rm -rf "$scratch"' EXIT
gcc -O2 -std=gnu11 -Wall -Wextra -Wpedantic -Wconversion -o "$scratch/count" bindings/bench/{count,hand,lists}.c \
    "${MILESTARLING_LIB:-target/staticlib}/libmilestarling.a"

lists=(many_mixed many_loads many_stores many_pairs many_write-back many_vectors mixed loads stores vectors ldr str ldr_q str_q)
if [ $# -gt 0 ]; then
    lists=("$@")
fi
printf 'way\tlist\tinstructions\twrong guesses\n'
for way in run hand_run step hand_step; do
    for list in "${lists[@]}"; do
        steps=$(valgrind --tool=callgrind --branch-sim=yes --toggle-collect="by_$way" --callgrind-out-file=/dev/null \
            --log-file="$scratch/log" "$scratch/count" "$way" "$list")
        # Instructions, branches and those guessed wrong, jumps by a register and those guessed wrong.
        sed -n 's/.*Collected : //p' "$scratch/log" | awk -v way="$way" -v list="$list" -v steps="$steps" \
            '{ printf "%s\t%s\t%.1f\t%.2f\n", way, list, $1 / steps, ($3 + $5) / steps }'
    done
done
