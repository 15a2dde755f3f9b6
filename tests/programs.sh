#!/usr/bin/env bash
# Runs the programs `list` and `assemble` on inputs that come, end and fail in every way, which the stored ones can't all do,
# and the demo.
# Most are cut from the stored input, and what must come is cut from the stored output, which other tools have made; the
# rest is written out here. The programs are built first where they have changed.
set -uo pipefail
cd "$(dirname "${BASH_SOURCE[0]}")/.." || exit 1
bash tools/programs.sh list assemble replay || exit 1
room=$(mktemp -d) || exit 1
trap 'rm -rf "$room"' EXIT
tried=0 failed=0

# Runs a program on $room/given and compares with $room/expected.
try() { # PROGRAM WHAT
    tried=$((tried + 1))
    if ! "target/bin/$1" < "$room/given" | cmp - "$room/expected"; then
        echo "programs: $1 is wrong on $2"
        failed=$((failed + 1))
    fi
}

# ---- list

# 01's own example.
printf '\x20\xf0\x5f\x38\x00\x00\x00\x91\x21\x84\x40\xf8\xff' > "$room/given"
printf '%s\t%s\t%s\n' 385ff020 'ldurb w0, [x1, #-1]' 0 91000000 - 2 f8408421 'ldr x1, [x1], #8' 4 short - 1 \
    > "$room/expected"
try list "the example of 01"

# The first so many bytes of the stored input, with what must come of them.
cut_list() { # BYTES
    head -c "$1" crates/list/stdin > "$room/given"
    head -n $(($1 / 4)) crates/list/stdout > "$room/expected"
    if [ $(($1 % 4)) -ne 0 ]; then
        printf 'short\t-\t%d\n' $(($1 % 4)) >> "$room/expected"
    fi
}

# Every number of left-over bytes, with no word before them, with some, and about the ends of the program's reads and of a
# pipe's: left-over bytes may come in a read of their own.
for about in 0 4096 16384 32768 65536 131072; do
    for near in -3 -2 -1 0 1 2 3 4 5 6 7; do
        bytes=$((about + near))
        [ "$bytes" -ge 0 ] || continue
        cut_list "$bytes"
        try list "$bytes bytes"
    done
done

# Input that comes in pieces, each of which ends inside a word.
cut_list 65538
pieces() {
    head -c 5 "$room/given"
    sleep 0.2
    head -c 65534 "$room/given" | tail -c +6
    sleep 0.2
    tail -c 4 "$room/given"
}
tried=$((tried + 1))
if ! pieces | target/bin/list | cmp - "$room/expected"; then
    echo "programs: list is wrong on input that comes in pieces"
    failed=$((failed + 1))
fi

# A line comes as soon as its four bytes have come: each word is written, byte by byte, once the line of the one before it has
# been read.
cut_list 66
mkfifo "$room/in" "$room/out"
target/bin/list < "$room/in" > "$room/out" &
exec 3> "$room/in" 4< "$room/out"
for ((byte = 1; byte <= 66; byte++)); do
    tail -c "+$byte" "$room/given" | head -c 1 >&3
    if [ $((byte % 4)) -eq 0 ]; then
        head -n 1 <&4
    fi
done > "$room/came"
exec 3>&-
cat <&4 >> "$room/came"
exec 4<&-
wait $!
tried=$((tried + 1))
if ! cmp "$room/came" "$room/expected"; then
    echo "programs: list is wrong on input that comes byte by byte"
    failed=$((failed + 1))
fi

# What a program wrote to $room/came and said to $room/said, after a read or a write that failed.
fails() { # PROGRAM WHAT FAILURE
    tried=$((tried + 1))
    if ! cmp "$room/came" "$room/expected" || ! [[ $(cat "$room/said") =~ ^"$3: ".+ ]]; then
        echo "programs: $1 is wrong on $2"
        failed=$((failed + 1))
    fi
}

# A failure is said, and isn't taken for the end of the input: a `short` line comes only where the input ends. A directory
# fails at the first read; a pipe that doesn't wait and has no more bytes at a later one.
: > "$room/expected"
target/bin/list < . > "$room/came" 2> "$room/said"
fails list "a directory" read
cut_list 4
head -c 6 crates/list/stdin > "$room/given"
exec 5<> "$room/in"
dd iflag=nonblock count=0 status=none <&5
cat "$room/given" >&5
target/bin/list <&5 > "$room/came" 2> "$room/said"
exec 5>&-
fails list "a second read that fails" read
: > "$room/expected"
target/bin/list < "$room/given" > /dev/full 2> "$room/said"
: > "$room/came"
fails list "an output that is full" write

# ---- a compiled lock, which is replayed too: tools/lock_example.py makes these files

cp examples/lock.bin "$room/given"
cp tests/lock.listing "$room/expected"
try list "a compiled lock"
cp examples/lock.cases "$room/given"
cp tests/lock.replayed "$room/expected"
try replay "a compiled lock"

# ---- assemble

GOOD='ldr x0, [x1, #8]'
GOOD_ANSWER='f9400420\t0\n'
NO_ANSWER='00000000\t9\n'

# Lines and answers as printf takes them.
try_lines() { # LINES ANSWERS WHAT
    printf "$1" > "$room/given"
    printf "$2" > "$room/expected"
    try assemble "$3"
}

try_lines '' '' "no input"
try_lines '\n' "$NO_ANSWER" "an empty line"
try_lines '\n\n' "$NO_ANSWER$NO_ANSWER" "two empty lines"
try_lines 'x' "$NO_ANSWER" "one byte and no newline"
try_lines 'x\n' "$NO_ANSWER" "a line of one byte"
try_lines "$GOOD\nx" "$GOOD_ANSWER$NO_ANSWER" "one byte and no newline behind a line"
try_lines "$GOOD\n\n" "$GOOD_ANSWER$NO_ANSWER" "an empty line behind a line"
try_lines "$GOOD\n" "$GOOD_ANSWER" "a line"
try_lines "$GOOD" "$GOOD_ANSWER" "a line without its newline"
try_lines "$GOOD\n$GOOD" "$GOOD_ANSWER$GOOD_ANSWER" "two lines, the second without its newline"
# The longest line that a word has, and one that is no longer.
LONGEST='prfm pldl1keep, [x10, w10, uxtw #3]'
try_lines "$LONGEST\n$GOOD\n" "f8aa5940\t0\n$GOOD_ANSWER" "the longest line"
try_lines "$LONGEST" 'f8aa5940\t0\n' "the longest line without its newline"
try_lines "${LONGEST}0\n$GOOD\n" "$NO_ANSWER$GOOD_ANSWER" "the longest line and one byte more"
try_lines "${LONGEST}0" "$NO_ANSWER" "the longest line and one byte more, without its newline"
try_lines 'prfm pldl1keep, [x10, w10, uxtw #2]\n'"$GOOD\n" "$NO_ANSWER$GOOD_ANSWER" "35 bytes that are no line"

# A line of so many bytes that begins as a good one does, before a good one and at the end of the input.
for bytes in 29 30 31 34 35 36 106 107 255 256 257 4095 4096 4097 70000; do
    long=$(printf '%-*s' "$bytes" "$GOOD")
    try_lines "$long\n$GOOD\n" "$NO_ANSWER$GOOD_ANSWER" "a line of $bytes bytes and a good one"
    try_lines "$GOOD\n$long" "$GOOD_ANSWER$NO_ANSWER" "a good line, and one of $bytes bytes without its newline"
done

# ---- what the demo hands to the programs, and what the README shows of it

for input in list:words:lines replay:cases:outcomes; do
    IFS=: read -r program given expected <<< "$input"
    cp "examples/login.$given" "$room/given"
    cp "examples/login.$expected" "$room/expected"
    try "$program" "examples/login.$given"
done

tried=$((tried + 1))
sed -n '/^    bash examples\/demo.sh$/,/^[^ ]/ s/^    //p' README.md | tail -n +2 > "$room/expected"
if ! bash examples/demo.sh 2> "$room/said" | grep . | cmp - "$room/expected"; then
    echo "programs: the demo doesn't write what the README shows; it said:"
    cat "$room/said"
    failed=$((failed + 1))
fi

tried=$((tried + 1))
if ! (source tools/kit.sh && grep -qF "\`$kit_needed\`" README.md); then
    echo "programs: the README names another Rattle kit than tools/kit.sh"
    failed=$((failed + 1))
fi

# ---- the verdict

if [ "$failed" -ne 0 ]; then
    echo "programs: wrong on $failed of $tried inputs"
    exit 1
fi
echo "programs: list, assemble and replay wrote what they must on $tried inputs"
