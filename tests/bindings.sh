#!/usr/bin/env bash
# Tests the Rust package and its command over the static library, with Rust 1.70 or later: the package has no
# dependencies, so that neither a network nor a place to keep packages is needed. The library is built first where it
# has changed, so that no older one is tested, unless MILESTARLING_LIB names another directory that has
# libmilestarling.a. Arguments go to `cargo test`.
set -euo pipefail
cd "$(dirname "${BASH_SOURCE[0]}")/.."
source tools/cargo.sh
if [ -z "${MILESTARLING_LIB:-}" ]; then
    bash tools/library.sh
else
    echo "bindings: the library is that of MILESTARLING_LIB, $MILESTARLING_LIB"
fi
room=$(mktemp -d)
trap 'rm -rf "$room"' EXIT
top=$PWD
cd bindings/rust
cargo test --release --offline "$@"
cargo build --quiet --release --offline --bin milestarling
bash "$top/tests/command.sh" "$CARGO_TARGET_DIR/release/milestarling"
example() { # NAME WORDS...
    cargo run --quiet --release --offline --example "$@" | diff - "$top/tests/$1.expected"
    echo "bindings: the example $1.rs wrote what tests/$1.expected has"
}
example plugin "$top"/examples/plugin/{compare,compare_early,look_up,look_up_kind,copy_by_kind,copy_by_letter}.bin
example turns "$top/examples/lock.bin"
example plugins

# What build.rs refuses: another target, and a library that is of another version or says none. Nothing is compiled but build.rs.
refused() { # SENTENCE WORDS...
    local sentence=$1
    shift
    if cargo check --quiet --offline --target-dir "$room/refused" "$@" 2> "$room/said" || ! grep -q "$sentence" "$room/said"; then
        echo "bindings: build.rs doesn't say that $sentence; it said:"
        cat "$room/said"
        exit 1
    fi
}
refused "the library is for x86-64 Linux alone, and this build is for aarch64-unknown-linux-gnu" \
    --target aarch64-unknown-linux-gnu
for said in "" "milestarling library 0.2.9" "milestarling library 9.0.0"; do
    printf '%s\0' "$said" > "$room/libmilestarling.a"
    MILESTARLING_LIB=$room refused "libmilestarling.a is of version .*, and this package needs [0-9]"
done
echo "bindings: build.rs named another target, and libraries of other versions"

# What the README prints for Rust, as it is printed, in a function that may fail; it lists no bytes.
{
    echo 'fn main() -> Result<(), Box<dyn std::error::Error>> {'
    sed -n '/^\*\*From Rust\*\*/,/^\*\*From Rattle\*\*/ s/^    //p' ../../README.md
    echo 'Ok(()) }'
} > "$room/readme.rs"
cargo build --quiet --release --offline --lib
rustc --edition 2021 -D warnings -L "dependency=$CARGO_TARGET_DIR/release/deps" \
    --extern "milestarling=$CARGO_TARGET_DIR/release/libmilestarling.rlib" -o "$room/readme" "$room/readme.rs"
"$room/readme" < /dev/null | diff - <(echo "load of 8 at 0x1008")
echo "bindings: what the README prints for Rust was compiled and run"

if [ -z "${MILESTARLING_LIB:-}" ]; then
    bash ../../tools/install.sh --command "$room/prefix" > "$room/said" 2>&1 || { cat "$room/said"; exit 1; }
    installed=$room/prefix/bin/milestarling
    "$installed" word f9400420 | diff - <(printf 'f9400420\tldr x0, [x1, #8]\t0\n')
    "$installed" trace ../../examples/login.case | "$installed" why - x2 |
        diff - <(printf '%s\n' 'x2 byte 0: step 1, ldrb w2, [x0], from 0x1000' '0x1000: tainted at the start')
    "$installed" man | diff - "$room/prefix/share/man/man1/milestarling.1"
    # The worked answer 5 of the installed ANSWERS, on the installed example.
    (cd "$room/prefix/share/doc/milestarling" && "$installed" why examples/plugin/copy_by_kind.case > "$room/why")
    sed -n '/^    milestarling why examples\/plugin\/copy_by_kind.case$/,/^[^ ]/ s/^    //p' ../../docs/ANSWERS.md | tail -n +2 |
        grep . | diff - "$room/why"
    echo "bindings: an installed command lists a word, and tells of a trace and of an installed case why a byte is tainted"
fi
