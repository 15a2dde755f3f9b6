# shellcheck shell=bash
# Sourced at the top of the repository by the scripts that run cargo: all that it writes stands below target/, and a
# missing or too old Rust is said by name.
rust_needed=1.70
if ! command -v cargo > /dev/null; then
    echo "cargo isn't there: the Rust package needs Rust $rust_needed or later, from https://rustup.rs" >&2
    exit 1
fi
# A cargo of rustup's looks for its compiler below HOME, which may be another than the one that it was put in.
beside="$(dirname "$(command -v cargo)")/../../.rustup"
if [ -z "${RUSTUP_HOME:-}" ] && [ ! -d "${HOME:-}/.rustup" ] && [ -d "$beside" ]; then
    export RUSTUP_HOME="$beside"
fi
export CARGO_TARGET_DIR="$PWD/target/cargo" CARGO_HOME="$PWD/target/cargo/home"
rust_found=$(cargo --version | cut -d ' ' -f 2)
if [ "$(printf '%s\n' "$rust_needed" "$rust_found" | sort -V | head -n 1)" != "$rust_needed" ]; then
    echo "this is Rust $rust_found: the Rust package needs $rust_needed or later" >&2
    exit 1
fi
