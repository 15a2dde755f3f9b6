#!/usr/bin/env bash
# Times the library beside its peers: runs and steps, the question why a byte is tainted, rescues, and texts. Peers come from Debian
# packages: what isn't there is named, and is installed with --install, which needs root. The library is built first, so that no older
# one is timed.
set -euo pipefail
cd "$(dirname "${BASH_SOURCE[0]}")/.."

packages=(gcc make libunicorn-dev libcapstone-dev llvm-19-dev)
missing=()
for package in "${packages[@]}"; do
    if [ "$(dpkg-query -W -f '${db:Status-Status}' "$package" 2>/dev/null || true)" != installed ]; then
        missing+=("$package")
    fi
done
if [ ${#missing[@]} -gt 0 ]; then
    if [ "${1:-}" != --install ]; then
        echo "bench: the peers need more packages. As root: apt-get install --no-install-recommends ${missing[*]}" >&2
        exit 1
    fi
    apt-get install -y --no-install-recommends "${missing[@]}"
fi

source tools/cargo.sh
if [ -z "${MILESTARLING_LIB:-}" ]; then
    bash tools/library.sh
fi

make -C bindings/bench LIBRARY="$(realpath "${MILESTARLING_LIB:-target/staticlib}")/libmilestarling.a"
# C by hand and plain Rust are built here.
bindings/bench/build/steps
# Paths of a million links, on the stack that Linux gives a program by itself.
(ulimit -s 8192 && bindings/bench/build/why)
# A correct listing of 64 MiB, and the same damaged.
bindings/bench/build/rescue crates/list/stdin 64
cd bindings/rust
cargo run --release --offline --example bench
