#!/usr/bin/env bash
# Puts the library, its header and its file for pkg-config below a prefix, for instance /usr/local or "$HOME/.local", with the
# documents that the header names and the examples in PREFIX/share/doc/milestarling; and with --command the command `milestarling`
# and its manual page too, which need cargo:
#
#     bash tools/install.sh [--command] PREFIX
#
# With DESTDIR set, files go below that, and still say PREFIX.
set -euo pipefail
command=no
if [ "${1:-}" = --command ]; then
    command=yes
    shift
fi
if [ $# -ne 1 ] || [[ $1 != /* ]]; then
    echo "usage: bash tools/install.sh [--command] PREFIX, an absolute path" >&2
    exit 2
fi
prefix=${1%/}
cd "$(dirname "${BASH_SOURCE[0]}")/.."
bash tools/library.sh
version=$(sed -n 's/^#define MILESTARLING_VERSION "\(.*\)"$/\1/p' include/milestarling.h)
below=${DESTDIR:-}$prefix
mkdir -p "$below/include" "$below/lib/pkgconfig"
install -m 644 include/milestarling.h "$below/include/milestarling.h"
install -m 644 target/staticlib/libmilestarling.a "$below/lib/libmilestarling.a"
# As they stand here, so that what they say of each other holds there. build.sh and demo.sh need the repository.
documents=$below/share/doc/milestarling
for file in docs/ANSWERS.md docs/SECRECY.md CHANGELOG.md examples/* examples/plugin/*; do
    case $file in *.sh) continue ;; esac
    [ ! -f "$file" ] || install -D -m 644 "$file" "$documents/$file"
done
cat > "$below/lib/pkgconfig/milestarling.pc" <<END
prefix=$prefix
includedir=\${prefix}/include
libdir=\${prefix}/lib

Name: milestarling
Description: The proved loads and stores of an AArch64 emulator
Version: $version
Cflags: -I\${includedir}
Libs: -L\${libdir} -lmilestarling
END
if [ "$command" = yes ]; then
    source tools/cargo.sh
    (cd bindings/rust && cargo build --release --offline --bin milestarling)
    mkdir -p "$below/bin"
    install -m 755 "$CARGO_TARGET_DIR/release/milestarling" "$below/bin/milestarling"
    mkdir -p "$below/share/man/man1"
    "$below/bin/milestarling" man > "$below/share/man/man1/milestarling.1"
fi
echo "installed below $below"
