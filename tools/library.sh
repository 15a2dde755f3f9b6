#!/usr/bin/env bash
# Builds target/staticlib/libmilestarling.a, the library for C and Rust, and proves all that it is made of. rt makes an
# archive of what the crate milestarling exports; one object more is put into it, which says the header's version. It is built
# anew unless this very archive was built of these very sources by this kit.
set -euo pipefail
cd "$(dirname "${BASH_SOURCE[0]}")/.."
source tools/kit.sh
archive=target/staticlib/libmilestarling.a

built_of() {
    rt version
    grep '^#define MILESTARLING_VERSION' include/milestarling.h
    sha256sum "$archive" crates.txt
    find crates -name out -prune -o -type f \( -name '*.rt' -o -name '*.antt' \) -print0 | sort -z | xargs -0 sha256sum
}

if [ -f "$archive" ] && [ -f "$archive.made" ] && built_of | cmp -s - "$archive.made"; then
    echo "$archive is of these sources"
    exit
fi
rm -f "$archive.made"
mkdir -p target/staticlib
(cd crates/milestarling && rt lib)
# The text is for those who look for it in a file: the Rust package's build.rs, or strings.
version=target/staticlib/version.o
cc -x c -std=c99 -O2 -fPIC -Iinclude -c -o "$version" - << 'END'
#include "milestarling.h"
extern const char milestarling_version_text[];
const char milestarling_version_text[] = "milestarling library " MILESTARLING_VERSION;
uint32_t milestarling_version(void) { return MILESTARLING_VERSION_NUMBER; }
END
rm -f "$archive"
{
    echo "create $archive"
    echo "addlib crates/milestarling/out/libmilestarling.a"
    echo "addmod $version"
    echo save
    echo end
} | ar -M
built_of > "$archive.made"
