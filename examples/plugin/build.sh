#!/usr/bin/env bash
# Compiles each function of plugin.c for AArch64 into a file of words. The files are kept beside it, so that the examples
# need neither of these: on Debian, apt-get install clang binutils-aarch64-linux-gnu
set -euo pipefail
cd "$(dirname "${BASH_SOURCE[0]}")"
object=$(mktemp)
trap 'rm -f "$object"' EXIT
clang --target=aarch64-linux-gnu -ffreestanding -Os -fno-vectorize -fno-unroll-loops -fomit-frame-pointer \
    -fno-asynchronous-unwind-tables -ffunction-sections -c -o "$object" plugin.c
for function in compare compare_early look_up look_up_kind copy_by_kind copy_by_letter; do
    aarch64-linux-gnu-objcopy -O binary -j ".text.$function" "$object" "$function.bin"
done
