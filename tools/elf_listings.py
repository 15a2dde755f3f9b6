#!/usr/bin/env python3
"""Holds `milestarling list --sections` of ELF files against objdump: sections, addresses, words, labels and data.

    apt-get install binutils-aarch64-linux-gnu
    bash tests/bindings.sh
    python3 tools/elf_listings.py [FILE..]

Without files it takes those that tools/coverage.py has fetched, and an object file with data among its code, which it
assembles. Sections, addresses and words have to be the same, and of data as many bytes. Each label of objdump's has to be
among ours; it writes one where several symbols stand, and makes up others for a section's start and for stubs.
"""
import os
import re
import subprocess
import sys
import tempfile
from typing import NamedTuple

import coverage
from aarch64_tools import GNU

SECTION, LABEL = re.compile('Disassembly of section (.*):'), re.compile('([0-9a-f]{16}) <(.*)>:')
LINE = re.compile(r'\s*([0-9a-f]+):\t([0-9a-f ]+?)\s*\t(\S+)')
DATA = ('.byte', '.short', '.word')
MADE_UP = re.compile(r'.*-0x[0-9a-f]+|.*@plt|\..*|\*ABS\*.*')

SOURCE = '''
        .text
        .globl  f
        .type   f, %function
f:      ldr     x0, table
        ldadd   x0, x1, [x2]
        ret
table:  .quad   0xf9400420f9400420
        .byte   1, 2, 3
        .p2align 2
g:      ldxp    x0, x1, [x2]
        .section .text.h, "ax"
h:      stp     x0, x1, [sp]
        .word   0xf9400420
'''


class Listing(NamedTuple):
    """The words of a file, each with its section and its address, its labels likewise, and how many bytes are data."""
    words: list
    labels: set
    data: int


def ours(path):
    words, labels, data, section = [], set(), 0, None
    for line in coverage.said('list', '--sections', path).splitlines():
        fields, label = line.split('\t'), LABEL.fullmatch(line)
        if label:
            labels.add((section, int(label[1], 16), label[2]))
        elif len(fields) == 1:
            section = line[len('section '):-1]
        elif fields[1] == 'data':
            data += int(fields[3])
        else:
            words.append((section, int(fields[0], 16), fields[1]))
    return Listing(words, labels, data)


def theirs(path):
    done = subprocess.run([GNU + 'objdump', '-d', '-z', '-w', path], stdout=subprocess.PIPE, text=True, check=True)
    words, labels, data, section = [], set(), 0, None
    for line in done.stdout.splitlines():
        named, label, shown = SECTION.fullmatch(line), LABEL.fullmatch(line), LINE.match(line)
        if named:
            section = named[1]
        elif label and not MADE_UP.fullmatch(label[2]):
            # A symbol's version isn't part of its name.
            labels.add((section, int(label[1], 16), label[2].split('@')[0]))
        elif shown and shown[3] in DATA:
            data += len(shown[2].replace(' ', '')) // 2
        elif shown:
            words.append((section, int(shown[1], 16), shown[2]))
    return Listing(words, labels, data)


def compared(path):
    """Compares the listings of a file, and returns ours."""
    our, their = ours(path), theirs(path)
    if our.words != their.words or our.data != their.data:
        raise SystemExit('%s: other words or data than objdump\'s' % path)
    missing = their.labels - our.labels
    if missing:
        raise SystemExit('%s: objdump has the label %s at %#x of %s' % (path, *reversed(min(missing))))
    return our


def assembled(folder):
    """An object file of the source above."""
    path = os.path.join(folder, 'data.o')
    command = [GNU + 'as', '-march=armv8.1-a', '-o', path]
    subprocess.run(command, input=SOURCE, text=True, check=True)
    return path


def main():
    with tempfile.TemporaryDirectory() as folder:
        paths = sys.argv[1:] or [assembled(folder), *coverage.files_below(coverage.ROOM)]
        listings = [compared(path) for path in paths]
    numbers = len(listings), *(sum(map(len, part)) for part in list(zip(*listings))[:2]), sum(listing.data for listing in listings)
    print('%d files, %d words, %d labels, %d bytes of data' % numbers)


if __name__ == '__main__':
    main()
