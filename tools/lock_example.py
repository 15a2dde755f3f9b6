#!/usr/bin/env python3
"""Compiles examples/lock.c, and writes its words, their listing, and three cases for the program `replay`.

    apt-get install gcc-aarch64-linux-gnu llvm-19 binutils-aarch64-linux-gnu
    python3 tools/lock_example.py
    target/bin/list < examples/lock.bin && target/bin/replay < examples/lock.cases

The words go to examples/lock.bin. Their listing, tests/lock.listing, is objdump's and llvm-mc's in 01's notation, as that of
list_corpus.py is. Of eleven words five are taken: ldaxr and stxr, which take the lock, the ldr and str of the count, and
the stlr that gives the lock back. The other six compute or branch, and are the host's to do.

The cases go to examples/lock.cases, and what must come of them, which is the model's, to tests/lock.replayed. X0 is the
address of the two numbers, 4096, and X2 is 1; X3, where the status goes, is neither 0 nor 1 before.

0. The words that are taken, one after the other: the lock is free, is taken, and is given back.
1. ldaxr and stxr: the lock is taken, as the 1 in memory shows, with status 0 in X3.
2. stxr, once the host has opened the monitor: it fails with status 1, and stores nothing.

Made with gcc 12.2.0, llvm 19.1.7 and binutils 2.40, from Debian 12. The output is the same each time.
"""
import collections
import os
import struct
import subprocess
import tempfile

from aarch64_rules import judged_words
from list_corpus import listing_line
from machine_model import NONE, Model, State
from replay_format import Case, case_bytes, case_lines, outcome_of

HOME = os.path.dirname(os.path.dirname(os.path.abspath(__file__)))
COMPILE = ['aarch64-linux-gnu-gcc', '-O2', '-march=armv8-a', '-mno-outline-atomics', '-ffreestanding', '-c', '-o']
ORIGIN, COUNT = 4096, 41


def compiled():
    """The words of the compiled function."""
    with tempfile.TemporaryDirectory() as folder:
        built, cut = os.path.join(folder, 'lock.o'), os.path.join(folder, 'lock.bin')
        subprocess.run([*COMPILE, built, os.path.join(HOME, 'examples/lock.c')], check=True)
        subprocess.run(['aarch64-linux-gnu-objcopy', '-O', 'binary', '-j', '.text', built, cut], check=True)
        with open(cut, 'rb') as file:
            return [word for word, in struct.iter_unpack('<I', file.read())]


def case(words):
    """With an open monitor."""
    registers = [ORIGIN, 0, 1, 0x5555] + [0] * 28
    memory = struct.pack('<2I', 0, COUNT)
    state = State(ORIGIN, 0, 65536, registers, [NONE] * 32, memory, bytes(len(memory)))
    return Case('lock', words, state, 2 * len(words), len(words))


def write(name, content):
    with open(os.path.join(HOME, name), 'wb') as file:
        file.write(content)


def main():
    words = compiled()
    judgements = judged_words(words, collections.Counter())
    taken = tuple(word for word, (answer, _) in zip(words, judgements) if answer == 0)
    assert (len(words), len(taken)) == (11, 5)
    cases = [case(taken), case(taken[:2]), case(taken[1:2])]
    write('examples/lock.bin', b''.join(struct.pack('<I', word) for word in words))
    write('tests/lock.listing', ''.join(listing_line(word, *judged) for word, judged in zip(words, judgements)).encode())
    write('examples/lock.cases', b''.join(case_bytes(each) for each in cases))
    lines = [case_lines(number, outcome_of(Model(), each)) for number, each in enumerate(cases)]
    write('tests/lock.replayed', ''.join(lines).encode())


if __name__ == '__main__':
    main()
