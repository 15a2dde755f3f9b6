#!/usr/bin/env python3
"""Times the import of a memory image in Intel HEX beside GNU's objcopy and srec_cat: from the text to a binary, each a whole program.

    apt-get install binutils srecord
    bash tools/install.sh --command PREFIX
    python3 tools/bench_import.py PREFIX/bin/milestarling [MEBIBYTES] [--runs NUMBER]

The text is objcopy's, of random bytes from 1 MiB on, without carriage returns and without where to start. All programs read it and
write the same binary. They take turns, so that a busy moment of the machine harms no one of them alone, and of each the run with
the least processor time counts.
"""
import argparse
import os
import pathlib
import random
import subprocess
import sys
import tempfile

SEED = 10
FIRST = 0x100000


def make_text(folder, length):
    image = random.Random(SEED).randbytes(length)
    (folder / 'image.bin').write_bytes(image)
    subprocess.run(['objcopy', '-I', 'binary', '-O', 'ihex', '--change-addresses', hex(FIRST), 'image.bin', 'image.hex'],
                   cwd=folder, check=True)
    subprocess.run(['sh', '-ec', r"tr -d '\r' < image.hex | grep -v '^:0400000[35]' > taken.hex"], cwd=folder, check=True)
    return image


def commands(program, length):
    return {
        'milestarling': [program, 'import', 'taken.hex', '--at', hex(FIRST), '--size', str(length), '--out', 'made.bin'],
        'objcopy': ['objcopy', '-I', 'ihex', '-O', 'binary', 'taken.hex', 'made.bin'],
        'srec_cat': ['srec_cat', 'taken.hex', '-intel', '-offset', '-%#x' % FIRST, '-o', 'made.bin', '-binary'],
    }


def run(command, folder):
    """What a run used: seconds of its own, of the system's, and KiB of memory."""
    child = subprocess.Popen(command, cwd=folder)
    _, status, used = os.wait4(child.pid, 0)
    if status:
        sys.exit('%s ended with %d' % (command[0], status))
    return used.ru_utime, used.ru_stime, used.ru_maxrss


def main():
    options = argparse.ArgumentParser(description=__doc__.splitlines()[0])
    options.add_argument('program', help='the command milestarling')
    options.add_argument('mebibytes', nargs='?', type=int, default=64, help='size of the image (64)')
    options.add_argument('--runs', type=int, default=3, help='runs of each program (3)')
    given = options.parse_args()
    length, best = given.mebibytes << 20, {}
    with tempfile.TemporaryDirectory() as name:
        folder = pathlib.Path(name)
        image = make_text(folder, length)
        for _ in range(given.runs):
            for tool, command in commands(os.path.abspath(given.program), length).items():
                used = run(command, folder)
                if (folder / 'made.bin').read_bytes() != image:
                    sys.exit('%s made another binary' % tool)
                best[tool] = min(used, best.get(tool, used), key=lambda used: used[0] + used[1])
    print('%d MiB, best of %d runs' % (given.mebibytes, given.runs))
    for tool, (own, system, memory) in best.items():
        print('%-13s %6.2f s, of which the system %5.2f s, %5d MiB of memory' % (tool, own + system, system, memory >> 10))


if __name__ == '__main__':
    main()
