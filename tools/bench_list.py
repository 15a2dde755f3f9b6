#!/usr/bin/env python3
"""Times the program list beside GNU's and LLVM's objdump: words that each lists in a second, on the same bytes.

    apt-get install llvm-19 binutils-aarch64-linux-gnu
    bash tools/programs.sh list
    python3 tools/bench_list.py [MEBIBYTES] [--list PROGRAM] [--runs NUMBER]

The image has the words of crates/list/stdin again and again, shuffled anew each time. All programs write to
/dev/null. They take turns, so that a busy moment of the machine harms no one of them alone, and the best of a
program's runs counts. With the usual 64 MiB a run of the other two takes a minute or more.
"""
import argparse
import array
import os
import random
import subprocess
import sys
import tempfile
import time

SEED = 4
TOP = os.path.dirname(os.path.dirname(os.path.abspath(__file__)))
PROGRAM = os.path.join(TOP, 'target', 'bin', 'list')
# Words of a first, short try, which shows that each program lists every word.
TRIED = 4096


def image_words(count):
    """So many words of the corpus."""
    with open(os.path.join(TOP, 'crates', 'list', 'stdin'), 'rb') as file:
        content = file.read()
    words = array.array('I')
    words.frombytes(content[:len(content) // 4 * 4])
    rng = random.Random(SEED)
    image = array.array('I')
    while len(image) < count:
        rng.shuffle(words)
        image.extend(words)
    return image[:count]


def make_image(folder, count):
    """Two files of the same bytes: the bare image, and an object that has it as its code, for llvm-objdump."""
    bare, wrapped = os.path.join(folder, 'image.bin'), os.path.join(folder, 'image.o')
    with open(bare, 'wb') as file:
        image_words(count).tofile(file)
    subprocess.run(['llvm-objcopy-19', '-I', 'binary', '-O', 'elf64-littleaarch64', '--rename-section',
                    '.data=.text,alloc,load,readonly,code', bare, wrapped], check=True)
    return bare, wrapped


def commands(program, bare, wrapped):
    """What each program is run with, and the file that it gets as its input."""
    return {
        'list': ([program], bare),
        'GNU objdump': (['aarch64-linux-gnu-objdump', '-D', '-b', 'binary', '-m', 'aarch64', bare], os.devnull),
        'llvm-objdump': (['llvm-objdump-19', '-d', wrapped], os.devnull),
    }


def run(command, source, output):
    """The seconds that a run takes."""
    with open(source, 'rb') as given:
        began = time.perf_counter()
        subprocess.run(command, stdin=given, stdout=output, check=True)
        return time.perf_counter() - began


def try_short(program, folder):
    """Stops if a program doesn't write a line for each word."""
    for name, (command, source) in commands(program, *make_image(folder, TRIED)).items():
        with tempfile.TemporaryFile() as output:
            run(command, source, output)
            output.seek(0)
            lines = sum(1 for _ in output)
        if lines < TRIED:
            sys.exit('%s wrote %d lines for %d words' % (name, lines, TRIED))


def best_times(program, folder, count, runs):
    wanted = commands(program, *make_image(folder, count))
    best = {}
    for _ in range(runs):
        for name, (command, source) in wanted.items():
            with open(os.devnull, 'wb') as output:
                taken = run(command, source, output)
            best[name] = min(taken, best.get(name, taken))
    return best


def main():
    options = argparse.ArgumentParser(description=__doc__.splitlines()[0])
    options.add_argument('mebibytes', nargs='?', type=int, default=64, help='size of the image (64)')
    options.add_argument('--list', default=PROGRAM, help='the program (target/bin/list)')
    options.add_argument('--runs', type=int, default=3, help='runs of each program (3)')
    given = options.parse_args()
    program = os.path.abspath(given.list)
    count = given.mebibytes * (1 << 18)
    with tempfile.TemporaryDirectory() as folder:
        try_short(program, folder)
        best = best_times(program, folder, count, given.runs)
    print('%d words, best of %d runs' % (count, given.runs))
    for name, taken in best.items():
        print('%-13s %8.2f s  %12.0f words a second' % (name, taken, count / taken))
    for name in list(best)[1:]:
        print('list is %.1f times as fast as %s' % (best[name] / best['list'], name))


if __name__ == '__main__':
    main()
