#!/usr/bin/env python3
"""Asks the program `trails` why bytes are tainted at the end of the runs in crates/replay.

    bash tools/programs.sh trails && python3 tools/why_replayed.py target/bin/trails

The runs, their traces and statuses, and what is tainted at their end were stored by replay_cases.py and the tools that it holds
against each other. Asked about is every byte of memory, every byte of a register that is tainted, and some that aren't: a byte is
explained exactly if it is tainted there, and as why_model.py says. It stops at the first answer that differs.
"""
import random
import struct
import subprocess
import sys

from aarch64_rules import path_of
from machine_model import SPACE
from why_model import CAPACITY, GENERAL, MEMORY, VECTOR, Run, Why
from why_runs import Case, about, case_bytes, line_of

# What the program takes.
MOST = 1024


def stored(name):
    with open(path_of('replay', name), 'rb') as file:
        return file.read()


def machines():
    """Each run, and the places that are tainted at its end."""
    data, at = stored('stdin'), 0
    lines = stored('stdout').decode().splitlines()
    # The last case is cut short, and has one line.
    for first in range(0, len(lines) - 7, 8):
        shown = [line.split('\t') for line in lines[first:first + 8]]
        words, memory, taint, _, _, origin, readonly = struct.unpack_from('<7Q', data, at)
        taints, word_bytes = data[at + 336:at + 592] + data[at + 1104:at + 1616], at + 1616
        at = word_bytes + 4 * words + memory + taint
        yield Run(struct.unpack_from('<%dI' % words, data, word_bytes), tuple(map(int, shown[5][1:])), bytes.fromhex(shown[7][1]),
                  int(shown[0][2]), tuple(taints[i:i + 8] for i in range(0, 256, 8)),
                  tuple(taints[i:i + 16] for i in range(256, 768, 16)), data[at - taint:at], origin, readonly,
                  memory), set(tainted(shown, origin))


def tainted(shown, origin):
    for kind, fields in ((GENERAL, shown[1][1:]), (VECTOR, shown[2][1:])):
        for number, field in enumerate(fields):
            for byte, digit in enumerate(reversed(field.partition('*')[2])):
                if digit == '1':
                    yield kind, 16 * number + byte
    for i, mark in enumerate(bytes.fromhex(shown[4][1])):
        if mark:
            yield MEMORY, (origin + i) % SPACE


def places_of(rng, run, marked):
    """Some bytes of registers, those that are tainted, and the bytes of memory."""
    others = {(kind, 16 * rng.randrange(32) + rng.randrange(CAPACITY[kind])) for kind in (GENERAL, VECTOR) for _ in range(6)}
    return sorted(others | marked | {(MEMORY, (run.origin + i) % SPACE) for i in range(run.length)})


def case_of(rng, run, marked):
    """The questions, with what must come."""
    model, questions, lines = Why(), [], []
    for place in places_of(rng, run, marked):
        question = about(run.steps, place, 3 * (run.steps + 1))
        answer, count, links = model.explain(run, question)
        if answer not in (0, 1) or answer == 0 and (count > 0) != (place in marked):
            raise SystemExit('%s at the end of %s' % (place, run))
        questions.append(question)
        lines.append(line_of((answer, count, links)))
    return Case('replayed', run, tuple(questions)), lines


def compare(program):
    rng, asked, refused, explained, left_out, parts = random.Random(1), 0, 0, 0, 0, []
    for run, marked in machines():
        if max(len(run.words), len(run.taint), len(run.statuses)) > MOST:
            left_out += 1
            continue
        parts.append(case_of(rng, run, marked))
    given = b''.join(case_bytes(case) for case, _ in parts)
    said = subprocess.run([program], input=given, stdout=subprocess.PIPE, check=True).stdout.decode()
    if said != ''.join('case\t%d\n' % number + ''.join(lines) for number, (_, lines) in enumerate(parts)):
        raise SystemExit('the program says something else')
    for line in said.splitlines():
        if line.startswith('why'):
            answer, links = line.split('\t')[1:3]
            asked, refused, explained = asked + 1, refused + (answer != '0'), explained + (links != '0')
    print('%d runs, %d left out as too large; %d questions, %d explained, %d refused' % (
        len(parts), left_out, asked, explained, refused))


if __name__ == '__main__':
    if len(sys.argv) != 2:
        sys.exit(__doc__)
    compare(sys.argv[1])
