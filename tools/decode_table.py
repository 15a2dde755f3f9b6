#!/usr/bin/env python3
"""Writes the table of the second decoder into crates/lookup/src/constant.rt, from the rows of 01's table and of
02's ninth family and vector forms.

    python3 tools/decode_table.py            writes the file
    python3 tools/decode_table.py --check    only says whether the file is what would be written

An entry stands for bits 31 to 22 of a word: 32 times the code of the families that they allow, and the operation code of
these, or 0. A new row is a line of ROWS; the prover then holds the table against the definitions.
"""
import pathlib
import sys

PLACE = pathlib.Path(__file__).resolve().parent.parent / 'crates/lookup/src/constant.rt'
FIRST = 22
UNDEFINED = 31


def field(word, high, low):
    return word >> low & (1 << high - low + 1) - 1


def literal(word):
    vector, opc = field(word, 26, 26), field(word, 31, 30)
    return UNDEFINED if vector and opc == 0b11 else vector * 4 + opc


def sized(word):
    vector, size, opc = field(word, 26, 26), field(word, 31, 30), field(word, 23, 22)
    undefined = size and opc & 0b10 if vector else size & 0b10 and opc == 0b11
    return UNDEFINED if undefined else vector * 16 + size * 4 + opc


def pair(word):
    vector, opc, mode, load = field(word, 26, 26), field(word, 31, 30), field(word, 24, 23), field(word, 22, 22)
    undefined = opc == 0b11 or not vector and opc == 0b01 and not (load and mode)
    return UNDEFINED if undefined else vector * 8 + opc * 2 + load


def exclusive(word):
    return field(word, 31, 30) * 4 + field(word, 23, 22)


# family code, fixed bits among 31..22 as (high, low, value), operation code
ROWS = [
    (1, [(29, 27, 0b011), (25, 24, 0b00)], literal),
    (2, [(29, 27, 0b101), (25, 25, 0b0)], pair),
    (3, [(29, 27, 0b011), (26, 26, 0), (25, 24, 0b01)], sized),
    (4, [(29, 27, 0b111), (25, 24, 0b00)], sized),
    (5, [(29, 27, 0b111), (25, 24, 0b01)], sized),
    (6, [(29, 27, 0b001), (26, 26, 0), (25, 24, 0b00), (23, 22, 0b01)], exclusive),
    (7, [(29, 27, 0b001), (26, 26, 0), (25, 24, 0b00), (23, 22, 0b00)], exclusive),
    (8, [(29, 27, 0b001), (26, 26, 0), (25, 24, 0b00), (23, 23, 0b1)], exclusive),
]


def entry(ten):
    word = ten << FIRST
    for family, fixed, operation in ROWS:
        if all(field(word, *bits) == value for *bits, value in fixed):
            return 32 * family + operation(word)
    return 0


def text():
    lines = [
        '// The table of the second decoder. tools/decode_table.py writes this file.',
        'ghost use mathlib.Core.Path.{_≡_};',
        'ghost use Rattle·lookup·specs.specs.Entries.{entries};',
        '',
        '// 32 times the family code, and the operation code.',
        'const ENTRIES: [u16; 1024] = [',
    ]
    lines += [f'    {entry(ten)},' for ten in range(1024)]
    lines += [
        '];',
        '',
        '// The table, to be lent to decoding: taken once for many words.',
        'pub fn table() -> [u16; 1024]',
        '    ensures { λ r. ⌜ r ≡ entries ⌝ }',
        '{',
        '    ENTRIES',
        '}',
    ]
    return '\n'.join(lines) + '\n'


if __name__ == '__main__':
    if sys.argv[1:] == ['--check']:
        sys.exit(PLACE.read_text() != text() and f'{PLACE} is not what {sys.argv[0]} writes')
    PLACE.write_text(text())
