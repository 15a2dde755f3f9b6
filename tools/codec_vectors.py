#!/usr/bin/env python3
"""Writes crates/codec/stdin and crates/codec/stdout: words to decode, records to encode, and what must come.

    apt-get install llvm-19 binutils-aarch64-linux-gnu
    python3 tools/codec_vectors.py

What must come is taken from llvm-mc and objdump, which have to agree, and from 01's and 02's rules, never from this
project's code: aarch64_rules.py says how. The word of a record is packed there, and compared with what both
assemblers make of the record's text and with what both disassemblers say of it. Made with llvm 19.1.7 and
binutils 2.40. The output is the same each time.
"""
import collections
import itertools
import random
import struct

from aarch64_rules import (
    EXAMPLES, TABLE, WITH_IMM9, WITH_VECTORS, agreed, edges, fixed_bits, is_valid, judged_words, packed, range_of, scale_of,
    show, word_of_line, write)
from aarch64_text import (
    EMPTY, EXCLUSIVE, LITERAL, LITERAL_NAMES, ORDERED, PAIR, PAIR_NAMES, POST, PRE, REGISTER, SIZED_NAMES, UNSCALED,
    UNSIGNED, Record, has_status, is_vector, text_of)
from aarch64_tools import llvm_assembly
import exclusive_words

SEED = 1
WORD = 10
# So many that the output stays within the mebibyte that `rt try` takes.
RANDOM_WORDS = 500


# Words to decode.

def heads(family):
    """The fixed bits of a family, with bit 26 for general registers and, where it has them, for vectors."""
    return [fixed_bits(family) | vector << 26 for vector in range(2 if family in WITH_VECTORS else 1)]


def registers(rng):
    """Rn, Rt and a third register: both ends, each two equal, and any."""
    a, b = rng.getrandbits(5), rng.getrandbits(5)
    return [(0, 0, 0), (31, 31, 31), (a, a, b), (a, b, a), (b, a, a), (31, a, a), (31, 31, a), (31, a, 31),
            (a, 31, 31), (30, 29, 28), (a, b, rng.getrandbits(5))]


def literal_words(rng):
    for head, opc in itertools.product(heads(LITERAL), range(4)):
        for imm19 in edges(19) + [rng.getrandbits(19) for _ in range(8)]:
            for rt in (0, 31, rng.getrandbits(5)):
                yield head | opc << 30 | imm19 << 5 | rt
        for hint in range(32):
            yield head | opc << 30 | rng.getrandbits(19) << 5 | hint


def pair_words(rng):
    for plain, opc, mode, load in itertools.product(heads(PAIR), range(4), range(4), range(2)):
        head = plain | opc << 30 | mode << 23 | load << 22
        for rn, rt, rt2 in registers(rng):
            yield head | rng.getrandbits(7) << 15 | rt2 << 10 | rn << 5 | rt
        for imm7 in edges(7) + [rng.getrandbits(7) for _ in range(2)]:
            yield head | imm7 << 15 | rng.getrandbits(15)


def immediate_words(rng, family, width, low):
    """Of a family with a size and an immediate."""
    for plain, size, opc in itertools.product(heads(family), range(4), range(4)):
        head = plain | size << 30 | opc << 22
        for rn, rt, _ in registers(rng):
            yield head | rng.getrandbits(width) << low | rn << 5 | rt
        for imm in edges(width):
            yield head | imm << low | rng.getrandbits(10)
        for _ in range(4):
            yield head | rng.getrandbits(width) << low | rng.getrandbits(10)


def register_words(rng):
    """Of two choices that differ in S alone, each takes every other of the registers; undefined options take fewer."""
    for plain, size, opc, option, scaled in itertools.product(heads(REGISTER), range(4), range(4), range(8), range(2)):
        head = plain | size << 30 | opc << 22 | option << 13 | scaled << 12
        for rn, rt, rm in registers(rng)[scaled::2 if option & 2 else 4]:
            yield head | rm << 16 | rn << 5 | rt


def prefetch_words(rng):
    """Every hint in each family with a size: the highest eight with an index are range prefetches elsewhere."""
    for family in (UNSCALED, REGISTER, UNSIGNED):
        for hint in range(32):
            head = fixed_bits(family) | 3 << 30 | 2 << 22 | hint
            for _ in range(4):
                free = rng.getrandbits(9) << 12 if family != UNSIGNED else rng.getrandbits(12) << 10
                yield head | free | rng.getrandbits(5) << 5


def near_words(rng):
    """One of the fixed bits of a line is another."""
    for family, row in TABLE.items():
        for high, low, _ in row:
            for bit in range(low, high + 1):
                for _ in range(8):
                    yield word_of_line(rng, family) ^ 1 << bit


def all_words(rng):
    """Each word once."""
    words = list(EXAMPLES)
    words += literal_words(rng)
    words += pair_words(rng)
    for family in WITH_IMM9:
        words += immediate_words(rng, family, 9, 12)
    words += immediate_words(rng, UNSIGNED, 12, 10)
    words += register_words(rng)
    words += prefetch_words(rng)
    words += exclusive_words.exclusive_words(rng, 0, 2)
    words += near_words(rng)
    words += [rng.getrandbits(32) for _ in range(RANDOM_WORDS)]
    words += [0, 0xffffffff]
    return list(dict.fromkeys(words))


# Records to encode.

def operations():
    """Each family with each operation and, of a pair, each mode: those that no encoder takes are there too."""
    for operation in LITERAL_NAMES:
        yield LITERAL, operation, 0
    for operation, mode in itertools.product(PAIR_NAMES, range(4)):
        yield PAIR, operation, mode
    for family, operation in itertools.product((ORDERED, UNSCALED, POST, PRE, REGISTER, UNSIGNED), SIZED_NAMES):
        if family in WITH_VECTORS or not is_vector(UNSCALED, operation):
            yield family, operation, 0
    for operation in exclusive_words.operations():
        yield EXCLUSIVE, operation, 0


def any_record(rng, family, operation, mode):
    """All fields in range. Target, base and the second register of a pair differ, so that it is not of answer 4.

    So do those of a store-exclusive.
    """
    low, high = range_of(family, operation)
    scale = scale_of(family, operation)
    target = rng.getrandbits(5)
    record = Record(family, operation, target, offset=low + rng.getrandbits(20) % ((high - low) // scale + 1) * scale)
    if family == LITERAL:
        return record
    record = record._replace(base=(target + 1 + rng.getrandbits(3)) % 32)
    if family == PAIR or family == EXCLUSIVE and has_status(operation):
        return record._replace(second=(target + 16 + rng.getrandbits(3)) % 32, mode=mode)
    if family == REGISTER:
        option = (2, 3, 6, 7)[rng.getrandbits(2)]
        return record._replace(second=rng.getrandbits(5), mode=option, scaled=rng.getrandbits(1))
    return record


def register_names(family, operation):
    if family == EXCLUSIVE:
        return exclusive_words.register_names(operation)
    return {LITERAL: ('target',), PAIR: ('target', 'base', 'second'), REGISTER: ('target', 'base', 'second')}.get(
        family, ('target', 'base'))


def offset_edges(family, operation):
    """Offsets at both ends and about 0; then one past each end, between two multiples, and far away."""
    low, high = range_of(family, operation)
    scale = scale_of(family, operation)
    inside = [low, low + scale, -scale, 0, scale, high - scale, high]
    outside = [low - scale, high + scale, low - 1, high + 1, scale // 2, 1, -1, -(1 << 63), (1 << 63) - 1, 1 << 32,
               -(1 << 32)]
    return inside + outside


def records_of(rng, family, operation, mode):
    """One field at a time takes each of its edges, in and out of range."""
    def other(**changed):
        return any_record(rng, family, operation, mode)._replace(**changed)

    for name in register_names(family, operation):
        for number in (0, 31, 32, 1 << 31, (1 << 32) - 1):
            yield other(**{name: number})
    if family not in (REGISTER, EXCLUSIVE):
        for offset in offset_edges(family, operation):
            yield other(offset=offset)
    if 'second' in register_names(family, operation) and family != REGISTER:
        yield from (other(target=7, second=7), other(base=7, second=7), other(target=31, second=31))
    if family != LITERAL:
        yield from (other(target=7, base=7), other(target=31, base=31))
    if family == REGISTER:
        for option in (0, 1, 2, 3, 4, 5, 6, 7, 8, 10, 11, (1 << 31) + 3, (1 << 32) - 1):
            yield from (other(mode=option, scaled=scaled) for scaled in (0, 1))
        yield from (other(scaled=scaled) for scaled in (2, 3, (1 << 31) + 1, (1 << 32) - 1))
    yield from (other() for _ in range(2))


def all_records(rng):
    """Each record once. The last are of no family, operation or mode: these stand for the empty record."""
    records = [Record(EMPTY, 0)]
    for family, operation, mode in operations():
        records += records_of(rng, family, operation, mode)
    # There are no ordered vectors.
    records += [any_record(rng, ORDERED, operation, 0) for operation in SIZED_NAMES if is_vector(UNSCALED, operation)]
    unknown = [Record(11, 0), Record(LITERAL, 7), Record(LITERAL, 8), Record(PAIR, 0, mode=4), Record(PAIR, 8, mode=4),
               Record(UNSIGNED, 32), Record(UNSIGNED, 1 << 32), Record(EXCLUSIVE, 4), Record(EXCLUSIVE, 30),
               Record(EXCLUSIVE, 32)]
    unknown += [Record(PAIR, operation) for operation in (2, 6, 7, 14, 15, 16)]
    unknown += [Record(family, operation) for family in (ORDERED, UNSCALED)
                for operation in (11, 15, 22, 23, 26, 27, 30, 31, 32)]
    return list(dict.fromkeys(records)), unknown


def encoded_records(records, rules, confirmed):
    """The answer and the word of each record. Counts by which tools the words were confirmed."""
    valid = [record for record in records if is_valid(record)]
    words = [packed(record) for record in valid]
    judgements = judged_words(words, rules)
    made = llvm_assembly([text_of(record) for record in valid])
    for record, word, (answer, read), by_llvm in zip(valid, words, judgements, made):
        agreed(read == record, word, record, read)
        confirmed['both disassemblers, GNU assembler'] += 1
        if by_llvm.word is None and answer == 4:
            confirmed['refused by llvm-mc as unpredictable'] += 1
            continue
        agreed(by_llvm.word == word, word, record, by_llvm)
        confirmed['llvm-mc as assembler'] += 1
    of = dict(zip(valid, words))
    return [(0, of[record]) if record in of else (11, 0) for record in records]


# The two files.

def case_bytes(numbers):
    return struct.pack('<8Q', *(number % (1 << 64) for number in numbers))


def record_line(record, answer, word):
    return 'record %s encode %d %08x\n' % (' '.join(str(number) for number in record), answer, word)


def word_line(word, answer, record):
    decoded = 0 if answer == 4 else answer
    encoded = (0, word) if decoded == 0 else (11, 0)
    return 'word %08x class %d decode %d ' % (word, answer, decoded) + record_line(record, *encoded)


def main():
    rng = random.Random(SEED)
    rules, record_rules, confirmed = (collections.Counter() for _ in range(3))
    words = all_words(rng)
    judgements = judged_words(words, rules)
    records, unknown = all_records(rng)
    results = encoded_records(records, record_rules, confirmed)
    cases = [case_bytes((WORD, word, 0, 0, 0, 0, 0, 0)) for word in words]
    lines = [word_line(word, answer, record) for word, (answer, record) in zip(words, judgements)]
    cases += [case_bytes(record) for record in records + unknown]
    lines += [record_line(record, *result) for record, result in zip(records, results)]
    lines += [record_line(Record(EMPTY, 0), 11, 0)] * len(unknown)
    # A piece of a case at the end of the input is ignored.
    write('codec', 'stdin', b''.join(cases) + b'piece')
    write('codec', 'stdout', ''.join(lines).encode())
    show('words by answer', collections.Counter(answer for answer, _ in judgements))
    show('words that a rule decides', rules)
    show('records by answer', collections.Counter([answer for answer, _ in results] + [11] * len(unknown)))
    show('valid records that a tool confirms', confirmed)


if __name__ == '__main__':
    main()
