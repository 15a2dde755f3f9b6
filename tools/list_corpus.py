#!/usr/bin/env python3
"""Writes crates/list/stdin and crates/list/stdout: words, and the listing that must come.

    apt-get install llvm-19 binutils-aarch64-linux-gnu
    python3 tools/list_corpus.py

The texts are those of llvm-mc and objdump in 01's notation, which have to agree with each other and with a text
written from the fields; the answers are 01's and 02's, and the tools have to agree with these too: aarch64_rules.py says
how, and lists where a tool differs or 01 or 02 decides otherwise. None of it comes from this project's code. Made with
llvm 19.1.7 and binutils 2.40. The output is the same each time.
"""
import collections
import itertools
import os
import random
import struct
from typing import NamedTuple, Optional

from aarch64_rules import (
    EXAMPLES, TABLE, edges, field, judged_words, line_of, path_of, show, undefined_by_rule, word_of_line, write)
from aarch64_text import EXCLUSIVE, LITERAL, ORDERED, PAIR, POST, PRE, REGISTER, UNSCALED, UNSIGNED, text_of
from exclusive_words import exclusive_words

SEED = 2
# 01's listing.
LISTING = [0x385ff020, 0x91000000, 0xf8408421]
LISTED = '''\
385ff020\tldurb w0, [x1, #-1]\t0
91000000\t-\t2
f8408421\tldr x1, [x1], #8\t4
'''
# A prefetch whose text is as long as any.
LONGEST = 0xf8aa5940
LEFT_OVER = b'\x20\xf0\x5f'


class Layout(NamedTuple):
    """The fields of a family that its line of 01's table leaves free, as (high, low)."""
    # Those that choose between instructions.
    choices: tuple
    # Rt, then Rn and Rm or Rt2 where there is one.
    registers: tuple
    immediate: Optional[tuple]


SIZE, VECTOR, OPC, RN, RT = (31, 30), (26, 26), (23, 22), (9, 5), (4, 0)
LAYOUTS = {
    LITERAL: Layout((VECTOR, SIZE), (RT,), (23, 5)),
    PAIR: Layout((VECTOR, SIZE, (24, 23), (22, 22)), (RT, RN, (14, 10)), (21, 15)),
    ORDERED: Layout((SIZE, OPC), (RT, RN), (20, 12)),
    **{family: Layout((VECTOR, SIZE, OPC), (RT, RN), (20, 12)) for family in (UNSCALED, POST, PRE)},
    REGISTER: Layout((VECTOR, SIZE, OPC, (15, 13), (12, 12)), (RT, RN, (20, 16)), None),
    UNSIGNED: Layout((VECTOR, SIZE, OPC), (RT, RN), (21, 10)),
    EXCLUSIVE: Layout((SIZE, OPC, (15, 15)), (RT, RN, (20, 16)), None),
}


def width(place):
    high, low = place
    return high - low + 1


def put(word, place, value):
    """The word with a value in a field."""
    high, low = place
    return word & ~((1 << high + 1) - (1 << low)) | value << low


def put_all(word, places, values):
    for place, value in zip(places, values):
        word = put(word, place, value)
    return word


def chosen_words(rng, family):
    """An arbitrary word for each choice: vectors or not, every size, opc, mode, L, option and S, undefined ones too."""
    places = LAYOUTS[family].choices
    for values in itertools.product(*(range(1 << width(place)) for place in places)):
        yield put_all(word_of_line(rng, family), places, values)


def register_edges(rng, count):
    """Numbers for so many registers: each way to take 0, 30 and 31, and any number in each two and in all."""
    yield from itertools.product((0, 30, 31), repeat=count)
    for places in itertools.combinations(range(count), 2):
        same = rng.getrandbits(5)
        yield [same if i in places else rng.getrandbits(5) for i in range(count)]
    yield [rng.getrandbits(5)] * count


def edge_words(rng, family):
    """For each choice, registers at their edges with any immediate, and the other way round."""
    layout = LAYOUTS[family]
    for head in chosen_words(rng, family):
        for numbers in register_edges(rng, len(layout.registers)):
            yield put_all(any_operands(rng, head, layout), layout.registers, numbers)
        if layout.immediate:
            for value in edges(width(layout.immediate)):
                for _ in range(3):
                    yield put(any_operands(rng, head, layout), layout.immediate, value)


def any_operands(rng, word, layout):
    places = layout.registers + ((layout.immediate,) if layout.immediate else ())
    return put_all(word, places, [rng.getrandbits(width(place)) for place in places])


def filled_words(rng, family, each):
    """For each choice, any operands."""
    for head in chosen_words(rng, family):
        for _ in range(each):
            yield any_operands(rng, head, LAYOUTS[family])


def counted_words(rng, family, places, rounds):
    """Every value in one field, or the same in two, in words that are not undefined, so that each is printed."""
    for _ in range(rounds):
        for value in range(1 << width(places[0])):
            word = put_all(word_of_line(rng, family), places, [value] * len(places))
            while undefined_by_rule(family, word):
                word = put_all(word_of_line(rng, family), places, [value] * len(places))
            yield word


def literal_offsets(rng):
    """Immediates of a literal on both sides of each power of two, where the number of digits changes too."""
    for bit in range(19):
        for value in ((1 << bit) - 1, 1 << bit, (1 << bit) + 1, -(1 << bit) - 1, -(1 << bit), -(1 << bit) + 1):
            yield put(word_of_line(rng, LITERAL), (23, 5), value % (1 << 19))
    for power in range(1, 7):
        for value in range(10 ** power // 4 - 2, 10 ** power // 4 + 3):
            yield put(word_of_line(rng, LITERAL), (23, 5), value)
            yield put(word_of_line(rng, LITERAL), (23, 5), -value % (1 << 19))


def prefetch_words(rng):
    """Every hint in each family with prefetches; with an index the highest eight are range prefetches elsewhere."""
    for family in (UNSCALED, REGISTER, UNSIGNED):
        for hint in range(32):
            for _ in range(16):
                yield put_all(word_of_line(rng, family), (VECTOR, SIZE, OPC, RT), (0, 3, 2, hint))
    for hint in range(32):
        for _ in range(16):
            yield put_all(word_of_line(rng, LITERAL), (VECTOR, SIZE, RT), (0, 3, hint))
    yield LONGEST


def near_words(rng, each):
    """One of the bits that a line fixes is another."""
    for family, row in TABLE.items():
        for high, low, _ in row:
            for bit in range(low, high + 1):
                for _ in range(each):
                    yield word_of_line(rng, family) ^ 1 << bit


def ordered_vectors(rng, each):
    """Arm's ordered forms of vectors, which stand beside the ordered family and are not of the set."""
    for size, opc, _ in itertools.product(range(4), range(4), range(each)):
        yield put_all(word_of_line(rng, ORDERED), (SIZE, VECTOR, OPC, (11, 10)), (size, 1, opc, 0b10))


def all_words(rng):
    """Each word once, 01's first."""
    words = LISTING + EXAMPLES
    for family, layout in LAYOUTS.items():
        if family == EXCLUSIVE:
            # Nearly all of its words are undefined: exclusive_words.py has those that are not.
            words += exclusive_words(rng, 2, 24)
            continue
        words += edge_words(rng, family)
        words += filled_words(rng, family, 20 if family == REGISTER else 60)
        for place in layout.registers:
            words += counted_words(rng, family, (place,), 8)
        for places in itertools.combinations(layout.registers, 2):
            words += counted_words(rng, family, places, 8)
        if layout.immediate and family != LITERAL:
            words += counted_words(rng, family, (layout.immediate,), {PAIR: 32, UNSIGNED: 2}.get(family, 4))
    words += filled_words(rng, LITERAL, 1000)
    words += literal_offsets(rng)
    words += prefetch_words(rng)
    words += near_words(rng, 60)
    words += ordered_vectors(rng, 4)
    words += [rng.getrandbits(32) for _ in range(10000)]
    words += [0, 0xffffffff]
    return list(dict.fromkeys(words))


def listing_line(word, answer, record):
    return '%08x\t%s\t%d\n' % (word, text_of(record) if answer in (0, 4) else '-', answer)


def choice_counts(words):
    """How often each choice is there, for each family."""
    counts = {family: collections.Counter() for family in LAYOUTS}
    for word in words:
        family = line_of(word)
        if family:
            counts[family][tuple(field(word, *place) for place in LAYOUTS[family].choices)] += 1
    return counts


def main():
    rules = collections.Counter()
    words = all_words(random.Random(SEED))
    judgements = judged_words(words, rules)
    lines = [listing_line(word, answer, record) for word, (answer, record) in zip(words, judgements)]
    if ''.join(lines[:len(LISTING)]) != LISTED:
        raise SystemExit('this is not the listing that 01 shows')
    os.makedirs(path_of('list', ''), exist_ok=True)
    write('list', 'stdin', b''.join(struct.pack('<I', word) for word in words) + LEFT_OVER)
    write('list', 'stdout', (''.join(lines) + 'short\t-\t%d\n' % len(LEFT_OVER)).encode())
    show('words by answer', collections.Counter(answer for answer, _ in judgements))
    show('words that a rule decides', rules)
    for family, counts in choice_counts(words).items():
        print('family %d: %d choices, %d words for the least' % (family, len(counts), min(counts.values())))
    print('longest text: %d bytes' % max(len(line) - 12 for line in lines))


if __name__ == '__main__':
    main()
