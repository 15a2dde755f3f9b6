#!/usr/bin/env python3
"""Writes crates/salvage/stdin and crates/salvage/stdout: damaged listings, and what their rescue must leave.

    python3 tools/rescue_cases.py
    python3 tools/rescue_cases.py --self-check      counts the cases that tell each wrong model from the right one
    python3 tools/rescue_cases.py --try PROGRAM     holds target/bin/salvage against the model on every byte put in and put over
                                                    at every place of the chosen lines, which aren't stored

The lines are those of crates/list/stdout and the texts those of crates/assemble/stdin, which other tools have made. They are
damaged here as a mail gateway does it, and what must come is said by rescue_model.py. The output is the same each time.

A case, numbers little-endian: three 64-bit numbers, which are how many bytes are given, and how many the lent output and the
lent report have; then the bytes. Both buffers start with 255 in every place. The lines of a case are `case` with its number
from 0; `rescue`, the answer, the length of what is put out and of the report; what is put out, as it is; `rest`, the bytes
behind it; the report, as it is; and `rest`, the bytes behind it. Fields are parted by tabs, and the bytes of a rest are two
digits each. Input that ends inside a case gives the one line `case`, number, `cut short`.
"""
import argparse
import collections
import random
import re
import struct
import subprocess
from typing import NamedTuple

from aarch64_rules import path_of, write
from rescue_model import WRONG, Rescue

SEED = 14
MOST = 16384
# Words whose lines are damaged at every place: 01's listing, a text as long as any, a prefetch with a name, and a pair.
CHOSEN = 0x385ff020, 0x91000000, 0xf8408421, 0xf8aa5940, 0xf8800020, 0xa9bf7bfd


class Case(NamedTuple):
    group: str
    listing: bytes
    room: int
    space: int


def stored(crate, name):
    with open(path_of(crate, name), 'rb') as file:
        return file.read()


LISTED = [line for line in stored('list', 'stdout').split(b'\n') if line and not line.startswith(b'short')]
BY_WORD = {int(line[:8], 16): line for line in LISTED}
TEXTS = stored('assemble', 'stdin').split(b'\n')


# Damages of a line at a place.

def eaten(line, i):
    return line[:i] + line[i + 1:]


def doubled(line, i):
    return line[:i + 1] + line[i:]


def exchanged(line, i):
    return line[:i] + line[i + 1:i + 2] + line[i:i + 1] + line[i + 2:]


def raised(line, i):
    return line[:i] + line[i:i + 1].upper() + line[i + 1:]


def cut_off(line, i):
    return line[:i]


def begun_late(line, i):
    return line[i:]


def put_in(byte):
    return lambda line, i: line[:i] + byte + line[i:]


def put_over(byte):
    return lambda line, i: line[:i] + byte + line[i + 1:]


DAMAGES = {
    'eaten': eaten, 'doubled': doubled, 'exchanged': exchanged, 'upper case': raised, 'cut off': cut_off, 'begun late': begun_late,
    'tab in': put_in(b'\t'), 'newline in': put_in(b'\n'), 'return in': put_in(b'\r'), 'space in': put_in(b' '),
    'tab over': put_over(b'\t'), 'newline over': put_over(b'\n'), 'zero over': put_over(b'0'), 'g over': put_over(b'g'),
    'null over': put_over(b'\0'), '255 over': put_over(b'\xff'),
}


def listing_of(lines):
    return b''.join(line + b'\n' for line in lines)


def every_place():
    """Each damage at every place of the chosen lines, a listing for each line and damage."""
    for word in CHOSEN:
        line = BY_WORD[word]
        for name, damage in DAMAGES.items():
            yield 'every place, ' + name, listing_of(damage(line, i) for i in range(len(line)))


def every_byte():
    """Each byte put in and put over at every place of the chosen lines, a listing for each place."""
    for word in CHOSEN:
        line = BY_WORD[word]
        for i in range(len(line) + 1):
            yield listing_of(put_in(bytes([byte]))(line, i) for byte in range(256))
            yield listing_of(put_over(bytes([byte]))(line, i) for byte in range(256))


def first_fields(line):
    """What may stand for the digits."""
    word = line[:8]
    return [
        b'', b' ', b'-', b'short', word[:7], word[1:], word + b'0', b'0' + word, word.upper(), b'0x' + word, b' ' + word, word + b' ',
        b'0x' + word[2:], word[:4] + b'_' + word[4:], word + b'\r', word[:7] + b'g', word[:7] + b'G', word[:7] + b'`', word[:7] + b':',
        word[:7] + b'/', b'\0' * 8, b'\xff' * 8, word * 2, word[:7] + b'\xb0', b'        ', b'00000000', b'ffffffff', b'12345678']


def third_fields():
    return [b'', b'0', b'2', b'3', b'4', b'9', b'10', b'00', b' 0', b'0 ', b'0\r', b'-', b'anything else', b'\0', b'\xff', b'0' * 60]


def changed_fields(rng):
    """Each first and third field with texts of every answer, and texts where others belong."""
    lines = [BY_WORD[word] for word in CHOSEN] + rng.sample(LISTED, 6)
    for line in lines:
        word, text, answer = line.split(b'\t')
        yield 'first field', listing_of(b'\t'.join((first, text, answer)) for first in first_fields(line))
        yield 'third field', listing_of(
            b'\t'.join((first, text, third)) for first in (word, word[1:]) for third in third_fields())
    others = rng.sample(LISTED, 60)
    yield 'text of another word', listing_of(
        a[:9] + b.split(b'\t', 1)[1] for a, b in zip(others, others[1:]))
    yield 'dash for a text', listing_of(line[:9] + b'-\t' + answer for line in others[:12] for answer in (b'0', b'2', b'3', b'4'))
    yield 'fields moved', listing_of(
        b'\t'.join(moved) for line in others[:12] for word, text, answer in (line.split(b'\t'),)
        for moved in ((text, word, answer), (answer, text, word), (text, answer), (word, text), (word, text, answer, b''),
                      (b'', word, text, answer), (b'', text), (text, b''), (b'', text, answer, b''), (b'', text, b''), (text,), (b'', b'', b'')))


def gateways(rng):
    """Stretches of the listing as a gateway may leave them."""
    def stretch(count):
        start = rng.randrange(len(LISTED) - count)
        return LISTED[start:start + count]

    for _ in range(6):
        lines = stretch(60)
        yield 'correct', listing_of(lines)
        yield 'correct, without the last newline', listing_of(lines)[:-1]
        yield 'returns', b''.join(line + b'\r\n' for line in lines)
        yield 'upper case', listing_of(line[:8].upper() + line[8:] for line in lines)
        yield 'spaces for tabs', listing_of(line.replace(b'\t', b' ') for line in lines[:20])
        yield 'lines joined', b''.join(line + rng.choice((b'\n', b'')) for line in lines)
        yield 'tabs eaten', listing_of(re.sub(rb'\t', lambda _: rng.choice((b'\t', b'')), line) for line in lines)
        yield 'digits eaten', listing_of(line[rng.randrange(4):] for line in lines)
    for _ in range(40):
        yield 'a gateway', gateway(rng, listing_of(stretch(120)), rng.choice((20, 60, 200)))
    for count in (1, 2, 3):
        lines = stretch(12)
        short = b'short\t-\t%d' % count
        yield 'short', listing_of(lines + [short])
        yield 'short', listing_of(lines + [short])[:-1]
        yield 'short', listing_of([eaten(short, i) for i in range(len(short))] + [short + b'\r', short.upper(), short])


def gateway(rng, listing, rate):
    """Characters eaten, doubled, exchanged and changed, one in so many."""
    damages = [eaten, doubled, exchanged, raised, put_over(b' '), put_in(b'\n'), put_in(b'\t'), put_over(b'1'), put_in(b'\r')]
    for i in reversed(range(len(listing))):
        if rng.randrange(rate) == 0:
            listing = rng.choice(damages)(listing, i)
    return listing


def old_hints(rng):
    """Listings of before CR 7, whose prefetches show a number for their hint, and such as have no name today."""
    prefetches = [line for line in LISTED if b'\tprf' in line]
    named = [line for line in prefetches if b' #' not in line.split(b',')[0]]
    old = [re.sub(rb'(?<= )p\w+l[123]\w+', b'#%d' % (int(line[:8], 16) % 32), line) for line in named]
    lines = rng.sample(old, 40) + rng.sample(prefetches, 40)
    yield 'before CR 7', listing_of(lines)
    yield 'before CR 7', listing_of(line[1:] for line in lines)


def read_texts(rng):
    """Texts for and against the reader, in lines without their digits and with some."""
    texts = [text for text in rng.sample(TEXTS, 1500) if len(text) < 200]
    for start in range(0, len(texts), 250):
        yield 'texts', listing_of(b'%s\t%s\t%s' % (rng.choice((b'', b'f94')), text, rng.choice((b'0', b'', b'4'))) for text in texts[start:start + 250])


def edge_listings():
    line, short = BY_WORD[0x385ff020], BY_WORD[0x91000000]
    for listing in (b'', b'\n', b'\n\n', b'\n\n\n', b'\t', b'\t\t', b'\t\t\t', b'\t\t\n', b'\r', b'\r\n', b'\0', b'\xff\n', b' ', b'-', b'-\n'):
        yield 'edges', listing
    for damaged in (line, line[1:], line[:-1], line + b'\t', b'\t' + line, b'x' + line[8:], line[:8] + line[9:], short, short[1:]):
        for shape in (b'%s', b'%s\n', b'\n%s', b'\n%s\n', b'%s\n\n', b'\n\n%s\n\n'):
            yield 'edges', shape % damaged
    yield 'many lines', b'\n' * 1101
    yield 'many lines', listing_of([line[4:]] * 130)


def listings():
    rng = random.Random(SEED)
    for source in (edge_listings(), every_place(), changed_fields(rng), gateways(rng), old_hints(rng), read_texts(rng)):
        yield from source


def rooms(rng, listing):
    """Rooms that just suffice, and now and then such as always do."""
    _, output, report = Rescue().rescue(listing, 1 << 32, 1 << 32)
    count = len(Rescue().lines(listing))
    most = min(MOST, len(listing) + 10 * count), min(MOST, 30 * count)
    exact = len(output), len(report)
    return (most if rng.randrange(8) == 0 and sum(most) < 2048 else exact), exact, most


def all_cases():
    rng, found, small = random.Random(SEED), [], []
    for group, listing in listings():
        chosen, exact, most = rooms(rng, listing)
        if len(listing) > MOST or max(exact) > MOST:
            raise SystemExit('too large: %s, %d, %s' % (group, len(listing), exact))
        found.append(Case(group, listing, *chosen))
        if len(listing) < 200 or group == 'short':
            small.append((listing, exact, most))
    # What the first pass put out, once more.
    for case in rng.sample(found, 40):
        again = Rescue().rescue(case.listing, 1 << 32, 1 << 32)[1]
        found.append(Case('second pass', again, *rooms(rng, again)[1]))
    # Rooms at the edges of what is needed and of what always suffices.
    for listing, exact, most in rng.sample(small, 45):
        for room, space in rooms_near(exact, most):
            found.append(Case('rooms', listing, room, space))
    return found


def rooms_near(exact, most):
    (room, space), (most_room, most_space) = exact, most
    pairs = {(room, space), (room - 1, space), (room, space - 1), (room - 1, space - 1), (0, 0), (0, space), (room, 0), (room + 1, space + 2),
             (most_room, most_space), (most_room - 1, most_space), (most_room, most_space - 1), (room - 1, most_space), (most_room, space - 1)}
    return sorted(pair for pair in pairs if min(pair) >= 0)


def case_bytes(case):
    return struct.pack('<3Q', len(case.listing), case.room, case.space) + case.listing


def case_text(model, case):
    answer, output, report = model.rescue(case.listing, case.room, case.space)
    said = b'rescue\t%d\t%d\t%d\n' % (answer, len(output), len(report))
    rests = [b'rest\t%s\n' % (b'ff' * (room - len(text))) for text, room in ((output, case.room), (report, case.space))]
    return said + output + rests[0] + report + rests[1]


def written(cases):
    """What the program must write, but for the end of its input."""
    return b''.join(b'case\t%d\n' % number + case_text(Rescue(), case) for number, case in enumerate(cases))


def try_program(program):
    cases = []
    for listing in every_byte():
        _, output, report = Rescue().rescue(listing, 1 << 32, 1 << 32)
        cases.append(Case('every byte', listing, len(output), len(report)))
    ran = subprocess.run([program], input=b''.join(map(case_bytes, cases)), stdout=subprocess.PIPE, check=True)
    if ran.stdout != written(cases):
        raise SystemExit('the program and the model differ')
    print('%d listings, %d lines, as the model' % (len(cases), sum(len(Rescue().lines(case.listing)) for case in cases)))


def self_check(cases):
    right, unseen = [case_text(Rescue(), case) for case in cases], []
    for wrong in WRONG:
        count = sum(case_text(wrong(), case) != text for case, text in zip(cases, right))
        print('%7d  %s' % (count, wrong.__name__))
        unseen += [] if count else [wrong.__name__]
    if unseen:
        raise SystemExit('not seen: %s' % unseen)


def main():
    parser = argparse.ArgumentParser()
    parser.add_argument('--self-check', action='store_true')
    parser.add_argument('--try', dest='program')
    options = parser.parse_args()
    if options.program:
        return try_program(options.program)
    cases = all_cases()
    if options.self_check:
        return self_check(cases)
    # The last case is cut: its last byte is missing.
    given = b''.join(map(case_bytes, cases)) + case_bytes(next(case for case in cases if case.listing))[:-1]
    expected = written(cases) + b'case\t%d\tcut short\n' % len(cases)
    write('salvage', 'stdin', given)
    write('salvage', 'stdout', expected)
    for group, count in collections.Counter(case.group.split(',')[0] for case in cases).items():
        print('%7d  %s' % (count, group))
    fates = collections.Counter(fate for case in cases for fate, _ in map(Rescue().fate, Rescue().lines(case.listing)))
    print('%d cases, %s, %d bytes in and %d out' % (
        len(cases), ', '.join('%d %s' % (count, fate) for fate, count in fates.items()), len(given), len(expected)))


if __name__ == '__main__':
    main()
