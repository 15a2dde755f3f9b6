"""Reads the lines of text of 01 and 02 by patterns that take nothing else, and gives the word of each.

What is read is written again, and has to be the same text: so a mistake in a pattern stops the script that asks.
"""
import re

from aarch64_rules import is_valid, packed
from aarch64_text import (
    EXCLUSIVE, LITERAL, PAIR, ORDERED, UNSCALED, POST, PRE, REGISTER, UNSIGNED, NO_ALLOCATE, PAIR_POST, PAIR_OFFSET,
    PAIR_PRE, Record, size_of, text_of)

NO_LINE = 0, 9

# The numbers of 01 have at most seven digits.
NUMBER = '#(?P<number>0|-?[1-9][0-9]{0,6})'
NOT_ZERO = '#(?P<number>-?[1-9][0-9]{0,6})'
REGISTER_COUNT = '[12]?[0-9]|30'
BASE = '(?P<base>x(?:%s)|sp)' % REGISTER_COUNT


def general(name, letters='wx'):
    return '(?P<%s>[%s](?:%s|zr))' % (name, letters, REGISTER_COUNT)


def data(name):
    """A general or vector register."""
    return '(?P<%s>[wx](?:%s|zr)|[bhsdq](?:%s|31))' % (name, REGISTER_COUNT, REGISTER_COUNT)


TARGET = data('target')
# 02's names, and the numbers that have none.
HINT = '(?P<hint>p(?:ld|li|st)l[123](?:keep|strm)|#(?:6|7|14|15|22|23|2[4-9]|3[01]))'
OFFSET = r'\[' + BASE + '(?:, ' + NOT_ZERO + r')?\]'
AFTER = r'\[' + BASE + r'\], ' + NUMBER
BEFORE = r'\[' + BASE + ', ' + NUMBER + r'\]!'
INDEX = (r'\[' + BASE + ', (?:'
         + general('plain', 'x') + '(?:, lsl #(?P<plain_amount>[0-4]))?|'
         + general('narrow', 'w') + ', (?P<narrow_extend>uxtw|sxtw)(?: #(?P<narrow_amount>[0-4]))?|'
         + general('wide', 'x') + r', sxtx(?: #(?P<wide_amount>[0-4]))?)\]')

# Mnemonic and letter of the target: size * 4 + opc, and 16 more for vectors.
PLAIN = {
    'strb w': 0, 'ldrb w': 1, 'ldrsb x': 2, 'ldrsb w': 3, 'strh w': 4, 'ldrh w': 5, 'ldrsh x': 6, 'ldrsh w': 7,
    'str w': 8, 'ldr w': 9, 'ldrsw x': 10, 'str x': 12, 'ldr x': 13, 'prfm #': 14,
    'str b': 16, 'ldr b': 17, 'str q': 18, 'ldr q': 19, 'str h': 20, 'ldr h': 21, 'str s': 24, 'ldr s': 25, 'str d': 28,
    'ldr d': 29,
}
NAMES = {
    LITERAL: {'ldr w': 0, 'ldr x': 1, 'ldrsw x': 2, 'prfm #': 3, 'ldr s': 4, 'ldr d': 5, 'ldr q': 6},
    ORDERED: {
        'stlurb w': 0, 'ldapurb w': 1, 'ldapursb x': 2, 'ldapursb w': 3, 'stlurh w': 4, 'ldapurh w': 5,
        'ldapursh x': 6, 'ldapursh w': 7, 'stlur w': 8, 'ldapur w': 9, 'ldapursw x': 10, 'stlur x': 12,
        'ldapur x': 13,
    },
    UNSCALED: {
        'sturb w': 0, 'ldurb w': 1, 'ldursb x': 2, 'ldursb w': 3, 'sturh w': 4, 'ldurh w': 5, 'ldursh x': 6,
        'ldursh w': 7, 'stur w': 8, 'ldur w': 9, 'ldursw x': 10, 'stur x': 12, 'ldur x': 13, 'prfum #': 14,
        'stur b': 16, 'ldur b': 17, 'stur q': 18, 'ldur q': 19, 'stur h': 20, 'ldur h': 21, 'stur s': 24, 'ldur s': 25,
        'stur d': 28, 'ldur d': 29,
    },
    POST: PLAIN, PRE: PLAIN, REGISTER: PLAIN, UNSIGNED: PLAIN,
}
ONE = '(?P<name>[a-z]+) (?:' + TARGET + '|' + HINT + '), '
ONES = [(family, re.compile(ONE + place)) for family, place in (
    (LITERAL, NUMBER), (ORDERED, OFFSET), (UNSCALED, OFFSET), (POST, AFTER), (PRE, BEFORE), (REGISTER, INDEX),
    (UNSIGNED, OFFSET))]

# Mnemonic and letter of both registers: opc * 2 + L, and 8 more for vectors.
PAIRS = {
    'stp w': 0, 'ldp w': 1, 'ldpsw x': 3, 'stp x': 4, 'ldp x': 5, 'stp s': 8, 'ldp s': 9, 'stp d': 10, 'ldp d': 11,
    'stp q': 12, 'ldp q': 13,
}
UNALLOCATING = {
    'stnp w': 0, 'ldnp w': 1, 'stnp x': 4, 'ldnp x': 5, 'stnp s': 8, 'ldnp s': 9, 'stnp d': 10, 'ldnp d': 11, 'stnp q': 12,
    'ldnp q': 13,
}
TWO = '(?P<name>[a-z]+) ' + TARGET + ', ' + data('second') + ', '
TWOS = [(mode, names, re.compile(TWO + place)) for mode, names, place in (
    (NO_ALLOCATE, UNALLOCATING, OFFSET), (PAIR_POST, PAIRS, AFTER), (PAIR_OFFSET, PAIRS, OFFSET),
    (PAIR_PRE, PAIRS, BEFORE))]

# The ninth family, mnemonic and letter of the data: size * 8, and bit 23, L and bit 15 side by side.
WITHOUT_STATUS = {
    'ldxrb w': 2, 'ldaxrb w': 3, 'stlrb w': 5, 'ldarb w': 7, 'ldxrh w': 10, 'ldaxrh w': 11, 'stlrh w': 13, 'ldarh w': 15,
    'ldxr w': 18, 'ldaxr w': 19, 'stlr w': 21, 'ldar w': 23, 'ldxr x': 26, 'ldaxr x': 27, 'stlr x': 29, 'ldar x': 31,
}
WITH_STATUS = {
    'stxrb w': 0, 'stlxrb w': 1, 'stxrh w': 8, 'stlxrh w': 9, 'stxr w': 16, 'stlxr w': 17, 'stxr x': 24, 'stlxr x': 25,
}
PLACE = r'\[' + BASE + r'\]'
EXCLUSIVES = [
    (WITHOUT_STATUS, re.compile('(?P<name>[a-z]+) (?P<status>)' + TARGET + ', ' + PLACE)),
    (WITH_STATUS, re.compile('(?P<name>[a-z]+) ' + general('status', 'w') + ', ' + TARGET + ', ' + PLACE))]


def hint_of(name):
    """The number of a hint, by its three fields or as it stands."""
    if name.startswith('#'):
        return int(name[1:])
    kind, level, policy = name[1:3], name[4], name[5:]
    return ('ld', 'li', 'st').index(kind) * 8 + '123'.index(level) * 2 + ('keep', 'strm').index(policy)


def number_of(name):
    """Of a register, behind its letter."""
    return 31 if name in ('wzr', 'xzr', 'sp') else int(name[1:])


def single_record(family, found):
    target, hint = found['target'], found['hint']
    operation = NAMES[family].get(found['name'] + ' ' + (target[0] if target else '#'))
    if operation is None:
        return None
    record = Record(family, operation, number_of(target) if target else hint_of(hint))
    if family == LITERAL:
        return record._replace(offset=int(found['number']))
    record = record._replace(base=number_of(found['base']))
    if family == REGISTER:
        return index_record(record, found)
    return record._replace(offset=int(found['number'] or 0))


def index_record(record, found):
    if found['narrow']:
        name, amount = found['narrow'], found['narrow_amount']
        option = {'uxtw': 0b010, 'sxtw': 0b110}[found['narrow_extend']]
    elif found['wide']:
        name, amount, option = found['wide'], found['wide_amount'], 0b111
    else:
        name, amount, option = found['plain'], found['plain_amount'], 0b011
    if amount is not None and int(amount) != size_of(record.operation):
        return None
    return record._replace(second=number_of(name), mode=option, scaled=int(amount is not None))


def pair_record(mode, names, found):
    target, second = found['target'], found['second']
    operation = names.get(found['name'] + ' ' + target[0])
    if operation is None or target[0] != second[0]:
        return None
    return Record(PAIR, operation, number_of(target), number_of(found['base']), number_of(second), mode,
                  offset=int(found['number'] or 0))


def exclusive_record(names, found):
    target = found['target']
    operation = names.get(found['name'] + ' ' + target[0])
    if operation is None:
        return None
    return Record(EXCLUSIVE, operation, number_of(target), number_of(found['base']),
                  number_of(found['status']) if found['status'] else 0)


def records_in(text):
    for family, pattern in ONES:
        found = pattern.fullmatch(text)
        if found:
            yield single_record(family, found)
    for mode, names, pattern in TWOS:
        found = pattern.fullmatch(text)
        if found:
            yield pair_record(mode, names, found)
    for names, pattern in EXCLUSIVES:
        found = pattern.fullmatch(text)
        if found:
            yield exclusive_record(names, found)


def record_of(line):
    """The record whose line this is, given as bytes without its newline, or None."""
    text = line.decode('latin-1')
    records = [record for record in records_in(text) if record and is_valid(record)]
    if not records:
        return None
    if len(records) > 1 or text_of(records[0]) != text:
        raise SystemExit('read otherwise than written: ' + text)
    return records[0]


def read_line(line):
    """The word and the answer for a line."""
    record = record_of(line)
    return (packed(record), 0) if record else NO_LINE
