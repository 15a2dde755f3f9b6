"""Records of AArch64 loads and stores, read from a disassembler's text and written as 01's line of text.

A record holds the numbers that the program codec reads and writes. It is read from the text alone, never from
the bits of a word. A second way from text to line, line_in, leaves alone what it doesn't have to change.
"""
import re
from typing import NamedTuple

EMPTY, LITERAL, PAIR, ORDERED, UNSCALED, POST, PRE, REGISTER, UNSIGNED, EXCLUSIVE = range(10)
NO_ALLOCATE, PAIR_POST, PAIR_OFFSET, PAIR_PRE = range(4)
PREFETCH = 14
VECTOR_LETTERS = 'bhsdq'


class Record(NamedTuple):
    """A family's number in the order of 01's table, 02's ninth last, and its operands; unused numbers are 0.

    operation: size * 4 + opc; for a literal opc; for a pair opc * 2 + L; before these, as the highest bit of five, three and
    four, bit 26, which is 1 for vector registers; for the ninth family size * 8 and bit 23, L and bit 15 side by side.
    second: a pair's Rt2, an index's Rm, or a store-exclusive's Rs. mode: a pair's mode, or an index's option. scaled: S.
    """
    family: int
    operation: int
    target: int = 0
    base: int = 0
    second: int = 0
    mode: int = 0
    scaled: int = 0
    offset: int = 0


# Mnemonic and letter of the register: the operation with a size. The first register of a prefetch is a hint. The size of a
# vector register's operation is 0 for b and for q.
SIZED = {
    ('strb', 'w'): 0, ('ldrb', 'w'): 1, ('ldrsb', 'x'): 2, ('ldrsb', 'w'): 3,
    ('strh', 'w'): 4, ('ldrh', 'w'): 5, ('ldrsh', 'x'): 6, ('ldrsh', 'w'): 7,
    ('str', 'w'): 8, ('ldr', 'w'): 9, ('ldrsw', 'x'): 10,
    ('str', 'x'): 12, ('ldr', 'x'): 13, ('prfm', '#'): PREFETCH,
    ('str', 'b'): 16, ('ldr', 'b'): 17, ('str', 'q'): 18, ('ldr', 'q'): 19, ('str', 'h'): 20, ('ldr', 'h'): 21,
    ('str', 's'): 24, ('ldr', 's'): 25, ('str', 'd'): 28, ('ldr', 'd'): 29,
}
LITERALS = {
    ('ldr', 'w'): 0, ('ldr', 'x'): 1, ('ldrsw', 'x'): 2, ('prfm', '#'): 3, ('ldr', 's'): 4, ('ldr', 'd'): 5, ('ldr', 'q'): 6,
}
PAIRS = {
    ('stp', 'w'): 0, ('ldp', 'w'): 1, ('ldpsw', 'x'): 3, ('stp', 'x'): 4, ('ldp', 'x'): 5,
    ('stp', 's'): 8, ('ldp', 's'): 9, ('stp', 'd'): 10, ('ldp', 'd'): 11, ('stp', 'q'): 12, ('ldp', 'q'): 13,
}
# As they are written from a record.
SIZED_NAMES, LITERAL_NAMES, PAIR_NAMES = (
    {operation: name for name, operation in names.items()} for names in (SIZED, LITERALS, PAIRS))
# The ninth family, by bit 23, L and bit 15, without its size: store-exclusives have a status register.
EXCLUSIVES = {0b000: 'stxr', 0b001: 'stlxr', 0b010: 'ldxr', 0b011: 'ldaxr', 0b101: 'stlr', 0b111: 'ldar'}
EXCLUSIVE_NAMES = {
    (name + suffix, letter): size * 8 + code for code, name in EXCLUSIVES.items()
    for size, (suffix, letter) in enumerate((('b', 'w'), ('h', 'w'), ('', 'w'), ('', 'x')))}
# Beginnings of mnemonics that name a family, and what the mnemonic is without that.
STEMS = [
    ('stlur', 'str', ORDERED), ('ldapur', 'ldr', ORDERED),
    ('stur', 'str', UNSCALED), ('ldur', 'ldr', UNSCALED), ('prfum', 'prfm', UNSCALED),
]
EXTENDS = {'lsl': 0b011, 'uxtw': 0b010, 'sxtw': 0b110, 'sxtx': 0b111}
HINT = re.compile(r'p(ld|li|st)(l1|l2|l3|slc)(keep|strm)$')
RANGE_HINTS = {'pldkeep': 0, 'pstkeep': 1, 'pldstrm': 4, 'pststrm': 5}

NUMBER = r'#(-?\w+)'
REGISTER_NAME = re.compile(r'([wx])(\d+|zr)$|([bhsdq])(\d+)$')
BASE = r'\[(x\d+|sp)'
OFFSET_FORM = re.compile(BASE + r'(?:, ' + NUMBER + r')?\]$')
PRE_FORM = re.compile(BASE + r', ' + NUMBER + r'\]!$')
POST_FORM = re.compile(BASE + r'\], ' + NUMBER + r'$')
INDEX_FORM = re.compile(BASE + r', ([wx])(\d+|zr)(?:, (\w+)(?: #(\d+))?)?\]$')


# From text.

def mnemonic_of(text):
    return text.split(None, 1)[0]


def record_in(text, address):
    """The record of a text, or None where it is no instruction of 01's families. Address is the word's own."""
    mnemonic, _, operands = text.split('//')[0].strip().partition('\t')
    first, _, rest = operands.strip().partition(', ')
    if mnemonic == 'rprfm':
        return range_prefetch(first, rest)
    letter, target = first_operand(mnemonic, first)
    if letter is None:
        return None
    allocating = {'stnp': 'stp', 'ldnp': 'ldp'}.get(mnemonic, mnemonic)
    if (allocating, letter) in PAIRS:
        return pair_record(mnemonic, PAIRS[allocating, letter], target, rest)
    if any(mnemonic == name for name, _ in EXCLUSIVE_NAMES):
        return exclusive_record(mnemonic, letter, target, rest)
    if not rest.startswith('['):
        return literal_record(LITERALS.get((mnemonic, letter)), target, rest, address)
    for stem, plain, family in STEMS:
        if mnemonic.startswith(stem):
            operation = SIZED.get((plain + mnemonic[len(stem):], letter))
            # Arm has ordered vector forms in another place than 01's ordered family.
            if family == ORDERED and letter in VECTOR_LETTERS:
                return None
            return offset_record(family, operation, target, rest)
    return sized_record(SIZED.get((mnemonic, letter)), target, rest)


def first_operand(mnemonic, name):
    """The letter and number of a register, or '#' and the number of a prefetch's hint, named or not."""
    if mnemonic in ('prfm', 'prfum'):
        return '#', hint_number(name)
    found = REGISTER_NAME.match(name)
    if not found:
        return None, None
    letter, number = found[1] or found[3], found[2] or found[4]
    return letter, 31 if number == 'zr' else int(number)


def hint_number(name):
    """Type, target and policy of a prefetch, named or as the number of the three fields."""
    if name.startswith('#'):
        return int(name[1:], 0)
    found = HINT.match(name)
    return (('ld', 'li', 'st').index(found[1]) * 8 + ('l1', 'l2', 'l3', 'slc').index(found[2]) * 2
            + ('keep', 'strm').index(found[3]))


def base_number(name):
    return 31 if name == 'sp' else int(name[1:])


def literal_record(operation, target, place, address):
    """llvm-mc prints the offset, and objdump the address."""
    if operation is None:
        return None
    offset = int(place[1:], 0) if place.startswith('#') else int(place.split()[0], 0) - address
    return Record(LITERAL, operation, target, offset=offset)


def pair_record(mnemonic, operation, target, rest):
    second, _, place = rest.partition(', ')
    _, second = first_operand(mnemonic, second)
    offset_mode = NO_ALLOCATE if mnemonic in ('stnp', 'ldnp') else PAIR_OFFSET
    for form, mode in ((OFFSET_FORM, offset_mode), (PRE_FORM, PAIR_PRE), (POST_FORM, PAIR_POST)):
        found = form.match(place)
        if found:
            offset = int(found[2] or '0', 0)
            return Record(PAIR, operation, target, base_number(found[1]), second, mode, offset=offset)
    return None


def is_vector(family, operation):
    """Whether an operation is one of vector registers."""
    first = {LITERAL: 4, PAIR: 8}.get(family, 16)
    return family not in (EMPTY, ORDERED, EXCLUSIVE) and operation >= first


def size_of(operation):
    """Of an operation with a size, the power of two that its bytes are; 02 has 4 for 16 bytes."""
    return 4 if operation in (18, 19) else operation // 4 % 4


def has_status(operation):
    """Whether an operation of the ninth family is a store-exclusive."""
    return operation % 8 < 2


def exclusive_record(mnemonic, letter, target, rest):
    """The first register is the status where there are two, and always by its low half."""
    second = 0
    if not rest.startswith('['):
        if letter != 'w':
            raise SystemExit('a status that is no w: ' + mnemonic)
        data, _, rest = rest.partition(', ')
        second, (letter, target) = target, first_operand(mnemonic, data)
    operation, found = EXCLUSIVE_NAMES[mnemonic, letter], OFFSET_FORM.match(rest)
    if found[2]:
        raise SystemExit('an exclusive with an offset: ' + rest)
    return Record(EXCLUSIVE, operation, target, base_number(found[1]), second)


def offset_record(family, operation, target, place):
    found = OFFSET_FORM.match(place)
    if operation is None or not found:
        return None
    return Record(family, operation, target, base_number(found[1]), offset=int(found[2] or '0', 0))


def sized_record(operation, target, place):
    """A mnemonic of four families: the form of the address tells which."""
    if operation is None:
        return None
    for form, family in ((OFFSET_FORM, UNSIGNED), (PRE_FORM, PRE), (POST_FORM, POST)):
        found = form.match(place)
        if found:
            return Record(family, operation, target, base_number(found[1]), offset=int(found[2] or '0', 0))
    found = INDEX_FORM.match(place)
    if not found:
        return None
    base, letter, index, extend, amount = found.groups()
    option = EXTENDS[extend or 'lsl']
    if (letter == 'x') != bool(option & 1) or amount not in (None, str(size_of(operation))):
        raise SystemExit('an index that no option gives: ' + place)
    second = 31 if index == 'zr' else int(index)
    return Record(REGISTER, operation, target, base_number(base), second, option, int(amount is not None))


def range_prefetch(hint, rest):
    """The prefetch with a register index that 01 takes these words for.

    A range prefetch's number is option bits 2 and 0, S and the low three bits of Rt, whose others are set.
    """
    number = RANGE_HINTS[hint] if hint in RANGE_HINTS else int(hint[1:], 0)
    index, _, place = rest.partition(', ')
    _, second = first_operand('rprfm', index)
    option = number // 32 * 4 + 2 + number // 16 % 2
    base = base_number(OFFSET_FORM.match(place)[1])
    return Record(REGISTER, PREFETCH, 24 + number % 8, base, second, option, number // 8 % 2)


def line_in(text, address):
    """A disassembler's text in 01's notation. All but the following is 01's already, and is kept as it is.

    A tab after the mnemonic; a comment; the hint of a prefetch without one of 02's names, which is objdump's
    hexadecimal number, and for llvm-mc has a later name where bits 2..1 are 3; the place of a literal, which objdump
    gives as an address; range prefetch, which only llvm-mc prints.
    """
    mnemonic, _, operands = text.split('//')[0].strip().partition('\t')
    first, _, rest = operands.partition(', ')
    if mnemonic == 'rprfm':
        return text_of(range_prefetch(first, rest))
    if first.startswith('#') or 'slc' in first:
        first = '#%d' % hint_number(first)
    if rest.startswith('0x'):
        rest = '#%d' % (int(rest, 0) - address)
    return '%s %s, %s' % (mnemonic, first, rest)


# To text.

def register_text(letter, number):
    return letter + ('zr' if number == 31 and letter not in VECTOR_LETTERS else str(number))


def base_text(number):
    return 'sp' if number == 31 else 'x%d' % number


def text_of(record, here='#'):
    """01's line of text. GNU's assembler takes a literal's offset only behind the name of the word's own place."""
    if record.family == LITERAL:
        mnemonic, letter = LITERAL_NAMES[record.operation]
        return '%s %s, %s%d' % (mnemonic, target_text(letter, record.target), here, record.offset)
    if record.family == PAIR:
        return pair_text(record)
    if record.family == EXCLUSIVE:
        return exclusive_text(record)
    mnemonic, letter = SIZED_NAMES[record.operation]
    if record.family == UNSCALED:
        mnemonic = 'prfum' if mnemonic == 'prfm' else mnemonic[:2] + 'u' + mnemonic[2:]
    if record.family == ORDERED:
        mnemonic = {'st': 'stlu', 'ld': 'ldapu'}[mnemonic[:2]] + mnemonic[2:]
    return '%s %s, %s' % (mnemonic, target_text(letter, record.target), place_text(record))


def target_text(letter, number):
    return hint_text(number) if letter == '#' else register_text(letter, number)


def hint_text(number):
    """02's three fields, or a number where one of the first two has no name."""
    kind, level, policy = number >> 3, number >> 1 & 3, number & 1
    if kind == 3 or level == 3:
        return '#%d' % number
    return ('pld', 'pli', 'pst')[kind] + 'l%d' % (level + 1) + ('keep', 'strm')[policy]


def pair_text(record):
    mnemonic, letter = PAIR_NAMES[record.operation]
    if record.mode == NO_ALLOCATE:
        mnemonic = mnemonic[:2] + 'n' + mnemonic[2:]
    names = register_text(letter, record.target), register_text(letter, record.second)
    form = {PAIR_POST: POST, PAIR_PRE: PRE}.get(record.mode, UNSIGNED)
    return '%s %s, %s, %s' % (mnemonic, *names, place_text(record._replace(family=form)))


def exclusive_text(record):
    size, code = divmod(record.operation, 8)
    status = register_text('w', record.second) + ', ' if has_status(record.operation) else ''
    target = register_text('x' if size == 3 else 'w', record.target)
    return '%s%s %s%s, [%s]' % (EXCLUSIVES[code], ('b', 'h', '', '')[size], status, target, base_text(record.base))


def place_text(record):
    base = base_text(record.base)
    if record.family == POST:
        return '[%s], #%d' % (base, record.offset)
    if record.family == PRE:
        return '[%s, #%d]!' % (base, record.offset)
    if record.family == REGISTER:
        index = register_text('x' if record.mode & 1 else 'w', record.second)
        extend = {2: 'uxtw', 3: 'lsl', 6: 'sxtw', 7: 'sxtx'}[record.mode]
        if record.scaled:
            return '[%s, %s, %s #%d]' % (base, index, extend, size_of(record.operation))
        return '[%s, %s]' % (base, index) if record.mode == 3 else '[%s, %s, %s]' % (base, index, extend)
    return '[%s, #%d]' % (base, record.offset) if record.offset else '[%s]' % base
