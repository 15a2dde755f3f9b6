"""The rules of 01, and of 02's ninth family and vectors, over words and records, and what LLVM's and GNU's tools say of words.

Which words are of the set is decided by the rows of 01's table and of 02's, and what an allocated word says is read from
the disassemblers' texts, which have to agree. RULES lists where the tools differ, or 01 or 02 decides otherwise.
"""
import os

from aarch64_text import (
    EMPTY, EXCLUSIVE, LITERAL, PAIR, ORDERED, UNSCALED, POST, PRE, REGISTER, UNSIGNED, NO_ALLOCATE, PAIR_POST, PAIR_PRE,
    PREFETCH, Record, has_status, is_vector, line_in, mnemonic_of, record_in, size_of, text_of)
from aarch64_tools import ORIGIN, encoding_in, gnu_assembly, gnu_disassembly, llvm_disassembly

# 01's table and 02's ninth family: the bits that each family fixes, as (high, low, value). Bit 26 is 0 for general registers
# and 1 for vectors, which ordered and the ninth family haven't got.
TABLE = {
    LITERAL: ((29, 27, 0b011), (25, 24, 0b00)),
    PAIR: ((29, 27, 0b101), (25, 25, 0)),
    ORDERED: ((29, 27, 0b011), (26, 26, 0), (25, 24, 0b01), (21, 21, 0), (11, 10, 0b00)),
    UNSCALED: ((29, 27, 0b111), (25, 24, 0b00), (21, 21, 0), (11, 10, 0b00)),
    POST: ((29, 27, 0b111), (25, 24, 0b00), (21, 21, 0), (11, 10, 0b01)),
    PRE: ((29, 27, 0b111), (25, 24, 0b00), (21, 21, 0), (11, 10, 0b11)),
    REGISTER: ((29, 27, 0b111), (25, 24, 0b00), (21, 21, 1), (11, 10, 0b10)),
    UNSIGNED: ((29, 27, 0b111), (25, 24, 0b01)),
    # Of bits 23 and 15, 10 is left out as well.
    EXCLUSIVE: ((29, 27, 0b001), (26, 26, 0), (25, 24, 0b00), (21, 21, 0)),
}
WITH_IMM9 = (ORDERED, UNSCALED, POST, PRE)
WITH_VECTORS = (LITERAL, PAIR, UNSCALED, POST, PRE, REGISTER, UNSIGNED)

# 01's examples.
EXAMPLES = [
    0x385ff020, 0xf9400420, 0xf84107e0, 0xa9bf7bfd, 0x38e4c862, 0x198000c5, 0x58ffffe7, 0xf8800020, 0x390003ff,
    0xb8c00020, 0x38e00862, 0xa9400020, 0x91000000, 0xf8408421, 0x38dff020, 0x389ff020,
]

# Where the tools differ, or 01 decides otherwise than they do, by the name that the counts at the end show.
RULES = {
    'tagged pair': 'Memory tagging is not in this machine: what both tools call stgp, a pair with opc 01 and '
                   'L = 0, is undefined.',
    'range prefetch': 'Range prefetch is not in this machine: what llvm-mc calls rprfm is a prefetch with a '
                      'register index, as objdump says.',
    'unpredictable ldpsw': 'An ldpsw of answer 4 is allocated: llvm-mc prints it with a warning, and objdump '
                           'calls it undefined.',
    'unwarned writeback': 'llvm-mc prints no warning of a store, or of a load signed to 64 bits, that writes '
                          'back to its own target; 01 gives answer 4, and the GNU assembler warns.',
    'unused registers': 'A word of the ninth family whose unused register fields are not all ones is undefined: llvm-mc '
                        'prints it as with ones, and warns but of store-exclusives; objdump does too but for ldar.',
    'unwarned status': 'llvm-mc prints no warning of a store-exclusive whose status register is its data or base, and '
                       'as an assembler refuses it; 02 gives answer 4, and the GNU assembler warns.',
    'status 31 by SP': 'The GNU assembler warns of a store-exclusive with status wzr and base sp; 02 has no answer 4 for '
                       'a base of 31, and llvm-mc assembles it.',
}
# Rs and Rt2 of the ninth family.
RS, RT2 = (20, 16), (14, 10)


def field(word, high, low):
    return word >> low & (1 << high - low + 1) - 1


def line_of(word):
    """The family whose row of 01's table or of 02's a word matches, or None."""
    for family, row in TABLE.items():
        if all(field(word, high, low) == value for high, low, value in row):
            return None if family == EXCLUSIVE and is_limited(word) else family
    return None


def is_limited(word):
    """Whether bits 23 and 15 of a word in the ninth family's place are those of ldlar and stllr."""
    return field(word, 23, 23) == 1 and field(word, 15, 15) == 0


def unused_ones(word):
    """The fields of registers that a word of the ninth family doesn't use, as all ones."""
    is_store_exclusive = field(word, 23, 22) == 0b00
    return 31 << RT2[1] | (0 if is_store_exclusive else 31 << RS[1])


def fixed_bits(family):
    return sum(value << low for _, low, value in TABLE[family])


def edges(width):
    """The values of a field next to its ends and to its sign bit."""
    half = 1 << width - 1
    return [0, 1, half - 1, half, half + 1, 2 * half - 2, 2 * half - 1]


def word_of_line(rng, family):
    word = rng.getrandbits(32)
    for high, low, value in TABLE[family]:
        word = word & ~((1 << high + 1) - (1 << low)) | value << low
    return word


# What a word is, by the tools and 01's rules.

def undefined_by_rule(line, word):
    """The undefined words of the set. What the tools say is compared with this."""
    if field(word, 26, 26) == 1:
        return undefined_vector(line, word)
    opc, load, mode = field(word, 31, 30), field(word, 22, 22), field(word, 24, 23)
    if line == LITERAL:
        return False
    if line == PAIR:
        return opc == 0b11 or opc == 0b01 and not (load == 1 and mode != NO_ALLOCATE)
    if line == EXCLUSIVE:
        return word != word | unused_ones(word)
    size, opc = field(word, 31, 30), field(word, 23, 22)
    return (size >= 0b10 and opc == 0b11
            or (size, opc) == (0b11, 0b10) and line in (ORDERED, POST, PRE)
            or line == REGISTER and field(word, 14, 14) == 0)


def undefined_vector(line, word):
    """Those with bit 26 = 1, by 02 in place of 01's."""
    if line in (LITERAL, PAIR):
        return field(word, 31, 30) == 0b11
    return (field(word, 31, 30) != 0b00 and field(word, 23, 23) == 1
            or line == REGISTER and field(word, 14, 14) == 0)


def is_unpredictable(record):
    """Answer 4 of 01 and 02. A vector register never collides with a base."""
    if record.family == EXCLUSIVE:
        return has_status(record.operation) and (record.second == record.target or record.second == record.base != 31)
    pair = record.family == PAIR
    loads_one_twice = pair and record.operation % 2 == 1 and record.target == record.second
    if is_vector(record.family, record.operation):
        return loads_one_twice
    writes_back = record.family in (POST, PRE) or pair and record.mode in (PAIR_POST, PAIR_PRE)
    written = (record.target, record.second) if pair else (record.target,)
    return writes_back and record.base != 31 and record.base in written or loads_one_twice


def read_word(word, address, llvm, gnu, rules):
    """The answer to decoding a word and its record, from what the two disassemblers said of it."""
    line = line_of(word)
    by_llvm = record_in(llvm.text, address) if llvm.text else None
    by_gnu = record_in(gnu.text, address) if gnu.text else None
    if line is None:
        agreed(by_llvm is None and by_gnu is None, word, llvm, gnu)
        return 2, Record(EMPTY, 0)
    names = {mnemonic_of(said.text) if said.text else None for said in (llvm, gnu)}
    if names == {'rprfm', 'prfm'}:
        rules['range prefetch'] += 1
    if names == {'ldpsw', None} and by_llvm and is_unpredictable(by_llvm):
        rules['unpredictable ldpsw'] += 1
        by_gnu = by_llvm
    if names == {'stgp'}:
        rules['tagged pair'] += 1
        names = {None}
    if line == EXCLUSIVE and undefined_by_rule(line, word):
        with_ones = packed(by_llvm)
        agreed(with_ones == word | unused_ones(word) and llvm.warned != has_status(by_llvm.operation), word, llvm, gnu)
        agreed(by_gnu == by_llvm or names - {None} <= {'ldar', 'ldarb', 'ldarh'}, word, llvm, gnu)
        rules['unused registers'] += 1
        return 3, Record(EMPTY, 0)
    agreed(by_llvm == by_gnu and undefined_by_rule(line, word) == (by_llvm is None), word, llvm, gnu)
    if by_llvm is None:
        agreed(names == {None}, word, llvm, gnu)
        return 3, Record(EMPTY, 0)
    agreed(by_llvm.family == line and encoding_in(llvm.text) == word == packed(by_llvm), word, llvm, gnu)
    for said in (llvm, gnu):
        agreed(said.text is None or line_in(said.text, address) == text_of(by_llvm), word, said, text_of(by_llvm))
    return 0, by_llvm


def agreed(holds, word, *said):
    if not holds:
        raise SystemExit('no rule for %08x, of which the tools say %s' % (word, said))


def judged_words(words, rules):
    """The answer and the record of each word. Counts the rules that were used.

    The record is what both disassemblers say, and their texts in 01's notation are the record's. Answer 4 is 01's,
    and the GNU assembler warns of exactly these. What it assembles is the word again.
    """
    llvm = llvm_disassembly(words)
    said = zip(words, llvm, gnu_disassembly(words))
    found = [read_word(word, ORIGIN + 4 * i, *both, rules) for i, (word, *both) in enumerate(said)]
    allocated = [i for i, (answer, _) in enumerate(found) if answer == 0]
    made = gnu_assembly([text_of(found[i][1], '.+') for i in allocated])
    for i, again in zip(allocated, made):
        record = found[i][1]
        unpredictable = is_unpredictable(record)
        by_stack = not unpredictable and is_status_by_stack(record)
        agreed(again == (words[i], unpredictable or by_stack), words[i], llvm[i], again)
        rules['status 31 by SP'] += by_stack
        if unpredictable:
            found[i] = 4, record
        if unpredictable != llvm[i].warned:
            agreed(unpredictable and unwarned_as(record) is not None, words[i], llvm[i])
            rules[unwarned_as(record)] += 1
    return found


def unwarned_as(record):
    """The rule by which llvm-mc's disassembler does not warn of an answer 4."""
    if record.family == EXCLUSIVE:
        return 'unwarned status'
    is_writeback = record.family in (POST, PRE) and record.operation in (0, 2, 4, 6, 8, 10, 12)
    return 'unwarned writeback' if is_writeback else None


def is_status_by_stack(record):
    return record.family == EXCLUSIVE and has_status(record.operation) and record.second == record.base == 31


# The word of a record.

def scale_of(family, operation):
    """What an offset of this operation has to be a multiple of."""
    if family == LITERAL:
        return 4
    if family == PAIR:
        return 4 << operation // 2 % 4 if is_vector(family, operation) else 8 if operation // 2 == 2 else 4
    return 1 << size_of(operation) if family == UNSIGNED else 1


def range_of(family, operation):
    """The least and the largest offset; none with an index, or in the ninth family."""
    scale = scale_of(family, operation)
    low, high = {LITERAL: (-262144, 262143), PAIR: (-64, 63), UNSIGNED: (0, 4095), REGISTER: (0, 0), EXCLUSIVE: (0, 0)}.get(
        family, (-256, 255))
    return low * scale, high * scale


def is_valid(record):
    """Whether the encoder takes a record."""
    family, operation = record.family, record.operation
    low, high = range_of(family, operation)
    return (family != EMPTY
            and all(register < 32 for register in (record.target, record.base, record.second))
            and low <= record.offset <= high and record.offset % scale_of(family, operation) == 0
            and not (family in (ORDERED, POST, PRE) and operation == PREFETCH)
            and not (family == ORDERED and operation >= 16)
            and not (family == PAIR and operation == 3 and record.mode == NO_ALLOCATE)
            and not (family == REGISTER and (record.mode not in (2, 3, 6, 7) or record.scaled > 1)))


def packed(record):
    """The word of a valid record."""
    word = fixed_bits(record.family) | is_vector(record.family, record.operation) << 26 | record.target
    quotient = record.offset // scale_of(record.family, record.operation)
    if record.family == LITERAL:
        return word | record.operation % 4 << 30 | quotient % (1 << 19) << 5
    word |= record.base << 5
    if record.family == PAIR:
        opc, load = divmod(record.operation % 8, 2)
        return (word | opc << 30 | record.mode << 23 | load << 22 | quotient % 128 << 15 | record.second << 10)
    if record.family == EXCLUSIVE:
        size, code = divmod(record.operation, 8)
        word |= size << 30 | code >> 1 << 22 | (code & 1) << 15
        return word | unused_ones(word) | record.second << 16
    size, opc = divmod(record.operation % 16, 4)
    word |= size << 30 | opc << 22
    if record.family == REGISTER:
        return word | record.second << 16 | record.mode << 13 | record.scaled << 12
    return word | (quotient << 10 if record.family == UNSIGNED else quotient % 512 << 12)


# Files and counts.

def path_of(crate, name):
    """Of a file of a program's crate."""
    return os.path.join(os.path.dirname(os.path.dirname(os.path.abspath(__file__))), 'crates', crate, name)


def write(crate, name, content):
    with open(path_of(crate, name), 'wb') as file:
        file.write(content)


def show(title, counts):
    print(title)
    for name, count in sorted(counts.items()):
        print('%7d  %s' % (count, name))
