"""The input and output of the program `replay`: cases as bytes, and what must come as lines.

A case, numbers little-endian: ten 64-bit numbers, which are W words, L bytes of memory, K bytes of taint, T numbers of
trace, S statuses, origin, r, PC, and the address and size of the monitor; 32 64-bit numbers, X0 to X30 and SP; 32 64-bit
numbers, their taints, of which a byte that is not 0 marks the byte of the value at its place; 64 64-bit numbers, V0 to V31,
the low half of each first; 64 64-bit numbers, their taints likewise; W words of 4 bytes; L bytes; K bytes. The trace starts
with 2^64 - 1 in every place, and the list of statuses with 255. A monitor of size 0 is open, and one that a step opens has
the address 0.

The lines of a case, fields parted by tabs:

    case, its number from 0, steps, answer, code, address, PC
    registers, 32 fields of 16 hex digits, each followed by * and eight digits where tainted: 1 for a marked byte and 0
        for another, the highest byte first
    vectors, 32 fields of 32 hex digits, each followed by * and sixteen digits where tainted
    memory, one field of hex digits
    taint, one field of hex digits
    trace, T numbers
    monitor, its address and its size
    statuses, one field of hex digits

No memory, taint or statuses gives an empty field after its tab, and no trace gives `trace` alone, since it has no fields.

A case is done by the run and then by single steps, which have to come to the same lines. Where they don't, the line `case`,
number, `by steps` follows, and then those of the steps: what must come has none of these.

A case over the limits gives the one line `case`, number, `too large`, and input that ends inside a case the one line
`case`, number, `cut short`; nothing comes after either. The limits are looked at once the ten numbers are there, so
a case over them needs no more, and fewer than ten numbers are cut short whatever they are.
"""
import os
import struct
from typing import NamedTuple

from machine_model import OPEN, State

MOST_WORDS, MOST_MEMORY, MOST_TAINT, MOST_TRACE, MOST_STATUSES = LIMITS = 512, 4096, 4096, 1024, 512


class Case(NamedTuple):
    # What the case is for: the counts at the end go by it.
    group: str
    words: tuple
    state: State
    # Numbers of trace.
    room: int
    # Statuses.
    places: int


def outcome_of(model, case):
    return model.run(case.words, case.state, case.room, case.places)


def header(words, memory, taint, room, places, origin=0, readonly=0, pc=0, monitor=OPEN):
    return struct.pack('<10Q', words, memory, taint, room, places, origin, readonly, pc, *monitor)


def case_bytes(case):
    state = case.state
    return b''.join((
        header(len(case.words), len(state.memory), len(state.taint), case.room, case.places, state.origin, state.readonly,
               state.pc, state.monitor),
        struct.pack('<32Q', *state.registers),
        *state.taints,
        *(value.to_bytes(16, 'little') for value in state.vectors),
        *state.vector_taints,
        struct.pack('<%dI' % len(case.words), *case.words), state.memory, state.taint))


def case_lines(number, outcome):
    state = outcome.state
    numbers = number, outcome.steps, outcome.answer, outcome.code, outcome.address, state.pc
    registers = ('%016x%s' % (value, shown_taint(taint)) for value, taint in zip(state.registers, state.taints))
    vectors = ('%032x%s' % (value, shown_taint(taint)) for value, taint in zip(state.vectors, state.vector_taints))
    lines = [['case', *map(str, numbers)], ['registers', *registers], ['vectors', *vectors], ['memory', state.memory.hex()],
             ['taint', state.taint.hex()], ['trace', *map(str, outcome.trace)],
             ['monitor', *map(str, state.monitor)], ['statuses', outcome.statuses.hex()]]
    return ''.join('\t'.join(fields) + '\n' for fields in lines)


def shown_taint(taint):
    return '*' + ''.join('01'[byte != 0] for byte in reversed(taint)) if any(taint) else ''


def bad_ending(number, why):
    return 'case\t%d\t%s\n' % (number, why)


def endings(model, case, largest):
    """Inputs that end in each way, by name, with what must come: a good case, the ending, and bytes after it."""
    whole, lines = case_bytes(case), case_lines(0, outcome_of(model, case))
    cut = [('cut-after-%d-bytes' % length, whole[:length]) for length in (
        1, 8, 64, 79, 80, 81, 335, 367, 591, 592, 1103, 1135, 1615, 1618, 1622)]
    cut.append(('cut-by-the-last-byte', whole[:-1]))
    yield 'nothing', b'', ''
    yield 'one-case', whole, lines
    yield 'at-the-limits', case_bytes(largest), case_lines(0, outcome_of(model, largest))
    for name, ending in cut:
        yield name, whole + ending, lines + bad_ending(1, 'cut short')
        yield name + '-first', ending, bad_ending(0, 'cut short')
    for i, name in enumerate(('words', 'memory', 'taint', 'trace', 'statuses')):
        over = [limit + 1 if k == i else 1 for k, limit in enumerate(LIMITS)]
        far = [(1 << 64) - 1 if k == i else 0 for k in range(5)]
        # The rest of the case needn't be there, and if there is more, it isn't read.
        yield 'too-many-%s' % name, whole + header(*over) + whole, lines + bad_ending(1, 'too large')
        yield 'far-too-many-%s' % name, whole + header(*far), lines + bad_ending(1, 'too large')
        yield 'cut-before-the-limits-%s' % name, header(*far)[:79], bad_ending(0, 'cut short')


def write_endings(directory, model, case, largest):
    os.makedirs(directory, exist_ok=True)
    for name, given, expected in endings(model, case, largest):
        for suffix, content in (('stdin', given), ('stdout', expected.encode())):
            with open(os.path.join(directory, '%s.%s' % (name, suffix)), 'wb') as file:
                file.write(content)
