#!/usr/bin/env python3
"""Writes crates/images/stdin and crates/images/stdout: memory images to be imported, and what must come.

    python3 tools/images_cases.py
    python3 tools/images_cases.py --self-check      counts the cases that tell each wrong importer from the right one
    python3 tools/images_cases.py --try PROGRAM     every change of a byte in some texts, by a program that reads such cases

What must come is from 02 alone, by image_model.py. Texts are written here, and by srec_cat and objcopy (Debian packages
srecord and binutils), converted by the commands that docs/ANSWERS.md tells; what they say is held against the binary that
they were made of. The output is the same each time.

A case, numbers little-endian: five 64-bit numbers, which are T bytes of text, L of memory, K of taint, origin and r; then T,
L and K bytes. The lines of a case, fields parted by tabs:

    case, its number from 0
    import, answer, line
    memory, one field of hex digits
    taint, likewise

Input that ends inside a case gives the one line `case`, number, `cut short`, and a case over the limits, which are looked at
once the five numbers are there, the one line `case`, number, `too large`. Nothing comes after either.
"""
import argparse
import collections
import itertools
import pathlib
import random
import re
import struct
import subprocess
import tempfile
from typing import NamedTuple

from aarch64_rules import write
from image_model import DATA, DONE, LOW_SPACE, MALFORMED, SPACE, UPPER_HALF, Importer, Imported, Record

SEED = 10
MOST_TEXT, MOST_MEMORY = 4096, 512
ENDING = b':00000001FF\n'
# What a damage puts in a character's place: of each kind of character, and the neighbours of the digits.
OTHERS = b'\n\r\t :;/09@AFG`afg\x00\xff-'


class Case(NamedTuple):
    # What the case is for: the counts at the end go by it.
    group: str
    text: bytes
    origin: int
    readonly: int
    memory: bytes
    taint: bytes


def case_bytes(case):
    head = struct.pack('<5Q', len(case.text), len(case.memory), len(case.taint), case.origin, case.readonly)
    return head + case.text + case.memory + case.taint


def outcome_of(importer, case):
    return importer.import_text(case.text, case.origin, case.readonly, case.memory, case.taint)


def case_text(importer, number, case):
    done = outcome_of(importer, case)
    return 'case\t%d\nimport\t%d\t%d\nmemory\t%s\ntaint\t%s\n' % (number, done.answer, done.line, done.memory.hex(), done.taint.hex())


def line_of(kind, offset, data, count=None, off=0):
    """A line, with another count than it has where one is given, and a checksum that is off by so much."""
    content = bytes([len(data) if count is None else count]) + offset.to_bytes(2, 'big') + bytes([kind]) + data
    return b':%s%02X\n' % (content.hex().upper().encode(), (off - sum(content)) % 256)


def upper_of(half):
    return line_of(UPPER_HALF, 0, half.to_bytes(2, 'big'))


def into(group, text, origin, length, readonly=0, taints=None):
    """A case with memory that no text here writes, and every byte tainted."""
    return Case(group, text, origin, readonly, bytes(0x80 + i % 64 for i in range(length)), bytes([1]) * (length if taints is None else taints))


# Texts.

def mixed(text):
    """Every second letter in lower case."""
    turn = itertools.cycle((str.upper, str.lower))
    return re.sub('[A-Fa-f]', lambda found: next(turn)(found[0]), text.decode('latin-1')).encode('latin-1')


SHORT = line_of(0, 16, b'\xde\xad\xbe\xef') + ENDING
TWICE = upper_of(1) + line_of(0, 0xfffe, bytes(range(1, 7))) + upper_of(2) + line_of(0, 2, b'\x0a\x0b') + ENDING
ODD = mixed(line_of(0, 16, b'') + line_of(UPPER_HALF, 0x1234, b'\xab\xcd') + line_of(0, 3, b'\x5a\xa5\xfc') + line_of(1, 0xbeef, b''))
DAMAGED = ((SHORT, 16, 8), (TWICE, 0x1fffc, 16), (ODD, 0xabcd0000, 8))


def damages(text, others):
    """Of each byte: without it, twice, and changed."""
    for at, byte in enumerate(text):
        yield text[:at] + text[at + 1:]
        yield text[:at] + bytes([byte, byte]) + text[at + 1:]
        for other in others:
            if other != byte:
                yield text[:at] + bytes([other]) + text[at + 1:]


def damaged_cases():
    for text, origin, length in DAMAGED:
        yield into('undamaged', text, origin, length)
        for damaged in damages(text, OTHERS):
            yield into('damaged', damaged, origin, length)
    for damaged in damages(ENDING, range(256)):
        yield into('damaged end', damaged, 0, 1)


def window_cases():
    """A line of four bytes and windows that hold it, or not, by one or by 2^32; around 64 KiB and at both ends of the addresses."""
    for upper, offset in ((0, 0), (0, 16), (0, 0xfffd), (0, 0xffff), (1, 0), (0x7fff, 0xfffe), (0xffff, 0xfffb), (0xffff, 0xfffc),
                          (0xffff, 0xfffd), (0xffff, 0xfffe), (0xffff, 0xffff)):
        text = upper_of(upper) + line_of(0, offset, b'\x01\x02\x03\x04') + ENDING
        first = (upper << 16) + offset
        for before, length in itertools.product((-2, -1, 0, 1, 2), (0, 1, 2, 3, 4, 5, 6, 7)):
            origins = {first - before, first - before + 0x10000, (first + 2) % LOW_SPACE - before, first - before + LOW_SPACE}
            for origin in sorted(origin for origin in origins if 0 <= origin < SPACE):
                yield into('window', text, origin, length)
    for upper in (0, 0xffff):
        text = upper_of(upper) + line_of(0, 0xffff, b'\x01\x02') + ENDING
        for origin in (LOW_SPACE - 2, LOW_SPACE - 1, LOW_SPACE, 2 * LOW_SPACE - 1, SPACE - 4, SPACE - 1):
            for length in (0, 1, 2, 3, 4):
                yield into('window at an end', text, origin, length)


def lent_cases():
    """Answer 1, before any line; r up to the length is none."""
    for text in (SHORT, b'', SHORT[1:]):
        for length, taints, readonly in itertools.product((0, 7, 8), (0, 7, 8, 9), (0, 1, 7, 8, 9, SPACE - 1)):
            yield into('lent', text, 16, length, readonly, taints)
        for origin in (SPACE - 9, SPACE - 8, SPACE - 7, SPACE - 1):
            yield into('lent', text, origin, 8)


def order_cases():
    """Lines with any of the faults, alone, two of them, and behind good lines and an end."""
    faulty = {'none': line_of(0, 16, b'\x01'), 'empty': line_of(0, 9999, b''), 'sum': line_of(0, 16, b'\x01', off=1),
              'type': line_of(5, 0, b'\x01\x02\x03\x04'), 'type 2': line_of(2, 0, b'\x10\x00'), 'outside': line_of(0, 99, b'\x01'),
              'sum, type': line_of(3, 0, b'\x01\x02\x03\x04', off=255), 'sum, outside': line_of(0, 99, b'\x01', off=9),
              'shape': line_of(0, 16, b'\x01')[1:], 'shape, sum, type': line_of(6, 0, b'\x01', count=2, off=1),
              'shape, outside': line_of(0, 99, b'\x01', count=0), 'count of 4': line_of(4, 0, b'\x01'),
              'count of 4, sum': line_of(4, 0, b'\x01\x02\x03', off=7), 'count of 1': line_of(1, 0, b'\x01'),
              'count of 1, sum': line_of(1, 0, b'\x01', off=3), 'end': ENDING, 'upper': upper_of(0), 'far': upper_of(1),
              'blank': b'\n', 'colon': b':\n', 'carriage return': ENDING[:-1] + b'\r\n', 'cut': ENDING[:-1], 'sum of an end': line_of(1, 0, b'', off=2)}
    for lines in itertools.chain.from_iterable(itertools.product(faulty.values(), repeat=n) for n in (1, 2)):
        for last in (b'', ENDING):
            yield into('order', b''.join(lines) + last, 16, 2)
    yield into('order', b'', 16, 2)


def random_cases(chance):
    for _ in range(600):
        base = chance.choice((0, 0xfff0, 0x10000, 0xabcdfff8, LOW_SPACE - 24))
        origin, length = max(0, base + chance.randrange(-4, 4)), chance.randrange(24, 48)
        lines, half = [], 0
        for _ in range(chance.randrange(1, 8)):
            first = base + chance.randrange(24)
            if first >> 16 != half or chance.random() < 0.2:
                half = first >> 16 & 0xffff
                lines.append(upper_of(half))
            lines.append(line_of(0, first % 0x10000, chance.randbytes(chance.choice((0, 1, 2, 5, 16)))))
        text = b''.join(lines) + ENDING
        if chance.random() < 0.4:
            text = chance.choice(list(damages(text, OTHERS)))
        yield into('random', chance.choice((text, mixed(text), text.lower())), origin, length, chance.randrange(length))
    longest = upper_of(0) + line_of(0, 0xff80, bytes(range(255))) + ENDING
    yield into('random', longest, 0xff80, 256)
    yield into('random', longest, 0xff80, 254)


# Other tools.

def printed_commands():
    """What docs/ANSWERS.md tells users to do with objcopy's text, with a binary, and with objcopy's text without srec_cat."""
    text = (pathlib.Path(__file__).resolve().parent.parent / 'docs/ANSWERS.md').read_text()
    section = text.split('## A memory image that is refused\n')[1].split('\n## ')[0]
    return re.findall(r'(?:^    .*\n)+', section, re.M)


def ran(folder, commands):
    subprocess.run(['sh', '-ec', commands], cwd=folder, check=True)


def text_by(folder, commands):
    (folder / 'taken.hex').unlink(missing_ok=True)
    ran(folder, commands)
    return (folder / 'taken.hex').read_bytes()


def tool_texts(folder, first):
    """Each with the address of its first byte. The plugin is a binary, and an ELF file of it that starts there."""
    ran(folder, 'objcopy -I binary -O elf64-little --change-section-address .data=%#x --set-start %#x plugin.bin PLUGIN.elf' % (first, first))
    from_elf, from_binary, moved = printed_commands()
    yield text_by(folder, from_elf), first
    yield text_by(folder, from_binary.replace('0x1000', hex(first))), first
    if first + 0x100000 < LOW_SPACE:
        yield text_by(folder, moved), first + 0x100000


def tool_cases(chance):
    with tempfile.TemporaryDirectory() as name:
        folder = pathlib.Path(name)
        for first, length in ((0, 300), (0xfff8, 40), (0x1fff0, 300), (0x100000, 300), (0x12fff1, 77), (0xffffff00, 256)):
            image = chance.randbytes(length)
            (folder / 'plugin.bin').write_bytes(image)
            for text, at in tool_texts(folder, first):
                before = min(at, 4)
                case = into('tools', text, at - before, before + length + 4)
                done = outcome_of(Importer(), case)
                if done.answer or done.memory[before:before + length] != image or sum(done.taint) != before + 4:
                    raise SystemExit('the text of a tool for %#x is not read as its binary: %s' % (at, done))
                yield case
            ran(folder, 'objcopy -O ihex PLUGIN.elf plugin.hex')
            yield into('tools, as they are', (folder / 'plugin.hex').read_bytes(), max(0, first - 4), length + 8)
            yield into('tools, as they are', (folder / 'plugin.hex').read_bytes().replace(b'\r', b''), max(0, first - 4), length + 8)


def all_cases():
    chance = random.Random(SEED)
    makers = damaged_cases(), window_cases(), lent_cases(), order_cases(), random_cases(chance), tool_cases(chance)
    return [case for case in itertools.chain(*makers)]


# Wrong importers.

class LastByteNotSummed(Importer):
    def sum_of(self, record):
        return super().sum_of(record) - record.content[-1]


class UpperHalfAdded(Importer):
    def address(self, upper, offset, index):
        return (upper + offset + index) % LOW_SPACE


class WrapsAt64K(Importer):
    def address(self, upper, offset, index):
        return (upper << 16) + (offset + index) % 0x10000


class DoesNotWrap(Importer):
    def address(self, upper, offset, index):
        return (upper << 16) + offset + index


class WrapsInTheWindow(Importer):
    """The window is compared modulo 2^32."""

    def is_outside(self, address, origin, length):
        return super().is_outside(address, origin % LOW_SPACE, length)

    def filled(self, origin, written, memory, taint):
        return super().filled(origin % LOW_SPACE, written, memory, taint)


class TakesLinesBehindTheEnd(Importer):
    def is_malformed(self, record, ended):
        return super().is_malformed(record, False)


class TypeBeforeChecksum(Importer):
    def faults(self, *arguments):
        checksum, kind, window = super().faults(*arguments)
        return kind, checksum, window


class WindowBeforeChecksum(Importer):
    def faults(self, *arguments):
        checksum, kind, window = super().faults(*arguments)
        return window, checksum, kind


class ChecksumBeforeCount(Importer):
    def is_malformed(self, record, ended):
        return ended or record is None

    def faults(self, record, *arguments):
        checksum, kind, window = super().faults(record, *arguments)
        return checksum, (MALFORMED, self.has_wrong_count(record)), kind, window


class MarksLeft(Importer):
    def filled(self, origin, written, memory, taint):
        return super().filled(origin, written, memory, taint)[0], taint


class WritesBeforeAFault(Importer):
    def refused(self, origin, written, memory, taint):
        return self.filled(origin, written, memory, taint)


class RefusesLowerCase(Importer):
    line_shape = re.compile(rb':((?:[0-9A-F][0-9A-F])*)\n')


class TakesCarriageReturns(Importer):
    line_shape = re.compile(rb':((?:[0-9A-Fa-f][0-9A-Fa-f])*)\r?\n')


class TakesALastLineWithoutNewline(Importer):
    line_shape = re.compile(rb':((?:[0-9A-Fa-f][0-9A-Fa-f])*)\n?')


class TakesBlankLines(Importer):
    def lines_of(self, text):
        return [line for line in super().lines_of(text) if line != b'\n']


class TakesAnyCount(Importer):
    def has_wrong_count(self, record):
        return False


class TakesMoreThanTheCount(Importer):
    def record_of(self, line):
        found = self.line_shape.fullmatch(line)
        content = bytes.fromhex(found[1].decode()) if found else b''
        return type(super().record_of(ENDING))(content[:5 + content[0]]) if len(content) > 4 + (content or b'\0')[0] else None


class NeedsNoEnd(Importer):
    def import_text(self, text, *lent):
        done = super().import_text(text, *lent)
        missing = done.answer == MALFORMED and done.line > len(self.lines_of(text))
        return super().import_text(text + ENDING, *lent) if missing else done


class EmptyDataOutside(Importer):
    """A line of no bytes is refused where its first would be outside."""

    def faults(self, record, upper, origin, length):
        outside = record.type() == 0 and self.is_outside(self.address(upper, record.offset(), 0), origin, length)
        checksum, kind, window = super().faults(record, upper, origin, length)
        return checksum, kind, (window[0], window[1] or outside)


class UpperHalfByItsOffset(Importer):
    def upper_half(self, record, upper):
        return (super().upper_half(record, upper) + record.offset()) % 0x10000 if record.type() == UPPER_HALF else upper


class EarlierBytesStay(Importer):
    def filled(self, origin, written, memory, taint):
        return super().filled(origin, written[::-1], memory, taint)


class RefusesTheReadOnlyPart(Importer):
    def import_text(self, text, origin, readonly, memory, taint):
        done = super().import_text(text, origin, readonly, memory, taint)
        touched = done.answer == DONE and done.memory[:readonly] != memory[:readonly]
        return Imported(8, 0, memory, taint) if touched else done


class LinesFrom0(Importer):
    def import_text(self, *arguments):
        done = super().import_text(*arguments)
        return done._replace(line=max(done.line - 1, 0))


class WindowByOneMore(Importer):
    def is_outside(self, address, origin, length):
        return super().is_outside(address, origin, length + 1)

    def filled(self, origin, written, memory, taint):
        inside = [(address, byte) for address, byte in written if address - origin < len(memory)]
        return super().filled(origin, inside, memory, taint)


class AnyNumberOfTaints(Importer):
    def is_bad_window(self, origin, readonly, length, taints):
        return super().is_bad_window(origin, readonly, length, length)

    def filled(self, origin, written, memory, taint):
        memory, marks = super().filled(origin, written, memory, taint.ljust(len(memory), b'\1'))
        return memory, marks[:len(taint)]


class AnyReadOnlyPart(Importer):
    def is_bad_window(self, origin, readonly, length, taints):
        return super().is_bad_window(origin, 0, length, taints)


class AnyEndOfMemory(Importer):
    def is_bad_window(self, origin, readonly, length, taints):
        return super().is_bad_window(0, readonly, length, taints)


class WindowByOneLess(Importer):
    def is_outside(self, address, origin, length):
        return super().is_outside(address, origin, length - 1)


class SumModulo255(Importer):
    def sum_of(self, record):
        return super().sum_of(record) % 255


class TakesAnAtSign(Importer):
    def record_of(self, line):
        return super().record_of(line.replace(b'@', b'9'))


class TakesThreeBytesOfUpperHalf(Importer):
    def has_wrong_count(self, record):
        return super().has_wrong_count(record) and (record.type(), record.count()) != (UPPER_HALF, 3)

    def upper_half(self, record, upper):
        return super().upper_half(Record(record.content[:-2] + record.content[-1:]) if record.count() == 3 else record, upper)


class UpperHalvesAddedUp(Importer):
    def upper_half(self, record, upper):
        return (upper + super().upper_half(record, upper)) % 0x10000 if record.type() == UPPER_HALF else upper


class RefusesEmptyData(Importer):
    def has_wrong_count(self, record):
        return super().has_wrong_count(record) or record.type() == DATA and not record.count()


WRONG = [LastByteNotSummed, UpperHalfAdded, WrapsAt64K, DoesNotWrap, WrapsInTheWindow, TakesLinesBehindTheEnd, TypeBeforeChecksum,
         WindowBeforeChecksum, ChecksumBeforeCount, MarksLeft, WritesBeforeAFault, RefusesLowerCase, TakesCarriageReturns,
         TakesALastLineWithoutNewline, TakesBlankLines, TakesAnyCount, TakesMoreThanTheCount, NeedsNoEnd, EmptyDataOutside,
         UpperHalfByItsOffset, EarlierBytesStay, RefusesTheReadOnlyPart, LinesFrom0, WindowByOneMore, AnyNumberOfTaints,
         AnyReadOnlyPart, AnyEndOfMemory, WindowByOneLess, SumModulo255, TakesAnAtSign, TakesThreeBytesOfUpperHalf,
         UpperHalvesAddedUp, RefusesEmptyData]


def self_check(cases):
    right, unseen = [outcome_of(Importer(), case) for case in cases], []
    for wrong in WRONG:
        count = sum(outcome_of(wrong(), case) != done for case, done in zip(cases, right))
        print('%7d  %s' % (count, wrong.__name__))
        unseen += [] if count else [wrong.__name__]
    if unseen:
        raise SystemExit('not seen: %s' % unseen)


def try_program(program):
    """Of each byte: without it, twice, and changed into every other."""
    cases = [into('changed', damaged, origin, length) for text, origin, length in DAMAGED for damaged in damages(text, range(256))]
    given = b''.join(map(case_bytes, cases))
    expected = ''.join(case_text(Importer(), number, case) for number, case in enumerate(cases))
    came = subprocess.run([program], input=given, capture_output=True, check=True).stdout.decode()
    if came != expected:
        raise SystemExit('%s says something else' % program)
    print('%d cases, %d done' % (len(cases), expected.count('import\t0\t')))


def main():
    parser = argparse.ArgumentParser()
    parser.add_argument('--self-check', action='store_true')
    parser.add_argument('--try', dest='program', metavar='PROGRAM')
    options = parser.parse_args()
    if options.program:
        return try_program(options.program)
    cases = all_cases()
    if options.self_check:
        return self_check(cases)
    if any(len(case.text) > MOST_TEXT or max(len(case.memory), len(case.taint)) > MOST_MEMORY for case in cases):
        raise SystemExit('a case is over the limits')
    # The last case is cut: its last byte is missing.
    given = b''.join(map(case_bytes, cases)) + case_bytes(cases[0])[:-1]
    expected = ''.join(case_text(Importer(), number, case) for number, case in enumerate(cases))
    expected += 'case\t%d\tcut short\n' % len(cases)
    write('images', 'stdin', given)
    write('images', 'stdout', expected.encode())
    for group, count in collections.Counter(case.group for case in cases).items():
        print('%7d  %s' % (count, group))
    answers = collections.Counter(outcome_of(Importer(), case).answer for case in cases)
    print('%d cases, %d bytes in and %d out; answers %s' % (len(cases), len(given), len(expected), dict(sorted(answers.items()))))


if __name__ == '__main__':
    main()
