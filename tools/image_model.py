"""What the import of a memory image in Intel HEX returns and leaves: 02, CR 10, and 01's answer 1, written from the papers alone.

Each rule is a method, so that a wrong importer is one with another method: see images_cases.py.
"""
import re
from typing import NamedTuple

DONE, BAD_WINDOW, OUT_OF_WINDOW, MALFORMED, BAD_CHECKSUM, BAD_TYPE = 0, 1, 7, 13, 14, 15
DATA, END, UPPER_HALF = 0, 1, 4
SPACE, LOW_SPACE = 1 << 64, 1 << 32


class Imported(NamedTuple):
    answer: int
    # From 1, and 0 where no line is refused.
    line: int
    memory: bytes
    taint: bytes


class Record(NamedTuple):
    """A line that has its shape, by its bytes: count, two of offset, type, data, checksum."""
    content: bytes

    def count(self):
        return self.content[0]

    def offset(self):
        return int.from_bytes(self.content[1:3], 'big')

    def type(self):
        return self.content[3]

    def data(self):
        return self.content[4:-1]


class Importer:
    line_shape = re.compile(rb':((?:[0-9A-Fa-f][0-9A-Fa-f])*)\n')

    def import_text(self, text, origin, readonly, memory, taint):
        if self.is_bad_window(origin, readonly, len(memory), len(taint)):
            return Imported(BAD_WINDOW, 0, memory, taint)
        written, ended, upper, number = [], False, 0, 0
        for number, line in enumerate(self.lines_of(text), 1):
            record = self.record_of(line)
            fault = self.fault(record, ended, upper, origin, len(memory))
            if fault:
                return Imported(fault, number, *self.refused(origin, written, memory, taint))
            written += self.places(record, upper)
            ended = record.type() == END
            upper = self.upper_half(record, upper)
        if not ended:
            return Imported(MALFORMED, number + 1, *self.refused(origin, written, memory, taint))
        return Imported(DONE, 0, *self.filled(origin, written, memory, taint))

    def is_bad_window(self, origin, readonly, length, taints):
        return origin + length > SPACE or readonly > length or taints != length

    def lines_of(self, text):
        """Each with its newline, which only the last may lack."""
        return re.findall(rb'[^\n]*\n|[^\n]+$', text)

    def record_of(self, line):
        """None for a line that hasn't the shape of one."""
        found = self.line_shape.fullmatch(line)
        content = bytes.fromhex(found[1].decode()) if found else b''
        return Record(content) if content and len(content) == 5 + content[0] else None

    def fault(self, record, ended, upper, origin, length):
        if self.is_malformed(record, ended):
            return MALFORMED
        return next((answer for answer, holds in self.faults(record, upper, origin, length) if holds), DONE)

    def is_malformed(self, record, ended):
        return ended or record is None or self.has_wrong_count(record)

    def has_wrong_count(self, record):
        return record.count() != {UPPER_HALF: 2, END: 0}.get(record.type(), record.count())

    def faults(self, record, upper, origin, length):
        """Behind 13, in their order."""
        return ((BAD_CHECKSUM, self.sum_of(record) % 256 != 0), (BAD_TYPE, record.type() not in (DATA, END, UPPER_HALF)),
                (OUT_OF_WINDOW, any(self.is_outside(address, origin, length) for address, _ in self.places(record, upper))))

    def sum_of(self, record):
        return sum(record.content)

    def is_outside(self, address, origin, length):
        return not origin <= address < origin + length

    def upper_half(self, record, upper):
        return int.from_bytes(record.data(), 'big') if record.type() == UPPER_HALF else upper

    def address(self, upper, offset, index):
        return ((upper << 16) + offset + index) % LOW_SPACE

    def places(self, record, upper):
        """The data bytes, each with its address."""
        if record.type() != DATA:
            return []
        return [(self.address(upper, record.offset(), index), byte) for index, byte in enumerate(record.data())]

    def filled(self, origin, written, memory, taint):
        memory, taint = bytearray(memory), bytearray(taint)
        for address, byte in written:
            memory[address - origin], taint[address - origin] = byte, 0
        return bytes(memory), bytes(taint)

    def refused(self, origin, written, memory, taint):
        return memory, taint
