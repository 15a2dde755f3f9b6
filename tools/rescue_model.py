"""A model of the rescue of damaged listings, written from 02, CR 14, and 01's lines of text.

The texts are read by aarch64_reader.py, and what a word is comes by the rules of aarch64_rules.py. Nothing here comes from this
project's code. Each rule is a method, so that a wrong model differs from the right one by one of them.
"""
import re

from aarch64_reader import record_of
from aarch64_rules import is_unpredictable, line_of, packed, undefined_by_rule

DONE, NO_ROOM = 0, 10
KEPT, RESTORED, DROPPED = 'kept', 'restored', 'dropped'
DIGITS = re.compile(rb'[0-9a-f]{8}')


class Rescue:
    """The right one."""

    def lines(self, listing):
        """Lines part at newlines only, and the last may lack its own."""
        lines = listing.split(b'\n')
        return lines[:-1] if not lines[-1] else lines

    def is_word(self, first):
        """Whether a first field is eight lower-case hex digits."""
        return DIGITS.fullmatch(first) is not None

    def word(self, first):
        return int(first, 16)

    def answer(self, record):
        """Of an allocated word."""
        return 4 if is_unpredictable(record) else 0

    def is_given(self, word, text, answer):
        """Whether these are what the word's own line has behind its digits."""
        if text == b'-':
            family = line_of(word)
            if family is not None and not undefined_by_rule(family, word):
                return False
            return answer == (b'2' if family is None else b'3')
        record = record_of(text)
        return record is not None and packed(record) == word and self.is_answer(record, answer)

    def is_answer(self, record, answer):
        return answer == b'%d' % self.answer(record)

    def restored(self, text):
        """The line of the allocated word whose text this is, or None."""
        record = record_of(text)
        return record and b'%08x\t%s\t%d' % (packed(record), text, self.answer(record))

    def fate(self, line):
        """What becomes of a line, and the line that is put out."""
        fields = line.split(b'\t')
        if len(fields) != 3:
            return DROPPED, None
        first, text, answer = fields
        if self.is_word(first):
            return (KEPT, line) if self.is_given(self.word(first), text, answer) else (DROPPED, None)
        found = self.restored(text)
        return (RESTORED, found) if found else (DROPPED, None)

    def output(self, fates):
        return b''.join(line + b'\n' for _, line in fates if line is not None)

    def report(self, fates):
        return ''.join('%d\t%s\n' % (number, name) for number, (name, _) in enumerate(fates, 1)).encode()

    def lacks(self, output, report, room, space):
        return len(output) > room or len(report) > space

    def refused(self):
        return NO_ROOM, b'', b''

    def rescue(self, listing, room, space):
        """The answer, what is put out, and the report, of which both are empty where the answer is 10."""
        fates = [self.fate(line) for line in self.lines(listing)]
        output, report = self.output(fates), self.report(fates)
        return self.refused() if self.lacks(output, report, room, space) else (DONE, output[:room], report[:space])


# Wrong ones, each by one rule.

class WrongAnswerKept(Rescue):
    def is_answer(self, record, answer):
        return True


class AnswerFourNotRestored(Rescue):
    def restored(self, text):
        record = record_of(text)
        return super().restored(text) if record and not is_unpredictable(record) else None


class AnswerFourAsZero(Rescue):
    def answer(self, record):
        return 0


class DigitsRestored(Rescue):
    def fate(self, line):
        fate = super().fate(line)
        fields = line.split(b'\t')
        found = fate[0] == DROPPED and len(fields) == 3 and self.restored(fields[1])
        return (RESTORED, found) if found else fate


class LastLineLost(Rescue):
    def lines(self, listing):
        return listing.split(b'\n')[:-1]


class EmptyLastLine(Rescue):
    def lines(self, listing):
        return listing.split(b'\n')


class EmptyLinesSkipped(Rescue):
    def lines(self, listing):
        return [line for line in super().lines(listing) if line]


class ReturnsPart(Rescue):
    def lines(self, listing):
        return super().lines(listing.replace(b'\r\n', b'\n'))


class EveryBreakParts(Rescue):
    def lines(self, listing):
        return listing.splitlines()


class UpperCaseDigits(Rescue):
    def is_word(self, first):
        return super().is_word(first.lower())


class SevenDigits(Rescue):
    def is_word(self, first):
        return re.fullmatch(rb'[0-9a-f]{7,8}', first) is not None


class NineDigits(Rescue):
    def is_word(self, first):
        return re.fullmatch(rb'[0-9a-f]{8,9}', first) is not None


class GAsDigit(Rescue):
    def is_word(self, first):
        return re.fullmatch(rb'[0-9a-g]{8}', first) is not None

    def word(self, first):
        return super().word(first.replace(b'g', b'0'))


class ThirdTab(Rescue):
    def fate(self, line):
        fields = line.split(b'\t')
        if len(fields) == 4 and not self.is_word(fields[0]):
            return super().fate(b'\t'.join(fields[:3]))
        return super().fate(line)


class OneTab(Rescue):
    def fate(self, line):
        return super().fate(line + b'\t') if line.count(b'\t') == 1 else super().fate(line)


class ThirdFieldCounts(Rescue):
    def fate(self, line):
        fate, found = super().fate(line)
        return (DROPPED, None) if fate == RESTORED and found.split(b'\t')[2] != line.split(b'\t')[2] else (fate, found)


class SpacesForgiven(Rescue):
    def restored(self, text):
        return super().restored(text.strip(b' \r'))


class UndefinedAsOutside(Rescue):
    def is_given(self, word, text, answer):
        return super().is_given(word, text, b'3' if (text, answer) == (b'-', b'2') and line_of(word) is not None else answer)


class DashNotKept(Rescue):
    def is_given(self, word, text, answer):
        return text != b'-' and super().is_given(word, text, answer)


class ShortKept(Rescue):
    def fate(self, line):
        return (KEPT, line) if re.fullmatch(rb'short\t-\t[123]', line) else super().fate(line)


class KeptAsRestored(Rescue):
    def report(self, fates):
        return super().report(fates).replace(b'kept', b'restored')


class NumbersFromZero(Rescue):
    def report(self, fates):
        return ''.join('%d\t%s\n' % (number, name) for number, (name, _) in enumerate(fates)).encode()


class DroppedNotCounted(Rescue):
    def report(self, fates):
        return super().report([fate for fate in fates if fate[0] != DROPPED])


class OutputCut(Rescue):
    def lacks(self, output, report, room, space):
        return len(report) > space


class ReportCut(Rescue):
    def lacks(self, output, report, room, space):
        return len(output) > room


class OneByteMore(Rescue):
    def lacks(self, output, report, room, space):
        return len(output) >= room or len(report) >= space


class RoomByTheMost(Rescue):
    def rescue(self, listing, room, space):
        count = len(self.lines(listing))
        return self.refused() if len(listing) + 10 * count > room or 30 * count > space else super().rescue(listing, room, space)


WRONG = Rescue.__subclasses__()
