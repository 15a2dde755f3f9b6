#!/usr/bin/env python3
"""Writes crates/calls/stdin and crates/calls/stdout: calls of what the library exports, and what must come.

    python3 tools/calls_cases.py
    python3 tools/calls_cases.py --self-check      counts the cases that tell each wrong library from the right one

What must come is from 01 and 02 alone: texts and answers of words from crates/list/stdout, and lines to be read from
crates/assemble/stdin, which other tools have made; records and their words by aarch64_reader.py and aarch64_rules.py, what
a word moves by machine_model.py; listers, registers and monitors by the few rules below. The run and the step have their
cases in replay_cases.py. The output is the same each time.

A case, numbers little-endian: seventeen 64-bit numbers, which are what to call, how many bytes are given, how many the
lent buffer has, and fourteen for the call; then the bytes. The buffer starts with 255 in every place. The lines of a case
are `case` with its number from 0, then fields parted by tabs:

    1, of a word        word, class, whether it touches memory; decode, answer, 13 numbers; text, answer, length; buffer
    2, of a text        read, answer, word
    3, of 13 numbers    encode, answer, word; the last number is n, or -1 - n where a fourteenth is not 0
    4, of bytes         list, answer, length; buffer
    5, of a fragment    push, answer, length, the five bytes of the lister; buffer
    6                   close, likewise; either has the lister's bytes as its numbers
    7, 8, 9             set_register, opened or observed, program counter; registers; monitor; as in replay_format.py. The
                        numbers are program counter, monitor, and then register, value, marks, or code, address, status;
                        the bytes are the registers and a number of taints for each
    10                  vector, low and high half, taints of each; the number is the register's
    11                  set_vector; vectors, as in replay_format.py; the numbers are the register's, both halves, their taints;
                        either has the bytes of 32 vector registers, the low half first, and as many of their taints

Numbers below 0 are shown in two's complement. Input that ends inside a case gives the one line `case`, number, `cut short`.
"""
import argparse
import collections
import random
import struct
from typing import NamedTuple

from aarch64_reader import read_line, record_of
from aarch64_rules import is_valid, packed, path_of, write
from aarch64_text import EXCLUSIVE, EXCLUSIVES, LITERAL, LITERAL_NAMES, PAIR, PAIR_NAMES, REGISTER, SIZED_NAMES, Record
from replay_states import MODEL, access_of, is_unpredictable

SEED = 9
SPACE, UNTOUCHED = 1 << 64, 255
WORD, READ, ENCODE, LIST, PUSH, CLOSE, SET, OPENED, OBSERVED, VECTOR, SET_VECTOR = range(1, 12)
# A text as long as any.
LONGEST = 0xf8aa5940
# The data cache operations that set a block of memory or its tags, without their register.
SETS_BLOCK = 0xd50b7420, 0xd50b7460, 0xd50b7480


def stored(crate, name):
    with open(path_of(crate, name), 'rb') as file:
        return file.read()


def listed_words():
    """Of each word of the stored listing its text, or none, and its answer."""
    lines = [line.split('\t') for line in stored('list', 'stdout').decode().splitlines()]
    return {int(word, 16): (None if text == '-' else text, int(answer)) for word, text, answer in lines if word != 'short'}


LISTED = listed_words()


class Plain(NamedTuple):
    """An instruction as plain numbers; those that its family hasn't got are 0."""
    family: int = 0
    operation: int = 0
    direction: int = 0
    bytes: int = 0
    target: int = 0
    second: int = 0
    base: int = 0
    index: int = 0
    option: int = 0
    scaled: int = 0
    mode: int = 0
    status: int = 0
    offset: int = 0


class Lister(NamedTuple):
    """Three bytes that may be over, how many of them are, and whether it is closed."""
    first: int = 0
    second: int = 0
    third: int = 0
    count: int = 0
    closed: int = 0


class Session(NamedTuple):
    pc: int
    address: int
    size: int
    registers: tuple
    # A number for each, a byte of it for each byte of the register.
    taints: tuple


class Vectors(NamedTuple):
    """Of each register two halves, the low one first."""
    values: tuple
    # Numbers likewise, a byte of them for each byte of the register.
    taints: tuple


def plain_of(record):
    access = access_of(packed(record))
    by_family = {PAIR: dict(second=record.second, mode=record.mode),
                 REGISTER: dict(index=record.second, option=record.mode, scaled=record.scaled),
                 EXCLUSIVE: dict(status=record.second)}
    return Plain(record.family, record.operation, 0 if access.prefetch else 2 if access.store else 1,
                 0 if access.prefetch else access.length(), record.target, base=record.base, offset=record.offset,
                 **by_family.get(record.family, {}))


def record_from(plain):
    """The record with a family's numbers of these."""
    second = {PAIR: plain.second, REGISTER: plain.index, EXCLUSIVE: plain.status}.get(plain.family, 0)
    mode = {PAIR: plain.mode, REGISTER: plain.option}.get(plain.family, 0)
    base = 0 if plain.family == LITERAL else plain.base
    return Record(plain.family, plain.operation, plain.target, base, second, mode, plain.scaled, plain.offset)


def is_operation(family, operation, mode):
    if family == LITERAL:
        return operation in LITERAL_NAMES
    if family == PAIR:
        return operation in PAIR_NAMES and mode < 4
    if family == EXCLUSIVE:
        return operation < 32 and operation % 8 in EXCLUSIVES
    return LITERAL < family < EXCLUSIVE and operation in SIZED_NAMES


class Library:
    """What each exported function returns and leaves, by 01 and 02."""

    # Words.

    def classify(self, word):
        return LISTED[word][1]

    def touches_memory(self, word):
        in_group = word >> 27 & 1 == 1 and word >> 25 & 1 == 0
        return int(in_group or word & ~31 in SETS_BLOCK)

    def decode(self, word):
        text, answer = LISTED[word]
        return (0, plain_of(record_of(text.encode()))) if text else (answer, Plain())

    def encode(self, plain):
        record = record_from(plain)
        fits = is_operation(plain.family, plain.operation, record.mode) and is_valid(record)
        return (0, packed(record)) if fits and plain_of(record) == plain else (11, 0)

    def text(self, word, buffer):
        text, answer = LISTED[word]
        return self.put(text.encode(), buffer) if text else (answer, 0, buffer)

    def word(self, text):
        word, answer = read_line(text)
        return answer, word

    # Lines.

    def put(self, lines, buffer):
        return (0, len(lines), lines + buffer[len(lines):]) if len(lines) <= len(buffer) else (10, 0, buffer)

    def listing(self, data):
        whole = len(data) // 4 * 4
        lines = ['%08x\t%s\t%d\n' % (word, LISTED[word][0] or '-', LISTED[word][1])
                 for word in struct.unpack('<%dI' % (whole // 4), data[:whole])]
        return (''.join(lines) + ('short\t-\t%d\n' % (len(data) - whole) if data[whole:] else '')).encode()

    def list(self, data, buffer):
        return self.put(self.listing(data), buffer)

    def is_closed(self, lister):
        return lister.closed != 0 or lister.count > 3

    def handed(self, lister, following, lines, buffer):
        if self.is_closed(lister):
            return 16, 0, lister, buffer
        answer, length, left = self.put(lines, buffer)
        return answer, length, following if answer == 0 else lister, left

    def push(self, lister, fragment, buffer):
        data = bytes(lister[:3][:lister.count]) + fragment
        whole = len(data) // 4 * 4
        rest = data[whole:]
        # The bytes that aren't over are 0.
        following = Lister(*rest, *[0] * (3 - len(rest)), len(rest))
        lines = b'' if self.is_closed(lister) else self.listing(data[:whole])
        return self.handed(lister, following, lines, buffer)

    def close(self, lister, buffer):
        # What a closed lister holds is what it held.
        return self.handed(lister, lister._replace(closed=1), self.listing(bytes(lister[:3][:lister.count])), buffer)

    # Sessions.

    def set_register(self, session, n, value, marks):
        if n > 31:
            return session
        registers, taints = list(session.registers), list(session.taints)
        registers[n], taints[n] = value, marks
        return session._replace(registers=tuple(registers), taints=tuple(taints))

    # Vector registers: one above 31 reads 0, untainted, and sets nothing.

    def vector(self, vectors, n):
        return (*vectors.values[n], *vectors.taints[n]) if n < 32 else (0, 0, 0, 0)

    def set_vector(self, vectors, n, *numbers):
        if n > 31:
            return vectors
        values, taints = list(vectors.values), list(vectors.taints)
        values[n], taints[n] = numbers[:2], numbers[2:]
        return Vectors(tuple(values), tuple(taints))

    def opened(self, session):
        return session._replace(address=0, size=0)

    def observed(self, session, code, address, status):
        first, end = max(session.address, address), min(session.address + session.size, address + max(code - 64, 0))
        return self.opened(session) if status == 0 and first < end else session


class Case(NamedTuple):
    # What the case is for: the counts at the end go by it.
    group: str
    what: int
    given: bytes = b''
    room: int = 0
    numbers: tuple = ()


# The input and the lines of a case.

def case_bytes(case):
    numbers = (case.what, len(case.given), case.room, *case.numbers)
    return struct.pack('<17Q', *numbers, *[0] * (17 - len(numbers))) + case.given


def session_bytes(session):
    return struct.pack('<64Q', *session.registers, *session.taints)


def session_of(case):
    numbers = struct.unpack('<64Q', case.given)
    return Session(*case.numbers[:3], numbers[:32], numbers[32:])


def vectors_bytes(vectors):
    return struct.pack('<128Q', *[half for halves in vectors.values + vectors.taints for half in halves])


def vectors_of(case):
    numbers = struct.unpack('<128Q', case.given)
    halves = tuple(zip(numbers[::2], numbers[1::2]))
    return Vectors(halves[:32], halves[32:])


def taints_text(marks, width=8):
    return '*' + ''.join('01'[byte != 0] for byte in marks.to_bytes(width, 'big')) if marks else ''


def number_of(halves):
    low, high = halves
    return high << 64 | low


def vectors_lines(name, vectors):
    registers = ['%032x%s' % (number_of(value), taints_text(number_of(taint), 16)) for value, taint in zip(*vectors)]
    return [[name], ['vectors', *registers]]


def session_lines(name, session):
    registers = ['%016x%s' % (value, taints_text(marks)) for value, marks in zip(session.registers, session.taints)]
    return [[name, session.pc], ['registers', *registers], ['monitor', session.address, session.size]]


def plain_in(case):
    *numbers, offset, below = case.numbers
    return Plain(*numbers, -1 - offset if below else offset)


def word_lines(library, word, buffer):
    answer, plain = library.decode(word)
    *said, left = library.text(word, buffer)
    return [['word', library.classify(word), library.touches_memory(word)],
            ['decode', answer, *plain[:-1], plain.offset % SPACE], ['text', *said], ['buffer', left.hex()]]


def lister_lines(name, reply):
    answer, length, lister, left = reply
    return [[name, answer, length, *lister], ['buffer', left.hex()]]


def lines_of(library, case):
    buffer = bytes([UNTOUCHED]) * case.room
    if case.what == WORD:
        return word_lines(library, case.numbers[0], buffer)
    if case.what == READ:
        return [['read', *library.word(case.given)]]
    if case.what == ENCODE:
        return [['encode', *library.encode(plain_in(case))]]
    if case.what == LIST:
        *said, left = library.list(case.given, buffer)
        return [['list', *said], ['buffer', left.hex()]]
    if case.what == PUSH:
        return lister_lines('push', library.push(Lister(*case.numbers), case.given, buffer))
    if case.what == CLOSE:
        return lister_lines('close', library.close(Lister(*case.numbers), buffer))
    if case.what == VECTOR:
        return [['vector', *library.vector(vectors_of(case), *case.numbers)]]
    if case.what == SET_VECTOR:
        return vectors_lines('set_vector', library.set_vector(vectors_of(case), *case.numbers))
    session, arguments = session_of(case), case.numbers[3:]
    if case.what == SET:
        return session_lines('set_register', library.set_register(session, *arguments))
    if case.what == OPENED:
        return session_lines('opened', library.opened(session))
    return session_lines('observed', library.observed(session, *arguments))


def case_text(library, number, case):
    lines = [['case', number], *lines_of(library, case)]
    return ''.join('\t'.join(map(str, fields)) + '\n' for fields in lines)


# Cases.

def held(word):
    """Holds the other model's sorting of a word against the stored listing."""
    access = access_of(word)
    found = (2 if MODEL.family_of(word) is None else 3) if access is None else 4 if is_unpredictable(word) else 0
    if found != LISTED[word][1]:
        raise SystemExit('no rule for %08x' % word)
    return word


def chosen_words(rng):
    """Of each family and answer some words, and those that are chosen for their texts and for what isn't of the set."""
    groups = collections.defaultdict(list)
    for word, (text, answer) in LISTED.items():
        groups[record_of(text.encode()).family if text else None, answer].append(held(word))
    chosen = [word for _, words in sorted(groups.items(), key=str) for word in rng.sample(words, min(5, len(words)))]
    return [LONGEST, *chosen]


def outside_words():
    """Words that touch memory and aren't of the set, their neighbours, and words that don't touch it."""
    words = [word | register for word in SETS_BLOCK for register in (0, 31)]
    words += [0xd50b7400, 0xd50b7440, 0xd50b74a0, 0xd50b74e0, 0xd50b7520, 0xd50b7320, 0x550b7420, 0xd50a7420, 0xd51b7420]
    words += [0x0c000000, 0x4c407000, 0xb8200000, 0xf8200400, 0x0a000000, 0x0e000000, 0x08000000 | 1 << 21, 0, 0xffffffff]
    for word in words:
        LISTED.setdefault(word, (None, 2 if MODEL.family_of(word) is None else 3))
        if access_of(word):
            raise SystemExit('%08x is of the set' % word)
    return words


def word_cases(rng):
    for word in chosen_words(rng):
        text, _ = LISTED[word]
        for room in sorted({0, 40, len(text), len(text) - 1} if text else {0, 40}):
            yield Case('words of the listing', WORD, room=room, numbers=(word,))
    for word in outside_words():
        yield Case('words beside the set', WORD, room=5, numbers=(word,))


def read_cases(rng):
    lines = [line for line in stored('assemble', 'stdin').split(b'\n') if len(line) < 60]
    right = [line for line in lines if read_line(line)[1] == 0]
    wrong = [line for line in lines if read_line(line)[1] != 0]
    for line in rng.sample(right, 20) + rng.sample(wrong, 25) + [b'', LISTED[LONGEST][0].encode() + b' ']:
        yield Case('texts', READ, given=line)


def encode_case(group, plain):
    below = plain.offset < 0
    return Case(group, ENCODE, numbers=(*plain[:-1], -1 - plain.offset if below else plain.offset, int(below)))


def encode_cases(rng):
    plains = [plain_of(record_of(LISTED[word][0].encode())) for word in chosen_words(rng) if LISTED[word][0]]
    for plain in plains:
        yield encode_case('numbers of instructions', plain)
    for plain in rng.sample(plains, 12):
        for name in rng.sample(Plain._fields, 3):
            value = getattr(plain, name)
            changed = value + 1 if name == 'offset' else (value + rng.choice((1, 32, 1 << 31))) % (1 << 32)
            yield encode_case('numbers that were changed', plain._replace(**{name: changed}))
    wild = [Plain(), Plain(family=10), Plain(offset=-(1 << 63)), Plain(offset=(1 << 63) - 1), Plain(*[(1 << 32) - 1] * 12, -1)]
    for plain in wild:
        yield encode_case('numbers of nothing', plain)


def rooms(length):
    return sorted({0, length - 1, length, length + 3} - {-1})


def image(rng, words):
    return struct.pack('<%dI' % words, *rng.sample([word for word in LISTED if word != LONGEST], words - 1), LONGEST)


def list_cases(rng):
    right = Library()
    for words, over in ((0, 0), (0, 1), (1, 0), (2, 2), (3, 3)):
        data = (image(rng, words) if words else b'') + bytes(rng.getrandbits(8) for _ in range(over))
        for room in rooms(len(right.listing(data))):
            yield Case('listings', LIST, given=data, room=room)


def lister_cases(rng):
    """Images cut at each place, with each call refused once for want of room, and listers that a host has made."""
    right = Library()
    for over in range(4):
        data = image(rng, 3) + bytes(rng.getrandbits(8) for _ in range(over))
        lister = Lister()
        cuts = sorted(rng.choices(range(len(data) + 1), k=5))
        for first, end in zip([0, *cuts], [*cuts, len(data)]):
            length = right.push(lister, data[first:end], bytes(512))[1]
            for room in sorted({max(length - 1, 0), length, length + 2}):
                yield Case('fragments', PUSH, data[first:end], room, lister)
            lister = right.push(lister, data[first:end], bytes(512))[2]
        for room in rooms(right.close(lister, bytes(512))[1]):
            yield Case('closings', CLOSE, room=room, numbers=lister)
    for lister in (Lister(1, 2, 3, 4), Lister(1, 2, 3, 255), Lister(1, 2, 3, 2, 1), Lister(0, 0, 0, 0, 255), Lister(9, 8, 7, 4, 1)):
        for room in (0, 50):
            yield Case('listers that are refused', PUSH, image(rng, 1), room, lister)
            yield Case('listers that are refused', CLOSE, room=room, numbers=lister)
    for lister in (Lister(1, 2, 3), Lister(0x40, 2, 3, 1), Lister(0x40, 0x59, 3, 2)):
        # Bytes that aren't over are there, and are never listed.
        yield Case('listers with other bytes', PUSH, struct.pack('<I', LONGEST)[lister.count:], 60, lister)
        yield Case('listers with other bytes', CLOSE, room=12, numbers=lister)


def any_marks(rng):
    return rng.getrandbits(64) & rng.choice((0, SPACE - 1, 0xff, 0xff << 56, 0x0101010101010101))


def any_session(rng, address=0, size=0):
    return Session(rng.getrandbits(64), address, size, tuple(rng.getrandbits(64) for _ in range(32)),
                   tuple(any_marks(rng) for _ in range(32)))


def session_case(group, what, session, *arguments):
    return Case(group, what, session_bytes(session), numbers=(*session[:3], *arguments))


def register_cases(rng):
    for n in (0, 1, 15, 30, 31, 32, 33, 1 << 31, (1 << 32) - 1):
        for marks in (0, 1, 0x0101010101010101, 0x80 << 56, SPACE - 1):
            value = rng.choice((0, SPACE - 1, rng.getrandbits(64)))
            yield session_case('registers', SET, any_session(rng, rng.getrandbits(64), rng.getrandbits(3)), n, value, marks)


def any_vectors(rng):
    return Vectors(tuple((rng.getrandbits(64), rng.getrandbits(64)) for _ in range(32)),
                   tuple((any_marks(rng), any_marks(rng)) for _ in range(32)))


def vector_cases(rng):
    for n in (0, 1, 15, 30, 31, 32, 33, 63, 64, 1 << 31, (1 << 32) - 1):
        for _ in range(3):
            yield Case('vectors read', VECTOR, vectors_bytes(any_vectors(rng)), numbers=(n,))
        for marks in ((0, 0), (1, 0), (0, 1), (0x0101010101010101, 0x80 << 56), (SPACE - 1, SPACE - 1)):
            halves = rng.choice(((0, SPACE - 1), (SPACE - 1, 0), (rng.getrandbits(64), rng.getrandbits(64))))
            yield Case('vectors set', SET_VECTOR, vectors_bytes(any_vectors(rng)), numbers=(n, *halves, *marks))


def monitor_cases(rng):
    for address, size in ((0, 0), (4096, 8), (SPACE - 1, 1), (SPACE - 1, SPACE - 1), (7, 0)):
        yield session_case('monitors opened', OPENED, any_session(rng, address, size))
    top = SPACE - 8
    watched = [
        # What is watched, and what another's step showed: bytes in common, one byte of either end, next to it on both sides.
        (4096, 8, 72, 4096), (4096, 8, 65, 4096), (4096, 8, 65, 4103), (4096, 8, 65, 4104), (4096, 8, 65, 4095),
        (4096, 8, 72, 4088), (4096, 8, 72, 4089), (4096, 8, 80, 4080), (4096, 8, 80, 4081), (4096, 8, 72, 4103),
        (4096, 8, 72, 4104), (4096, 1, 80, 4081), (4096, 1, 80, 4096), (4096, 1, 80, 4097),
        # Codes of no store, and monitors of no bytes.
        (4096, 8, 8, 4096), (4096, 8, 0, 4096), (4096, 8, 63, 4096), (4096, 8, 64, 4096), (4096, 8, SPACE - 1, 0),
        (4096, 8, SPACE - 1, 4104), (0, 0, 72, 0), (4096, 0, 72, 4096), (4096, 0, 72, 4092),
        # The end of the address space: as whole numbers, nothing comes round.
        (top, 8, 72, top), (top, 8, 65, SPACE - 1), (top, 16, 65, 0), (top, 16, 65, 7), (0, 8, 80, top), (0, 1, 80, SPACE - 1),
        (SPACE - 1, SPACE - 1, 65, 0), (SPACE - 1, SPACE - 1, 65, SPACE - 1), (0, SPACE - 1, 65, SPACE - 1), (0, SPACE - 1, 65, SPACE - 2),
    ]
    for address, size, code, at in watched:
        yield session_case('stores of another', OBSERVED, any_session(rng, address, size), code, at, 0)
    for status in (1, 2, 255, 256, SPACE - 1):
        yield session_case('stores that failed', OBSERVED, any_session(rng, 4096, 8), 72, 4096, status)


def all_cases():
    rng = random.Random(SEED)
    makers = word_cases, read_cases, encode_cases, list_cases, lister_cases, register_cases, monitor_cases, vector_cases
    return [case for maker in makers for case in maker(rng)]


# Wrong libraries.

def replying(change, *names):
    """A library whose functions of these names hand their replies to a change first."""
    def changed(name):
        return lambda self, *arguments: change(getattr(Library, name)(self, *arguments), arguments)
    return type(change.__name__, (Library,), {name: changed(name) for name in names})


REFUSING = 'decode', 'encode', 'text', 'word', 'list', 'push', 'close'
BUFFERED = 'text', 'list', 'push', 'close'


def done_always(reply, _):
    return (0, *reply[1:])


def refused_says_more(reply, _):
    return (reply[0], 1, *reply[2:]) if reply[0] else reply


def refused_changes_the_buffer(reply, _):
    return (*reply[:-1], b'-' + reply[-1][1:]) if reply[0] and reply[-1] else reply


def answer_for_length(reply, _):
    return (reply[1], reply[0], *reply[2:])


def rest_cleared(reply, _):
    return reply if reply[0] else (*reply[:-1], reply[-1][:reply[1]] + bytes(len(reply[-1]) - reply[1]))


def refused_changes_the_lister(reply, _):
    return (*reply[:2], Lister(), reply[3]) if reply[0] else reply


def bytes_over_exchanged(reply, _):
    return (*reply[:2], reply[2]._replace(first=reply[2].second, second=reply[2].first), reply[3])


def target_for_base(reply, _):
    return reply[0], reply[1]._replace(target=reply[1].base, base=reply[1].target)


def class_0(reply, _):
    return 0


def touches_by_the_set(reply, arguments):
    return int(LISTED[arguments[0]][1] != 2)


def monitor_exchanged(reply, _):
    return reply._replace(address=reply.size, size=reply.address)


def session_as_it_was(reply, arguments):
    return arguments[0]


def marks_kept(reply, arguments):
    return reply._replace(taints=arguments[0].taints)


def lowest_mark_alone(reply, _):
    return reply._replace(taints=tuple(marks % 256 for marks in reply.taints))


def counter_lost(reply, _):
    return reply._replace(pc=0)


def always_opened(reply, arguments):
    return Library().opened(arguments[0])


def halves_exchanged(reply, _):
    return (reply[1], reply[0], reply[3], reply[2])


def marks_for_value(reply, _):
    return reply[2:] + reply[:2]


def marks_of_a_half(reply, _):
    return (*reply[:3], reply[2])


def by_32(reply, arguments):
    return Library().vector(arguments[0], arguments[1] % 32)


def set_by_32(reply, arguments):
    return Library().set_vector(arguments[0], arguments[1] % 32, *arguments[2:])


def halves_set_exchanged(reply, arguments):
    vectors, n, low, high, *marks = arguments
    return Library().set_vector(vectors, n, high, low, *marks)


def vector_marks_kept(reply, arguments):
    return reply._replace(taints=arguments[0].taints)


def vectors_as_they_were(reply, arguments):
    return arguments[0]


def set_31_as_zero(reply, arguments):
    return arguments[0] if arguments[1] == 31 else reply


WRONG = [replying(done_always, name) for name in REFUSING] + [replying(refused_says_more, name) for name in ('encode', *BUFFERED)]
WRONG += [replying(change, name) for change in (refused_changes_the_buffer, answer_for_length, rest_cleared) for name in BUFFERED]
WRONG += [replying(answer_for_length, name) for name in ('encode', 'word')]
WRONG += [replying(change, name) for change in (refused_changes_the_lister, bytes_over_exchanged) for name in ('push', 'close')]
WRONG += [replying(target_for_base, 'decode'), replying(class_0, 'classify'), replying(touches_by_the_set, 'touches_memory')]
WRONG += [replying(change, name) for change in (monitor_exchanged, counter_lost) for name in ('set_register', 'opened', 'observed')
          if (change, name) != (monitor_exchanged, 'opened')]
WRONG += [replying(session_as_it_was, name) for name in ('set_register', 'opened', 'observed')]
WRONG += [replying(change, 'set_register') for change in (marks_kept, lowest_mark_alone)] + [replying(always_opened, 'observed')]


WRONG += [replying(change, 'vector') for change in (halves_exchanged, marks_for_value, marks_of_a_half, by_32)]
WRONG += [replying(change, 'set_vector')
          for change in (set_by_32, halves_set_exchanged, vector_marks_kept, vectors_as_they_were, set_31_as_zero)]


class WrapsRound(Library):
    """The ends of both ranges are taken modulo 2^64."""

    def observed(self, session, code, address, status):
        inside = (address - session.address) % SPACE < session.size or (session.address - address) % SPACE < max(code - 64, 0)
        return self.opened(session) if status == 0 and inside and session.size and code > 64 else session


class TakesTheFirstByte(Library):
    """A store is watched by its first byte alone."""

    def observed(self, session, code, address, status):
        return super().observed(session, min(code, 65), address, status)


class ForgetsTheStatus(Library):
    def observed(self, session, code, address, status):
        return super().observed(session, code, address, 0)


WRONG += [WrapsRound, TakesTheFirstByte, ForgetsTheStatus]


def self_check(cases):
    right, unseen = [lines_of(Library(), case) for case in cases], []
    for wrong in WRONG:
        library = wrong()
        count = sum(lines_of(library, case) != lines for case, lines in zip(cases, right))
        name = ' '.join([wrong.__name__, *(name for name in vars(wrong) if not name.startswith('__'))])
        print('%7d  %s' % (count, name))
        unseen += [] if count else [name]
    if unseen:
        raise SystemExit('not seen: %s' % unseen)


def main():
    parser = argparse.ArgumentParser()
    parser.add_argument('--self-check', action='store_true')
    options = parser.parse_args()
    cases = all_cases()
    if options.self_check:
        return self_check(cases)
    # The last case is cut: its last byte is missing.
    ending = case_bytes(next(case for case in cases if case.given))[:-1]
    given = b''.join(map(case_bytes, cases)) + ending
    expected = ''.join(case_text(Library(), number, case) for number, case in enumerate(cases))
    expected += 'case\t%d\tcut short\n' % len(cases)
    write('calls', 'stdin', given)
    write('calls', 'stdout', expected.encode())
    for group, count in collections.Counter(case.group for case in cases).items():
        print('%7d  %s' % (count, group))
    print('%d cases, %d bytes in and %d out' % (len(cases), len(given), len(expected)))


if __name__ == '__main__':
    main()
