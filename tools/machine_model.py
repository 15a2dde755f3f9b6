"""A model of 01's step and run, with 02's CR 1, CR 3, CR 12, CR 13 and CR 8's statuses, to hold the proved ones against.

It is written from them alone and shares no code with the crates or with the other scripts, so that an error would have
to be made twice to stay unseen. Each rule is a method of its own: machine_mutants.py overrides one at a time.
"""
from typing import NamedTuple, Optional

SPACE = 1 << 64
# The trace before a run, in every place, and the list of statuses.
UNTOUCHED, NO_STATUS = SPACE - 1, 255
# SP where it is the base, and the zero register elsewhere.
LAST = 31
# The test of the stack pointer, whose answer is 6.
STACK = 'SP'

LITERAL, PAIR, ORDERED, UNSCALED, POST, PRE, REGISTER, UNSIGNED, EXCLUSIVE = FAMILIES = (
    'literal', 'pair', 'ordered', 'unscaled', 'post', 'pre', 'register', 'unsigned', 'exclusive')
NO_ALLOCATE, PAIR_POST, PAIR_OFFSET, PAIR_PRE = range(4)
# What is done above the bytes that a load takes.
ZEROS, SIGNED_64, SIGNED_32 = range(3)
# A monitor's address and size: a size of 0 is an open one.
OPEN = 0, 0
# The taint of a register: eight bytes, of which any but 0 marks the byte of the value at its place, the lowest first.
NONE, ALL = bytes(8), b'\1' * 8
# That of a vector register: sixteen bytes.
VECTOR_NONE, VECTOR_ALL = bytes(16), b'\1' * 16

# 01's table and 02's ninth family, bit 31 first: a digit is fixed, and a letter stands for a bit of the field that NAMES
# gives it. The field vector is 1 for vector registers, and families without it have none.
ROWS = {
    LITERAL: 'oo 011 v 00 iiiiiiiiiiiiiiiiiii ttttt',
    PAIR: 'oo 101 v 0 yy L iiiiiii uuuuu nnnnn ttttt',
    ORDERED: 'zz 011 0 01 oo 0 iiiiiiiii 00 nnnnn ttttt',
    UNSCALED: 'zz 111 v 00 oo 0 iiiiiiiii 00 nnnnn ttttt',
    POST: 'zz 111 v 00 oo 0 iiiiiiiii 01 nnnnn ttttt',
    PRE: 'zz 111 v 00 oo 0 iiiiiiiii 11 nnnnn ttttt',
    REGISTER: 'zz 111 v 00 oo 1 mmmmm ppp S 10 nnnnn ttttt',
    UNSIGNED: 'zz 111 v 01 oo iiiiiiiiiiii nnnnn ttttt',
    EXCLUSIVE: 'zz 001 0 00 a L 0 sssss b uuuuu nnnnn ttttt',
}
NAMES = {'z': 'size', 'o': 'opc', 'L': 'load', 'y': 'mode', 'i': 'imm', 'u': 'rt2', 'm': 'rm', 'p': 'option',
         'S': 'scaled', 'n': 'rn', 't': 'rt', 'a': 'o2', 's': 'rs', 'b': 'o0', 'v': 'vector'}


def layout_of(row):
    """The fixed bits of a row, as a mask and their value, and its fields, as (low, width) by name."""
    letters = row.replace(' ', '')
    assert len(letters) == 32
    mask = int(''.join('01'[letter in '01'] for letter in letters), 2)
    value = int(''.join(letter if letter in '01' else '0' for letter in letters), 2)
    places = {name: (31 - letters.rindex(letter), letters.count(letter))
              for letter, name in NAMES.items() if letter in letters}
    return mask, value, places


LAYOUTS = {family: layout_of(row) for family, row in ROWS.items()}


def word_of(family, **fields):
    """The word with these fields; a field may be given as a negative number, and one that is not given is 0."""
    _, word, places = LAYOUTS[family]
    for name, value in fields.items():
        low, width = places[name]
        word |= value % (1 << width) << low
    return word


def fields_of(family, word):
    return {name: word >> low & (1 << width) - 1 for name, (low, width) in LAYOUTS[family][2].items()}


def marks_of(taint):
    """The marks that taint bytes are, as 0 and 1."""
    return bytes(byte != 0 for byte in taint)


def signed(value, bits):
    """The signed number that so many bits stand for."""
    return value - (1 << bits) if value >> bits - 1 else value


class Access(NamedTuple):
    """What an allocated word says."""
    family: str
    prefetch: bool
    store: bool
    above: int
    # Bytes for one register.
    width: int
    # Rt, and Rt2 of a pair.
    targets: tuple
    # None for a literal, whose base is PC.
    base: Optional[int] = None
    index: Optional[int] = None
    option: int = 0
    shift: int = 0
    # In bytes.
    offset: int = 0
    writeback: bool = False
    # A load-exclusive or store-exclusive, and the latter's Rs.
    exclusive: bool = False
    status: Optional[int] = None
    # Whether the targets are vector registers.
    vector: bool = False

    def length(self):
        return self.width * len(self.targets)

    def capacity(self):
        """The bytes of a register that is moved."""
        return 16 if self.vector else 8


class State:
    """Everything that a step gets beside its word. The length of the window is that of the memory."""

    def __init__(self, origin, readonly, pc, registers, taints, memory, taint, monitor=OPEN, vectors=(0,) * 32,
                 vector_taints=(VECTOR_NONE,) * 32):
        self.origin, self.readonly, self.pc = origin, readonly, pc
        # X0 to X30 and SP.
        self.registers, self.taints = list(registers), list(taints)
        self.memory, self.taint = bytearray(memory), bytearray(taint)
        self.monitor = tuple(monitor)
        # Numbers below 2^128.
        self.vectors, self.vector_taints = list(vectors), list(vector_taints)

    def copy(self):
        return State(self.origin, self.readonly, self.pc, self.registers, self.taints, self.memory, self.taint,
                     self.monitor, self.vectors, self.vector_taints)

    def end(self):
        """As a whole number: it may be 2^64 or more."""
        return self.origin + len(self.memory)


class Outcome(NamedTuple):
    """What a run returns and leaves."""
    steps: int
    answer: int
    code: int
    address: int
    state: State
    trace: list
    statuses: bytearray


class Model:
    # The tests in the order in which they are made, which is that of their answers. The stack pointer's is 6 too: "after
    # 5 and before the ordered test".
    ORDER = (1, 2, 3, 4, 5, STACK, 6, 7, 8)

    # "The instructions we take".

    def family_of(self, word):
        for family, (mask, value, _) in LAYOUTS.items():
            if word & mask == value:
                return None if family == EXCLUSIVE and self.is_limited(fields_of(family, word)) else family
        return None

    def is_limited(self, f):
        """Bits 23 and 15 of ldlar and stllr, which are not of the set."""
        return (f['o2'], f['o0']) == (1, 0)

    def has_status(self, f):
        """Whether a word of the ninth family is a store-exclusive."""
        return (f['o2'], f['load']) == (0, 0)

    def is_undefined(self, family, f):
        if f.get('vector'):
            return self.is_undefined_vector(family, f)
        if family == LITERAL:
            return False
        if family == PAIR:
            if f['opc'] == 0b01:
                return not (f['load'] == 1 and f['mode'] != NO_ALLOCATE)
            return f['opc'] == 0b11
        if family == EXCLUSIVE:
            return f['rt2'] != 31 or f['rs'] != 31 and not self.has_status(f)
        kind = f['size'], f['opc']
        if kind in ((0b10, 0b11), (0b11, 0b11)):
            return True
        if kind == (0b11, 0b10) and family in (ORDERED, POST, PRE):
            return True
        return family == REGISTER and f['option'] & 0b010 == 0

    def is_undefined_vector(self, family, f):
        """02, CR 12, "in place of 01's undefined words"."""
        if family in (LITERAL, PAIR):
            return f['opc'] == 0b11
        return f['size'] != 0b00 and f['opc'] & 0b10 != 0 or family == REGISTER and f['option'] & 0b010 == 0

    # "What a word says".

    def moved(self, family, f):
        """Whether a word prefetches, whether it stores, what is done above, and which power of two one register's bytes are."""
        if f.get('vector'):
            return self.moved_vector(family, f)
        if family == LITERAL:
            above, scale = {0b00: (ZEROS, 2), 0b01: (ZEROS, 3), 0b10: (SIGNED_64, 2), 0b11: (ZEROS, 0)}[f['opc']]
            return f['opc'] == 0b11, False, above, scale
        if family == PAIR:
            above, scale = {0b00: (ZEROS, 2), 0b10: (ZEROS, 3), 0b01: (SIGNED_64, 2)}[f['opc']]
            return False, f['load'] == 0, above, scale
        above = {0b00: ZEROS, 0b01: ZEROS, 0b10: SIGNED_64, 0b11: SIGNED_32}[f['opc']]
        return (f['size'], f['opc']) == (0b11, 0b10), f['opc'] == 0b00, above, f['size']

    def moved_vector(self, family, f):
        if family in (LITERAL, PAIR):
            return False, family == PAIR and f['load'] == 0, ZEROS, f['opc'] + 2
        return False, f['opc'] & 1 == 0, ZEROS, self.vector_scale(f)

    def vector_scale(self, f):
        """02, CR 12: "at 16 bytes scale, shift and text take 4 for size"."""
        return 4 if f['opc'] & 0b10 else f['size']

    def access_of(self, family, f):
        if family == EXCLUSIVE:
            return Access(
                family, False, f['load'] == 0, ZEROS, 1 << f['size'], (f['rt'],), f['rn'], exclusive=f['o2'] == 0,
                status=f['rs'] if self.has_status(f) else None)
        prefetch, store, above, scale = self.moved(family, f)
        access = Access(family, prefetch, store, above, 1 << scale, (f['rt'],), f.get('rn'), vector=f.get('vector') == 1)
        if family == LITERAL:
            return access._replace(offset=signed(f['imm'], 19) * 4)
        if family == PAIR:
            return access._replace(
                targets=(f['rt'], f['rt2']), offset=signed(f['imm'], 7) << scale, writeback=f['mode'] in (PAIR_POST, PAIR_PRE))
        if family == REGISTER:
            return access._replace(index=f['rm'], option=f['option'], shift=scale if f['scaled'] else 0)
        if family == UNSIGNED:
            return access._replace(offset=f['imm'] << scale)
        return access._replace(offset=signed(f['imm'], 9), writeback=family in (POST, PRE))

    def is_post(self, access, f):
        return access.family == POST or access.family == PAIR and f['mode'] == PAIR_POST

    def read(self, state, number):
        """The value and the taint of Rt, Rt2 or Rm, where it is a general register."""
        return (0, NONE) if number == LAST else (state.registers[number], state.taints[number])

    def read_index(self, state, access):
        return self.read(state, access.index)

    def write(self, state, number, value, taint):
        """To Rt or Rt2."""
        if number != LAST:
            self.set(state, number, value, taint)

    def set(self, state, number, value, taint):
        state.registers[number], state.taints[number] = value, taint

    def read_vector(self, state, number):
        """02, CR 12: "31 is a register like any other"."""
        return state.vectors[number], state.vector_taints[number]

    def set_vector(self, state, number, value, taint):
        state.vectors[number], state.vector_taints[number] = value, taint

    def read_target(self, state, access, number):
        """The value and the taint of Rt or Rt2."""
        return (self.read_vector if access.vector else self.read)(state, number)

    def write_target(self, state, access, number, value, taint):
        (self.set_vector if access.vector else self.write)(state, number, value, taint)

    def base_of(self, state, access):
        return state.pc if access.base is None else state.registers[access.base]

    def index_of(self, state, access):
        if access.index is None:
            return 0
        value, _ = self.read_index(state, access)
        extended = {0b010: value % (1 << 32), 0b110: signed(value % (1 << 32), 32), 0b011: value, 0b111: value}
        return extended[access.option] << access.shift

    def moved_base(self, state, access):
        """Base and offset, which is where a writeback leaves the base too."""
        return (self.base_of(state, access) + access.offset + self.index_of(state, access)) % SPACE

    def address_of(self, state, access, f):
        return self.base_of(state, access) if self.is_post(access, f) else self.moved_base(state, access)

    # "Answer numbers". A test after 3 is made of an access, and a prefetch has none.

    def is_refused(self, answer, state, word, family, f, access, address):
        if answer == 1:
            return self.is_bad_window(state)
        if answer == 2:
            return family is None
        if answer == 3:
            return self.is_undefined(family, f)
        if access.prefetch:
            return False
        return {4: self.is_unpredictable, 5: self.is_tainted, STACK: self.is_stack_misaligned, 6: self.is_misaligned,
                7: self.is_outside, 8: self.is_read_only}[answer](state, access, address)

    def is_bad_window(self, state):
        return (state.end() > SPACE or state.readonly > len(state.memory) or len(state.taint) != len(state.memory)
                or state.pc % 4 != 0)

    def is_unpredictable(self, state, access, address):
        """02, CR 12: "A vector register never collides with a base"."""
        if access.writeback and not access.vector and access.base != LAST and access.base in access.targets:
            return True
        if access.status is not None:
            return access.status == access.targets[0] or access.status == access.base != LAST
        return access.family == PAIR and not access.store and access.targets[0] == access.targets[1]

    def is_tainted(self, state, access, address):
        if access.base is None:
            return False
        return self.is_base_tainted(state, access) or access.index is not None and self.is_index_tainted(state, access)

    def is_base_tainted(self, state, access):
        return any(state.taints[access.base])

    def is_index_tainted(self, state, access):
        return any(self.used_taint(access, self.read_index(state, access)[1]))

    def used_taint(self, access, taint):
        """Of the index: its low four bytes where its low 32 bits are taken, and all eight where it is taken whole."""
        return taint[:4] if access.option in (0b010, 0b110) else taint

    def is_stack_misaligned(self, state, access, address):
        """02, CR 1: SP as the base, "before any offset", isn't a multiple of 16."""
        return access.base == LAST and state.registers[LAST] % 16 != 0

    def is_misaligned(self, state, access, address):
        """02, CR 3: an exclusive is tested by its size, and ldar and stlr by 01's block."""
        if access.exclusive:
            return address % access.width != 0
        return access.family in (ORDERED, EXCLUSIVE) and address // 16 != (address + self.span(access) - 1) // 16

    def is_outside(self, state, access, address):
        return not (state.origin <= address and address + self.span(access) <= state.end())

    def is_read_only(self, state, access, address):
        return access.store and address < state.origin + state.readonly

    def span(self, access):
        """Bytes of the whole access, as the tests take it."""
        return access.length()

    # "Memory, marks and the trace". 01's mark is our taint.

    def extended(self, access, value, old):
        """What a load writes, from the bytes as a number and from the register as it was."""
        if access.above == ZEROS:
            return value
        return signed(value, 8 * access.width) % (SPACE if access.above == SIGNED_64 else 1 << 32)

    def loaded_taint(self, access, taint, old):
        """A register's, from the taint of the bytes that it is loaded from and from its own as it was."""
        loaded = self.read_marks(taint)
        above = {ZEROS: 0, SIGNED_64: 8, SIGNED_32: 4}[access.above] - access.width
        return (loaded + bytes([self.sign_mark(loaded)]) * above).ljust(access.capacity(), b'\0')

    def read_marks(self, taint):
        """The marks of bytes of memory."""
        return marks_of(taint)

    def sign_mark(self, loaded):
        """That of the copies of the sign: the sign is in the top byte loaded."""
        return loaded[-1]

    def stored_taint(self, access, taint, old):
        """That of the bytes stored, from their register's and from their own as it was."""
        return marks_of(taint[:access.width])

    def part(self, access, k):
        """Which part of a pair's bytes its k-th register has."""
        return k

    def load(self, state, access, address):
        for k, number in enumerate(access.targets):
            at = address - state.origin + self.part(access, k) * access.width
            value = int.from_bytes(state.memory[at:at + access.width], 'little')
            old, marks = self.read_target(state, access, number)
            taint = self.loaded_taint(access, state.taint[at:at + access.width], marks)
            self.write_target(state, access, number, self.extended(access, value, old), taint)

    def store(self, state, access, address):
        for k, number in enumerate(access.targets):
            at = address - state.origin + self.part(access, k) * access.width
            value, taint = self.read_target(state, access, number)
            stored = value % (1 << 8 * access.width)
            state.memory[at:at + access.width] = stored.to_bytes(access.width, 'little')
            state.taint[at:at + access.width] = self.stored_taint(access, taint, state.taint[at:at + access.width])

    def write_back(self, state, access, moved):
        self.set(state, access.base, moved, NONE)

    # 02, CR 3: the monitor, once all tests are passed.

    def is_armed_for(self, state, access, address):
        return state.monitor == (address, access.width)

    def arm(self, state, access, address):
        state.monitor = address, access.width

    def open(self, state):
        state.monitor = OPEN

    def store_exclusive(self, state, access, address):
        """The status: 0 if it stores, 1 if it doesn't."""
        status = 0 if self.is_armed_for(state, access, address) else 1
        if status == 0:
            self.store(state, access, address)
        else:
            self.fail(state, access, address)
        self.write_status(state, access, status)
        self.open(state)
        return status

    def fail(self, state, access, address):
        """A store-exclusive that fails changes no byte and no taint of one."""

    def write_status(self, state, access, status):
        self.write(state, access.status, status, NONE)

    def next_pc(self, pc):
        return (pc + 4) % SPACE

    def code_of(self, access):
        return access.length() + (64 if access.store else 0)

    def refusal(self, answer, state, address):
        """Answer, code and address."""
        if answer == STACK:
            return 6, 0, state.registers[LAST]
        return answer, 0, 0 if answer <= 5 else address

    def step(self, word, state):
        """Answer, code, address and status. A step that is done changes the state, and a refused one changes nothing."""
        family, f, access, address = self.family_of(word), None, None, None
        if family is not None:
            f = fields_of(family, word)
            if not self.is_undefined(family, f):
                access = self.access_of(family, f)
                address = self.address_of(state, access, f)
        for answer in self.ORDER:
            if self.is_refused(answer, state, word, family, f, access, address):
                return *self.refusal(answer, state, address), 0
        return self.done(state, access, address)

    def done(self, state, access, address):
        code, status = 0, 0
        if access.prefetch:
            address = 0
        else:
            code = self.code_of(access)
            moved = self.moved_base(state, access)
            status = self.access(state, access, address)
            if access.writeback:
                self.write_back(state, access, moved)
        state.pc = self.next_pc(state.pc)
        return 0, code, address, status

    def access(self, state, access, address):
        """The status, which is 0 but for a store-exclusive that fails."""
        if access.status is not None:
            return self.store_exclusive(state, access, address)
        (self.store if access.store else self.load)(state, access, address)
        if access.exclusive:
            self.arm(state, access, address)
        return 0

    def run(self, words, given, room, places):
        """A run over the words with a trace of so many numbers, and a list of statuses with so many places."""
        state = given.copy()
        if self.is_bad_window(state):
            return self.not_begun(1, state, room, places)
        if self.is_short(words, room, places):
            return self.not_begun(10, state, room, places)
        steps, answer, code, address = 0, 0, 0, 0
        trace, statuses = [UNTOUCHED] * room, bytearray([NO_STATUS] * places)
        for word in words:
            answer, code, address, status = self.step(word, state)
            if answer != 0:
                break
            trace[2 * steps:2 * steps + 2] = code, address
            statuses[steps] = status
            steps += 1
        return Outcome(steps, answer, code, address, state, trace, statuses)

    def is_short(self, words, room, places):
        return room < 2 * len(words) or places < len(words)

    def not_begun(self, answer, state, room, places):
        return Outcome(0, answer, 0, 0, state, [UNTOUCHED] * room, bytearray([NO_STATUS] * places))
