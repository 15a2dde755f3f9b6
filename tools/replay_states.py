"""Words of every kind, and states on which they are done, for the cases of the program `replay`."""
import itertools

from machine_model import (
    ALL, EXCLUSIVE, LAST, LAYOUTS, LITERAL, NO_ALLOCATE, NONE, OPEN, ORDERED, PAIR, POST, PRE, REGISTER, SPACE, UNSCALED,
    UNSIGNED, VECTOR_ALL, VECTOR_NONE, Model, State, fields_of, word_of)

MODEL = Model()
SIZED = (ORDERED, UNSCALED, POST, PRE, UNSIGNED)
WITH_PREFETCH = (UNSCALED, REGISTER, UNSIGNED)
WITH_VECTORS = (LITERAL, PAIR, UNSCALED, POST, PRE, REGISTER, UNSIGNED)
TAINTS = (1, 1, 2, 128, 255)
MARKS = (1, 255, 2, 128)
# Bits 23, 22 and 15 of the ninth family: stxr, stlxr, ldxr, ldaxr, stlr, ldar.
EXCLUSIVES = ((0, 0, 0), (0, 0, 1), (0, 1, 0), (0, 1, 1), (1, 0, 1), (1, 1, 1))


# Words.

def sized_choices():
    """Every size and opc that loads or stores."""
    return [{'size': size, 'opc': opc} for size in range(4) for opc in range(4)
            if (size, opc) not in ((2, 3), (3, 2), (3, 3))]


def choices(family):
    """The fields of a family that choose between loads and stores of general registers."""
    if family == LITERAL:
        return [{'opc': opc} for opc in range(3)]
    if family == PAIR:
        plain = [{'opc': opc, 'mode': mode, 'load': load} for opc in (0, 2) for mode in range(4) for load in range(2)]
        return plain + [{'opc': 1, 'mode': mode, 'load': 1} for mode in range(4) if mode != NO_ALLOCATE]
    if family == REGISTER:
        return [{**choice, 'option': option, 'scaled': scaled}
                for choice in sized_choices() for option in (2, 3, 6, 7) for scaled in range(2)]
    if family == EXCLUSIVE:
        return [exclusive_choice(size, *kind) for size in range(4) for kind in EXCLUSIVES]
    return sized_choices()


def vector_choices(family):
    """Those that choose between loads and stores of vector registers."""
    if family == LITERAL:
        return [{'vector': 1, 'opc': opc} for opc in range(3)]
    if family == PAIR:
        return [{'vector': 1, 'opc': opc, 'mode': mode, 'load': load}
                for opc in range(3) for mode in range(4) for load in range(2)]
    sized = [{'vector': 1, 'size': size, 'opc': opc} for size in range(4) for opc in range(2 if size else 4)]
    if family == REGISTER:
        return [{**choice, 'option': option, 'scaled': scaled}
                for choice in sized for option in (2, 3, 6, 7) for scaled in range(2)]
    return sized


def exclusive_choice(size, o2, load, o0):
    """Registers that aren't used are 31."""
    choice = {'size': size, 'o2': o2, 'load': load, 'o0': o0, 'rt2': LAST}
    return choice if (o2, load) == (0, 0) else {**choice, 'rs': LAST}


def immediates(family):
    """The edges of an immediate, as numbers: the ends, and about 0 and the middle."""
    if family in (REGISTER, EXCLUSIVE):
        return []
    if family == UNSIGNED:
        return [0, 1, 2047, 2048, 4094, 4095]
    half = 1 << LAYOUTS[family][2]['imm'][1] - 1
    return [0, 1, -1, half - 1, half - 2, -half, 1 - half]


def any_immediate(rng, family):
    return {'imm': rng.getrandbits(LAYOUTS[family][2]['imm'][1])} if immediates(family) else {}


def registers_of(family):
    """The ninth family has no register in Rt2."""
    names = ('rt', 'rn', 'rs') if family == EXCLUSIVE else ('rt', 'rn', 'rt2', 'rm')
    return [name for name in names if name in LAYOUTS[family][2]]


def is_unpredictable(word):
    return access_of(word) is not None and MODEL.is_unpredictable(None, access_of(word), 0)


def access_of(word):
    """What a word says, or None if it isn't allocated."""
    family = MODEL.family_of(word)
    fields = family and fields_of(family, word)
    return MODEL.access_of(family, fields) if family and not MODEL.is_undefined(family, fields) else None


def any_word(rng, family, choice=None, **fixed):
    """A word that isn't of answer 4, with these fields."""
    while True:
        choice = choice or rng.choice(choices(family))
        fields = {name: rng.getrandbits(5) for name in registers_of(family)}
        word = word_of(family, **{**fields, **any_immediate(rng, family), **choice, **fixed})
        if not is_unpredictable(word):
            return word


def prefetch_word(rng, family, **fixed):
    kind = {'opc': 3} if family == LITERAL else {'size': 3, 'opc': 2}
    if family == REGISTER:
        kind['option'] = rng.choice((2, 3, 6, 7))
        kind['scaled'] = rng.getrandbits(1)
    return any_word(rng, family, kind, **fixed)


def equal_registers(rng, family):
    """Fields of registers: 31 in each place alone and in all, each two equal, and all."""
    names = registers_of(family)
    for name in names:
        yield {name: LAST}
    yield {name: LAST for name in names}
    for count in range(2, len(names) + 1):
        for chosen in itertools.combinations(names, count):
            same = rng.randrange(31)
            yield {name: same for name in chosen}


# States.

def with_any_marks(number, case):
    """The same case with other numbers for the marks of its registers: any byte but 0 is a mark."""
    def renumbered(taints):
        return [bytes(byte and MARKS[(number + n + i) % 4] for i, byte in enumerate(taint)) for n, taint in enumerate(taints)]

    case.state.taints, case.state.vector_taints = renumbered(case.state.taints), renumbered(case.state.vector_taints)
    return case


def any_address(rng, place, length):
    """Of an access of so many bytes. Mostly small, so that the lines stay short."""
    if place == 'small':
        return 4096 + rng.randrange(5000)
    if place == 'low':
        return rng.randrange(4)
    if place == 'high':
        return SPACE - length - rng.randrange(4)
    if place == 'top':
        return SPACE - length
    if place == 'middle':
        return rng.choice((1 << 31, 1 << 32, 1 << 63, 3 << 62)) - rng.randrange(2 * length + 1)
    return rng.getrandbits(64) % (SPACE - length)


def any_place(rng):
    return rng.choice(['small'] * 20 + ['low', 'high', 'top', 'middle', 'any'])


def whole(tainted):
    """The taint of a register of which every byte is marked, or none."""
    return ALL if tainted else NONE


def some_bytes(rng):
    """The taint of a register of which some bytes are marked: all, one, a half, or any."""
    kind = rng.randrange(6)
    if kind < 3:
        return (ALL, ALL[:4] + NONE[4:], NONE[:4] + ALL[4:])[kind]
    return one_byte(rng.randrange(8)) if kind < 5 else bytes(rng.getrandbits(1) for _ in range(8))


def one_byte(place, width=8):
    """The taint of a register of so many bytes of which this one alone is marked."""
    return bytes(i == place for i in range(width))


def some_vector_bytes(rng):
    """The taint of a vector register of which some bytes are marked: all, a half, one, or any."""
    kind = rng.randrange(6)
    if kind < 3:
        return (VECTOR_ALL, VECTOR_ALL[:8] + VECTOR_NONE[8:], VECTOR_NONE[:8] + VECTOR_ALL[8:])[kind]
    return one_byte(rng.randrange(16), 16) if kind < 5 else bytes(rng.getrandbits(1) for _ in range(16))


def fill_vectors(rng, state, random=(), often=4):
    """Gives every vector register another value, these any, and one in so many some marked bytes."""
    first = rng.randrange(256)
    state.vectors = [rng.getrandbits(128) if number in random
                     else int.from_bytes(bytes((first + 17 * number + i) % 256 for i in range(16)), 'little')
                     for number in range(32)]
    state.vector_taints = [some_vector_bytes(rng) if rng.randrange(often) == 0 else VECTOR_NONE for _ in range(32)]


def any_taint(rng, memory, at, length):
    """Taint bytes: often just one byte of an access at this place, or all but those of it, is tainted."""
    kind = rng.randrange(6)
    taint = bytearray(rng.choice(TAINTS) if kind == 0 and rng.getrandbits(1) else 0 for _ in range(memory))
    inside = range(max(0, at), min(memory, at + length))
    if kind in (1, 2, 3) and inside:
        taint[{1: inside[0], 2: inside[-1], 3: rng.choice(inside)}[kind]] = rng.choice(TAINTS)
    elif kind == 4:
        taint = bytearray(0 if i in inside else rng.choice(TAINTS) for i in range(memory))
    return taint


def lead_to(state, word, address):
    """Sets base or PC so that the access is at an address; a base that is its own index stays. Where it then is.

    SP as a base is a multiple of 16, so that the access may be up to 15 bytes lower.
    """
    family = MODEL.family_of(word)
    access, fields = access_of(word), fields_of(family, word)
    if family == LITERAL:
        state.pc = (address - access.offset) % SPACE
    elif access.index != access.base or access.index is None or access.index == LAST:
        now = MODEL.address_of(state, access, fields)
        state.registers[access.base] = (state.registers[access.base] + address - now) % SPACE
    if access.base == LAST:
        state.registers[LAST] -= state.registers[LAST] % 16
    return MODEL.address_of(state, access, fields)


def state_for(rng, word, address=None, before=None, after=None, readonly=None, pc=None):
    """A state on which an allocated word is done: its access at an address, with so many bytes about it.

    A base that is also the index leads where it will, so the address is only asked for.
    """
    access = access_of(word)
    length = access.length()
    registers, taints = [rng.getrandbits(64) for _ in range(32)], [whole(rng.randrange(8) == 0) for _ in range(32)]
    state = State(0, 0, 0, registers, taints, b'', b'')
    for number in access.targets if access.status is None else (*access.targets, access.status):
        state.taints[number] = whole(any(state.taints[number]) or rng.getrandbits(1) == 1)
    if access.vector:
        fill_vectors(rng, state, access.targets)
    state.pc = pc if pc is not None else 4 * rng.randrange(250, 1000)
    if address is None:
        address = any_address(rng, any_place(rng), length)
        if access.exclusive:
            address -= address % length
        elif access.family in (ORDERED, EXCLUSIVE):
            address += min(0, 16 - length - address % 16)
        if access.family == LITERAL:
            address -= address % 4
    address = lead_to(state, word, address)
    before = rng.randrange(3) if before is None else before
    after = rng.randrange(3) if after is None else after
    state.origin = max(0, address - before)
    end = min(SPACE, address + length + after)
    state.memory = bytearray(rng.getrandbits(8) for _ in range(max(0, end - state.origin)))
    state.taint = any_taint(rng, len(state.memory), address - state.origin, length)
    if readonly is None:
        readonly = rng.randrange(address - state.origin + 1 if access.store else len(state.memory) + 1)
    state.readonly, state.monitor = readonly, any_monitor(rng, address, access.width)
    untaint(state, access)
    show_words(state, (word,))
    return state


def any_monitor(rng, address, width):
    """Open, armed for an access, armed near it, or any numbers."""
    kind = rng.randrange(5)
    if kind == 0:
        return OPEN
    if kind <= 2:
        return address, width
    if kind == 3:
        return (address + rng.randrange(-8, 9)) % SPACE, rng.choice((1, 2, 4, 8))
    return rng.choice(((rng.getrandbits(64), rng.getrandbits(64)), (address, 0), (address, 16 * width), (address, SPACE - 1),
                       (rng.getrandbits(64), 0), (address, width + (1 << 32))))


def untaint(state, access):
    for number in (access.base, access.index):
        if number is not None:
            state.taints[number] = NONE
    if access.index == LAST and access.base != LAST:
        # SP may well be tainted where the index is the zero register.
        state.taints[LAST] = ALL


def show_words(state, words):
    """Where the window lies over the words, which a literal's may, it holds them, so that other emulators can do it."""
    for i, byte in enumerate(b''.join(word.to_bytes(4, 'little') for word in words)):
        at = (state.pc + i) % SPACE - state.origin
        if 0 <= at < len(state.memory):
            state.memory[at] = byte
