"""Cases of one word each at the edges of a sign and of a window, for the program `replay`.

A definition that takes a sign one too early or too late, or forgets a window's first byte, agrees with the right one
nearly everywhere. So each edge is met here: an index about 2^31, a loaded value about the sign of every width, and
windows at both ends of the address space and one byte from them, with one byte read-only or none.
"""
import itertools

from machine_model import (
    EXCLUSIVE, LITERAL, ORDERED, PAIR, POST, PRE, REGISTER, SPACE, UNSCALED, UNSIGNED, fields_of, word_of)
from replay_states import MODEL, access_of, any_immediate, choices, lead_to, registers_of, sized_choices, state_for
from replay_steps import sized, step

OPTIONS = (2, 3, 6, 7)
# The low half of an index, and what stands above it.
LOW_HALVES = (0x7fffffff, 0x80000000, 0xffffffff)
HIGH_HALVES = (1, 0x7fffffff, 0x80000000, 0xffffffff)
# The bits that hold the sign of 1, 2, 4 and 8 bytes.
SIGN_BITS = (7, 15, 31, 63)
# Of a literal, so that the word lies outside the window.
FAR = (1000, -1000, (1 << 18) - 1, -(1 << 18))
LENGTH = 24


def apart(rng, family):
    """Registers that differ, none of them 31, so that every value shows and the base can be led anywhere."""
    return dict(zip(registers_of(family), rng.sample(range(31), 4)))


def index_cases(rng):
    """Every option and S with each index, at each size, its operations in turn."""
    operations = {size: itertools.cycle([choice for choice in sized_choices() if choice['size'] == size])
                  for size in range(4)}
    above = itertools.cycle(HIGH_HALVES)
    for option, scaled, low, size in itertools.product(OPTIONS, range(2), LOW_HALVES, range(4)):
        for high in (0, next(above)):
            word = word_of(REGISTER, **next(operations[size]), option=option, scaled=scaled, **apart(rng, REGISTER))
            state = state_for(rng, word)
            yield step('index at an edge', word, with_index(state, word, high << 32 | low))


def with_index(state, word, value):
    """The same access by another index: the base makes up for it."""
    access, fields = access_of(word), fields_of(REGISTER, word)
    address = MODEL.address_of(state, access, fields)
    state.registers[access.index] = value
    lead_to(state, word, address)
    return state


def edges_of(width):
    """The values next to a sign that so many bytes hold."""
    return [value for bit in SIGN_BITS if bit < 8 * width for value in ((1 << bit) - 1, 1 << bit)]


def loading_choices(rng, family):
    if family == REGISTER:
        # Its options and S are index_cases'.
        return [{**choice, 'option': rng.choice(OPTIONS), 'scaled': rng.getrandbits(1)}
                for choice in sized_choices() if choice['opc']]
    return [choice for choice in choices(family) if choice.get('load', choice.get('opc'))]


def load_cases(rng):
    """Every load of each value that is next to a sign; a pair loads two."""
    for family in (PAIR, ORDERED, UNSCALED, POST, PRE, REGISTER, UNSIGNED, EXCLUSIVE):
        for choice in loading_choices(rng, family):
            yield from loads_of(rng, family, lambda: any_immediate(rng, family), choice)
    for choice in choices(LITERAL):
        yield from loads_of(rng, LITERAL, lambda: {'imm': rng.choice(FAR)}, choice)


def loads_of(rng, family, immediate, choice):
    width = access_of(word_of(family, **choice)).width
    edges = edges_of(width)
    for i in range(len(edges)):
        word = word_of(family, **{**immediate(), **apart(rng, family), **choice})
        state = state_for(rng, word)
        access = access_of(word)
        at = MODEL.address_of(state, access, fields_of(family, word)) - state.origin
        for k in range(len(access.targets)):
            value = edges[(i + k) % len(edges)]
            state.memory[at + k * width:at + (k + 1) * width] = value.to_bytes(width, 'little')
        yield step('value at an edge', word, state)


def accesses(rng):
    """A load and a store of each length."""
    for size, opc in itertools.product(range(4), range(2)):
        family = rng.choice((UNSCALED, POST, PRE, UNSIGNED))
        yield word_of(family, size=size, opc=opc, **any_immediate(rng, family), **apart(rng, family))
    for opc, load in itertools.product((0, 2), range(2)):
        yield word_of(PAIR, opc=opc, load=load, mode=rng.randrange(4), **any_immediate(rng, PAIR), **apart(rng, PAIR))
    for opc in range(3):
        yield word_of(LITERAL, opc=opc, imm=rng.choice(FAR), **apart(rng, LITERAL))


def window_cases(rng):
    """The first and last places in a window and those next to them, with r 1, and for a store with r 0 too."""
    for origin in (0, 1, SPACE - LENGTH - 1, SPACE - LENGTH):
        for word in accesses(rng):
            access = access_of(word)
            last = origin + LENGTH - access.length()
            for address, readonly in itertools.product((origin - 1, origin, origin + 1, last, last + 1), range(2)):
                if access.family == LITERAL and address % 4 or not readonly and not access.store:
                    continue
                state = sized(rng, state_for(rng, word, address % SPACE), origin, LENGTH)
                state.readonly = readonly
                yield step('window at an edge', word, state)


def all_edges(rng):
    return [*index_cases(rng), *load_cases(rng), *window_cases(rng)]
