"""Cases of vector registers (02, CR 12, with the marks of CR 13), for the program `replay`.

Cases of one word each, as replay_steps.py, replay_edges.py and replay_marks.py have them for general registers, and runs that
copy between the two kinds. Every vector register holds another value, so that a wrong one shows.
"""
import itertools

from machine_model import (
    ALL, LAST, LITERAL, NONE, PAIR, PAIR_OFFSET, PAIR_POST, PAIR_PRE, POST, PRE, REGISTER, SPACE, UNSCALED, UNSIGNED, VECTOR_ALL,
    VECTOR_NONE, State, fields_of, word_of)
from replay_edges import FAR, OPTIONS, apart
from replay_exclusives import Scene
from replay_format import outcome_of
from replay_marks import Copies, marked_at, marked_state, place_of, word_with
from replay_runs import any_run
from replay_states import (
    MARKS, MODEL, TAINTS, WITH_VECTORS, access_of, any_immediate, any_word, equal_registers, fill_vectors, immediates,
    is_unpredictable, one_byte, registers_of, some_vector_bytes, state_for, vector_choices)
from replay_steps import bad_windows, on_stack, sized, spoiled, step

WITH_BASE = tuple(family for family in WITH_VECTORS if family != LITERAL)
# Done cases for each choice of an instruction.
EACH = {LITERAL: 12, PAIR: 4, REGISTER: 2, UNSCALED: 6, POST: 6, PRE: 6, UNSIGNED: 6}
# A window for the edges: longer than the longest access, 32 bytes.
LENGTH = 40
# size and opc of 16 bytes.
QUAD_STORE, QUAD_LOAD = {'vector': 1, 'size': 0, 'opc': 2}, {'vector': 1, 'size': 0, 'opc': 3}


def any_choice(rng, family):
    return rng.choice(vector_choices(family))


def loads(family):
    """The choices of a family that load."""
    return [choice for choice in vector_choices(family) if not access_of(word_of(family, **choice)).store]


def stores(family):
    return [choice for choice in vector_choices(family) if access_of(word_of(family, **choice)).store]


# Examples.

def examples():
    """Words on bytes 0 to 63 at 4096, of which two are marked, and what V0 and V1 hold with their marks, low byte first."""
    quad, marks = bytes(range(16, 32)).hex(), '0100000000000000' + '0000000000000001'
    next_quad, unmarked = bytes(range(32, 48)).hex(), '00' * 16
    return [
        # ldr b0, h0, s0, d0 and q0, [x1]
        (0x3d400020, 1, (quad[:2], marks[:2]), None), (0x7d400020, 2, (quad[:4], marks[:4]), None),
        (0xbd400020, 4, (quad[:8], marks[:8]), None), (0xfd400020, 8, (quad[:16], marks[:16]), None),
        (0x3dc00020, 16, (quad, marks), None),
        # ldr q0, [x2, #16]; ldp d0, d1, [x1]; ldp q0, q1, [x1]
        (0x3dc00440, 16, (quad, marks), None), (0x6d400420, 16, (quad[:16], marks[:16]), (quad[16:], marks[16:])),
        (0xad400420, 32, (quad, marks), (next_quad, unmarked)),
    ]


def example_cases(rng):
    for word, length, first, second in examples():
        registers = [0] * 32
        registers[1], registers[2] = 4112, 4096
        state = State(4096, 0, 65536, registers, [NONE] * 32, bytes(range(64)), bytes(i in (16, 31) for i in range(64)))
        fill_vectors(rng, state, (0, 1))
        case = step('examples of vectors', word, state)
        outcome = outcome_of(MODEL, case)
        assert (outcome.answer, outcome.code, outcome.address) == (0, length, 4112), hex(word)
        for number, found in enumerate((first, second)):
            value, taint = outcome.state.vectors[number], outcome.state.vector_taints[number]
            shown = value.to_bytes(16, 'little').hex(), taint.hex()
            assert found is None or shown == tuple(part.ljust(32, '0') for part in found), hex(word)
        yield case


# Steps that are done.

def done_cases(rng):
    """Every choice, with registers that are equal, 31 or any, and immediates at their edges."""
    for family in WITH_VECTORS:
        orders = {name: itertools.cycle(rng.sample(range(32), 32)) for name in registers_of(family)}
        equal = itertools.cycle([{}, {}, *equal_registers(rng, family)])
        edges = itertools.cycle([{'imm': imm} for imm in immediates(family)] or [{}])
        for choice, _ in itertools.product(vector_choices(family), range(EACH[family])):
            fields = {name: next(order) for name, order in orders.items()}
            word = word_of(family, **{**fields, **next(equal), **next(edges), **choice})
            if not is_unpredictable(word):
                yield step('done: vectors, ' + family, word, state_for(rng, word))


def collision_cases(rng):
    """A vector register of the base's number: writeback is done, and so is a pair store of one register twice."""
    for family, choice in itertools.product((POST, PRE), vector_choices(POST)):
        same = rng.randrange(31)
        word = word_of(family, **any_immediate(rng, family), **choice, rt=same, rn=same)
        yield step('vector with the number of a base', word, state_for(rng, word))
    for choice in vector_choices(PAIR):
        same, other = rng.sample(range(31), 2)
        if choice['mode'] in (PAIR_POST, PAIR_PRE):
            for rt, rt2 in ((same, other), (other, same)):
                word = word_of(PAIR, **any_immediate(rng, PAIR), **choice, rt=rt, rt2=rt2, rn=same)
                yield step('vector with the number of a base', word, state_for(rng, word))
        if not choice['load']:
            for rt in (same, LAST):
                word = word_of(PAIR, **any_immediate(rng, PAIR), **choice, rt=rt, rt2=rt, rn=other)
                yield step('pair store of one vector twice', word, state_for(rng, word))


# Words that are refused.

def undefined_words(rng):
    for family, size, opc in itertools.product((UNSCALED, POST, PRE, REGISTER, UNSIGNED), (1, 2, 3), (2, 3)):
        option = {'option': rng.choice(OPTIONS), 'scaled': rng.getrandbits(1)} if family == REGISTER else {}
        yield any_word(rng, family, {'vector': 1, 'size': size, 'opc': opc, **option})
    for choice, option in itertools.product(vector_choices(UNSIGNED), (0, 1, 4, 5)):
        yield any_word(rng, REGISTER, {**choice, 'option': option, 'scaled': rng.getrandbits(1)})
    for mode, load in itertools.product(range(4), range(2)):
        yield any_word(rng, PAIR, {'vector': 1, 'opc': 3, 'mode': mode, 'load': load})
    for imm in FAR:
        yield any_word(rng, LITERAL, {'vector': 1, 'opc': 3}, imm=imm)


def undefined_cases(rng):
    """Each on a state on which it would be done by who takes it for an instruction."""
    for word in undefined_words(rng):
        family = MODEL.family_of(word)
        fields = fields_of(family, word)
        # A literal of 16 bytes is the nearest that has none of the fields of a base.
        near = word ^ 1 << 30 if family == LITERAL else word_of(UNSIGNED, **QUAD_LOAD, rn=fields['rn'], rt=fields['rt'])
        state = state_for(rng, near, before=2, after=18)
        state.readonly = 0
        if 'rm' in fields:
            state.registers[fields['rm']] = rng.randrange(2)
        yield step('answer 3, vectors', word, state)


def unpredictable_cases(rng):
    """A pair load into one register twice, of every width and mode; 31, and the base's number too."""
    for choice in loads(PAIR):
        same, other = rng.sample(range(31), 2)
        for rt, rn in ((same, other), (LAST, other), (same, rng.choice((same, LAST)))):
            word = word_of(PAIR, **any_immediate(rng, PAIR), **choice, rt=rt, rt2=rt, rn=rn)
            yield step('answer 4, vectors', word, state_for(rng, word))


def foreign_words(rng):
    """Ordered words with bit 26 set, Arm's ordered forms of vectors, structures, and others that no family has."""
    for head, size in itertools.product((0x1d000000, 0x1d000800, 0x0c000000, 0x0d000000, 0x3c000800, 0x3c200000), range(4)):
        yield head | size << 30 | rng.getrandbits(2) << 22 | rng.getrandbits(10)


def any_words(rng):
    """Any word with bit 26 set of the families, and of those beside them, on a state that isn't made for it."""
    words = [word_of(family, vector=1) | rng.getrandbits(24) | rng.getrandbits(2) << 30 for family in WITH_VECTORS * 6]
    for word in (*words, *foreign_words(rng)):
        state = state_for(rng, 0x3dc00020, before=rng.randrange(8), after=rng.randrange(24))
        for number in rng.sample(range(32), 20):
            state.registers[number] = (state.origin + rng.randrange(-2, 10)) % SPACE
        yield step('any word of vectors', word, state)


# Windows.

def accesses(rng):
    """A load and a store of each length."""
    for choice in vector_choices(UNSIGNED):
        family = rng.choice((UNSCALED, POST, PRE, UNSIGNED))
        yield word_of(family, **any_immediate(rng, family), **choice, **apart(rng, family))
    for opc, load in itertools.product(range(3), range(2)):
        choice = {'vector': 1, 'opc': opc, 'load': load, 'mode': rng.randrange(4)}
        yield word_of(PAIR, **any_immediate(rng, PAIR), **choice, **apart(rng, PAIR))
    for choice in vector_choices(LITERAL):
        yield word_of(LITERAL, imm=rng.choice(FAR), **choice, **apart(rng, LITERAL))


def window_cases(rng):
    """The first and last places of a window at either end of the address space, and those outside it next to them."""
    for origin, word in itertools.product((0, SPACE - LENGTH), accesses(rng)):
        access = access_of(word)
        last, near = origin + LENGTH - access.length(), 4 if access.family == LITERAL else 1
        for address in (origin - near, origin, last, last + near):
            state = sized(rng, state_for(rng, word, address % SPACE), origin, LENGTH)
            state.readonly = rng.getrandbits(1)
            yield step('window at an edge, vectors', word, state)


def outside_cases(rng):
    """One byte outside, a half outside, and across the end of the address space."""
    for word in accesses(rng):
        access, at = access_of(word), 4096 + 4 * rng.randrange(1000)
        for before, after in ((rng.randrange(3), -1), (-1, rng.randrange(3))):
            yield step('one byte outside, vectors', word, state_for(rng, word, at, before, after, 0))
        if access.length() > 1:
            yield step('half outside, vectors', word, state_for(rng, word, at, 2, -access.length() // 2, 0))
        past = SPACE - (4 if access.family == LITERAL else rng.randrange(1, access.length() + 1))
        state = sized(rng, state_for(rng, word, past, 0, 0, 0), rng.choice((0, SPACE - 16)), 16)
        yield step('across the end of addresses, vectors', word, state)


def read_only_cases(rng):
    """r just before, in and behind an access, for stores and for the loads beside them."""
    for word in accesses(rng):
        access, at = access_of(word), 4096 + 4 * rng.randrange(1000)
        length = access.length()
        for readonly in sorted({2, 3, 2 + length // 2, 1 + length, 2 + length}) if access.store else [2 + length]:
            yield step('edge of 8, vectors', word, state_for(rng, word, at, 2, rng.randrange(3), readonly))


def stack_cases(rng):
    for family, residue in itertools.product(WITH_BASE, (0, 1, 4, 8, 12, 15)):
        word = any_word(rng, family, any_choice(rng, family), rn=LAST)
        yield step('SP as the base, vectors', word, on_stack(rng, word, 65536 + 16 * rng.randrange(1000) + residue))


def bad_cases(rng):
    """Answers 1 and 10, each with a word that would be done, and one that is refused."""
    for spoil in bad_windows():
        family = rng.choice(WITH_VECTORS)
        word = any_word(rng, family, any_choice(rng, family))
        yield step('answer 1, vectors', word, spoiled(state_for(rng, word), spoil))
    for room, places in ((0, 1), (1, 1), (2, 0), (1, 0), (5, 0), (0, 0)):
        family = rng.choice(WITH_VECTORS)
        word = any_word(rng, family, any_choice(rng, family))
        yield step('answer 10, vectors', word, state_for(rng, word), room, places)


# Marks of one byte.

def places_of(family, choice, length):
    """All places in so many bytes for one form of each family, and those at the ends for the others."""
    if family in (UNSIGNED, LITERAL) or family == PAIR and choice['mode'] == PAIR_OFFSET:
        return range(length)
    return sorted({0, length // 2 - 1, length // 2, length - 1} - {-1})


def some_choices(rng, family, chosen):
    """With an index, one option and S for each operation."""
    if family != REGISTER:
        return chosen
    groups = itertools.groupby(chosen, key=lambda choice: (choice['size'], choice['opc']))
    return [rng.choice(list(group)) for _, group in groups]


def load_cases(rng):
    """Each load with its bytes marked one at a time, and with marks on all bytes but its own."""
    marks = itertools.cycle(MARKS)
    for family in WITH_VECTORS:
        for choice in some_choices(rng, family, loads(family)):
            length = access_of(word_of(family, **choice)).length()
            for place in (None, *places_of(family, choice, length)):
                word = word_with(rng, family, choice)
                yield step('load of a marked byte, vectors', word, loaded_state(rng, word, place, next(marks)))


def loaded_state(rng, word, place, mark):
    """With a mark on this byte of the access alone, or on all but those of it; the targets were marked or not."""
    state, access = state_for(rng, word, before=2, after=2), access_of(word)
    at = place_of(state, word)
    inside = range(at, at + access.length())
    state.taint[:] = bytes(mark * (i not in inside if place is None else i == at + place) for i in range(len(state.taint)))
    for number in access.targets:
        state.vector_taints[number] = rng.choice((VECTOR_NONE, VECTOR_ALL, VECTOR_ALL, some_vector_bytes(rng)))
    return state


def store_cases(rng):
    """Each store with the bytes of its registers marked one at a time, those that it doesn't store too."""
    for family in WITH_BASE:
        for choice in some_choices(rng, family, stores(family)):
            access = access_of(word_of(family, **choice))
            ends = {0, access.width - 1, access.width % 16, 7, 8, 15}
            thorough = access.width >= 8 and (family == UNSIGNED or family == PAIR and choice['mode'] == PAIR_OFFSET)
            places = range(16) if thorough else sorted(ends if family == UNSIGNED else rng.sample(sorted(ends), 3))
            for k, place in itertools.product(range(len(access.targets)), places):
                word = word_with(rng, family, choice)
                yield step('store of a marked byte, vectors', word, stored_state(rng, word, k, place))


def stored_state(rng, word, k, place):
    """With a mark on this byte of the k-th register alone, over bytes of which all, some or none are marked."""
    access = access_of(word)
    state = state_for(rng, word, before=2, after=2, readonly=0)
    for number in access.targets:
        state.vector_taints[number] = VECTOR_NONE
    state.vector_taints[access.targets[k]] = one_byte(place, 16)
    taint = rng.choice(((0,), (0, 0, *TAINTS), TAINTS))
    state.taint[:] = bytes(rng.choice(taint) for _ in state.taint)
    return state


def address_cases(rng):
    """Marked bytes of a base and of an index, and vector registers of their numbers, which are no part of an address."""
    for family, place in itertools.product(WITH_BASE, (0, 3, 4, 7)):
        word = any_word(rng, family, any_choice(rng, family), **({'rn': LAST} if place == 3 else {}))
        yield step('marked byte of a base, vectors', word, marked_state(rng, word, access_of(word).base, one_byte(place)))
    for option, scaled, half in itertools.product(OPTIONS, range(2), range(2)):
        choice = rng.choice(vector_choices(UNSIGNED))
        word = word_with(rng, REGISTER, {**choice, 'option': option, 'scaled': scaled})
        taint = rng.choice((one_byte(4 * half + rng.randrange(4)), ALL[4:] + NONE[4:] if half == 0 else NONE[4:] + ALL[4:]))
        yield step('marked bytes of an index, vectors', word, marked_state(rng, word, access_of(word).index, taint))
    for family, _ in itertools.product(WITH_VECTORS, range(2)):
        word = any_word(rng, family, any_choice(rng, family))
        state = state_for(rng, word)
        state.vector_taints = [VECTOR_ALL] * 32
        yield step('marks of no address', word, state)


# Runs that copy between the two kinds.

class VectorCopies(Copies):
    """Copies with values and marks in the vector registers."""

    def __init__(self, rng, taint):
        super().__init__(rng, taint)
        fill_vectors(rng, self.state)

    def quad(self, opc, rt, offset, rn=None):
        """A load or store of 16 bytes by the base, or by another."""
        return self.sized(0, opc + 2, rt, offset, rn)

    def sized(self, size, opc, rt, offset, rn=None):
        return word_of(UNSCALED, vector=1, size=size, opc=opc, imm=offset, rn=self.base if rn is None else rn, rt=rt)


def spills(rng):
    """16 bytes are spilled and loaded again by halves and bytes: one that isn't marked is an index, and the marked one isn't."""
    for place in range(16):
        copies = VectorCopies(rng, marked_at(rng, place))
        low, high, marked, other, last = copies.others[:5]
        vector, again = rng.sample(range(32), 2)
        words = [copies.quad(1, vector, 0), copies.quad(0, vector, 0, LAST), copies.at(3, 1, low, 0, LAST),
                 copies.at(3, 1, high, 8, LAST), copies.at(3, 0, high, 24), copies.at(3, 0, low, 16), copies.quad(1, again, 16),
                 copies.at(0, 1, marked, place, LAST), copies.at(0, 1, other, (place + 1) % 16, LAST)]
        words += [word_of(REGISTER, vector=1, opc=1, option=3, rn=copies.base, rm=index, rt=last) for index in (other, marked)]
        yield copies.case('spill and reload of a vector', *words)


def pair_spills(rng):
    """General registers with one marked byte are spilled, loaded as vectors, and stored by other widths."""
    for place in range(16):
        copies = VectorCopies(rng, bytes(48))
        first, second, third, fourth = copies.others[:4]
        v, w, *parts = rng.sample(range(32), 6)
        for number, half in ((first, 0), (second, 8)):
            copies.state.taints[number] = one_byte(place - half)
        words = [word_of(PAIR, opc=2, mode=PAIR_OFFSET, load=0, rn=copies.base, rt=first, rt2=second),
                 word_of(PAIR, vector=1, opc=rng.randrange(3), mode=PAIR_OFFSET, load=1, rn=copies.base, rt=v, rt2=w),
                 word_of(PAIR, vector=1, opc=2, mode=PAIR_PRE, load=0, imm=-2, rn=LAST, rt=w, rt2=v),
                 word_of(PAIR, opc=2, mode=PAIR_OFFSET, load=1, rn=LAST, rt=third, rt2=fourth)]
        for part in parts:
            size = rng.randrange(4)
            words += [copies.sized(size, 1, part, rng.randrange(24), LAST), copies.sized(size, 0, part, rng.randrange(24))]
        yield copies.case('spill and reload of general registers', *words)


def any_copies(rng):
    """Loads and stores of every width and both kinds among a few registers and bytes, of which a third are marked."""
    for _ in range(70):
        copies = VectorCopies(rng, marked_at(rng, *(place for place in range(48) if rng.randrange(3) == 0)))
        words = []
        for _ in range(rng.randrange(5, 15)):
            number, offset = rng.choice((*copies.others[:3], LAST)), rng.randrange(24)
            if rng.randrange(3):
                choice = any_choice(rng, UNSIGNED)
                words.append(copies.sized(choice['size'], choice['opc'], number, offset))
            else:
                words.append(copies.at(rng.randrange(4), rng.randrange(2), number, offset))
        yield copies.case('copies of vectors', *words)


def monitor_cases(rng):
    """A load or store of a vector at the very place leaves the monitor as it is."""
    for size, choice in itertools.product(range(4), (QUAD_STORE, QUAD_LOAD, {'vector': 1, 'size': 3, 'opc': 0})):
        scene = Scene(rng, size)
        fill_vectors(rng, scene.state)
        word = word_of(UNSIGNED, **choice, rn=scene.base, rt=rng.randrange(32))
        yield scene.case('vector between', scene.load(), word, scene.store(), status=0)


def runs(rng):
    """Runs of any words of both kinds, to the end and refused: what the refused word would change stays."""
    for _ in range(90):
        yield any_run(rng, 'run with vectors', rng.randrange(2, 14), extra=rng.choice((0, 0, 0, 1, 3)), vectors=True)
    for i in range(90):
        yield any_run(rng, 'refused with vectors', rng.randrange(0, 12), 2 + i % 7, rng.randrange(3), vectors=True)
    yield any_run(rng, 'long run with vectors', 200, vectors=True)
    for kind, group in ((unpredictable_cases, 'answer 4 behind vectors'), (undefined_cases, 'answer 3 behind vectors')):
        for case in rng.sample(list(kind(rng)), 8):
            before = any_word(rng, UNSIGNED, dict(QUAD_LOAD), imm=0, rn=7)
            case.state.registers[7], case.state.taints[7] = case.state.origin, NONE
            yield case._replace(group=group, words=(before, *case.words), room=4, places=2)


def all_vectors(rng):
    cases = []
    for group in (example_cases, done_cases, collision_cases, undefined_cases, unpredictable_cases, any_words, window_cases,
                  outside_cases, read_only_cases, stack_cases, bad_cases, monitor_cases, runs):
        cases += group(rng)
    return cases


def all_vector_marks(rng):
    """Those that are made for marks."""
    cases = []
    for group in (load_cases, store_cases, address_cases, spills, pair_spills, any_copies):
        cases += group(rng)
    return cases
