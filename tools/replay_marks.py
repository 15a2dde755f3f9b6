"""Cases of marks by byte (02, CR 13), for the program `replay`.

Nearly every case has one marked byte: of the memory that a load reads, or of a register that is stored or that an address is
made of. What is marked elsewhere is there to show where it is left, or taken, though it should not be.
"""
import itertools

from machine_model import (
    ALL, EXCLUSIVE, LAST, LITERAL, NONE, ORDERED, PAIR, PAIR_OFFSET, PAIR_PRE, POST, PRE, REGISTER, UNSCALED, UNSIGNED, State,
    fields_of, word_of)
from replay_edges import FAR, OPTIONS, apart, loading_choices
from replay_format import Case
from replay_states import (
    EXCLUSIVES, MARKS, MODEL, TAINTS, WITH_PREFETCH, access_of, any_immediate, any_word, choices, exclusive_choice, one_byte,
    prefetch_word, sized_choices, some_bytes, state_for)
from replay_steps import step

# The families whose words share one load and store with UNSIGNED: they have fewer cases.
ALIKE = (ORDERED, UNSCALED, POST, PRE, REGISTER)
STXR, LDXR = EXCLUSIVES[0], EXCLUSIVES[2]


def word_with(rng, family, choice):
    imm = {'imm': rng.choice(FAR)} if family == LITERAL else any_immediate(rng, family)
    return word_of(family, **{**imm, **apart(rng, family), **choice})


def place_of(state, word):
    """Where in memory a word's access is."""
    access = access_of(word)
    return MODEL.address_of(state, access, fields_of(access.family, word)) - state.origin


def is_thorough(family, choice):
    """Whether a choice is tried with every byte, and not only with those at the ends."""
    if family == PAIR:
        return choice['mode'] == PAIR_OFFSET
    if family == EXCLUSIVE:
        return (choice['o2'], choice['load'], choice['o0']) in (STXR, LDXR)
    return family not in ALIKE


# Loads.

def load_cases(rng):
    """Each load with its bytes marked one at a time, and with marks on all bytes but its own."""
    marks = itertools.cycle(MARKS)
    for family in (UNSIGNED, LITERAL, PAIR, EXCLUSIVE, *ALIKE):
        for choice in loading_choices(rng, family):
            width, length = access_of(word_of(family, **choice)).width, access_of(word_of(family, **choice)).length()
            places = range(length) if is_thorough(family, choice) else sorted({0, width - 1, length - width, length - 1})
            for place in (None, *places):
                word = word_with(rng, family, choice)
                yield step('load of a marked byte', word, loaded_state(rng, word, place, next(marks)))


def loaded_state(rng, word, place, mark):
    """With a mark on this byte of the access alone, or on all but those of it."""
    state, access = state_for(rng, word, before=2, after=2), access_of(word)
    at = place_of(state, word)
    if place is None:
        state.taint[:] = bytes(0 if i in range(at, at + access.length()) else mark for i in range(len(state.taint)))
    else:
        state.taint[:] = bytes(mark if i == at + place else 0 for i in range(len(state.taint)))
        state.memory[at + place] = rng.choice((0, 127, 128, 255))
    for number in access.targets:
        state.taints[number] = rng.choice((NONE, ALL)) if place is None else rng.choice((NONE, ALL, some_bytes(rng)))
    return state


# Stores.

def store_cases(rng):
    """Each store with the bytes of its registers marked one at a time, those that it doesn't store too."""
    for family in (UNSIGNED, PAIR, EXCLUSIVE, *ALIKE):
        for choice in storing_choices(rng, family):
            access = access_of(word_of(family, **choice))
            places = range(8) if is_thorough(family, choice) else sorted({0, access.width - 1, access.width % 8})
            for k, place in itertools.product(range(len(access.targets)), places):
                word = word_with(rng, family, choice)
                yield step('store of a marked byte', word, stored_state(rng, word, k, place))
    for family in (UNSIGNED, PAIR, EXCLUSIVE, UNSCALED):
        # The zero register has no marks, whatever SP has.
        choice = rng.choice(storing_choices(rng, family))
        word = word_of(family, **{**any_immediate(rng, family), **apart(rng, family), **choice, 'rt': LAST})
        state = stored_state(rng, word, 0, 0)
        state.taints[LAST] = rng.choice((ALL, one_byte(0)))
        yield step('store of no mark', word, state)


def storing_choices(rng, family):
    if family == REGISTER:
        return [{**choice, 'option': rng.choice(OPTIONS), 'scaled': rng.getrandbits(1)}
                for choice in sized_choices() if not choice['opc']]
    return [choice for choice in choices(family) if not choice.get('load', choice.get('opc'))]


def stored_state(rng, word, k, place):
    """With a mark on this byte of the k-th register alone, over bytes of which all, some or none are marked."""
    access = access_of(word)
    state = state_for(rng, word, before=2, after=2, readonly=0)
    for number in access.targets:
        state.taints[number] = NONE
    if access.targets[k] != LAST:
        state.taints[access.targets[k]] = one_byte(place)
    taint = rng.choice(((0,), (0, 0, *TAINTS), TAINTS))
    state.taint[:] = bytes(rng.choice(taint) for _ in state.taint)
    if access.status is not None:
        state.monitor = state.origin + place_of(state, word), access.width
        state.taints[access.status] = some_bytes(rng)
    return state


# Addresses.

def base_cases(rng):
    """Each byte of a base marked alone, in every family that has one, and of SP."""
    for family in (PAIR, ORDERED, UNSCALED, POST, PRE, REGISTER, UNSIGNED, EXCLUSIVE):
        for place in range(8):
            word = any_word(rng, family, **({'rn': LAST} if (place + len(family)) % 6 == 0 else {}))
            yield step('marked byte of a base', word, marked_state(rng, word, access_of(word).base, one_byte(place)))


def index_cases(rng):
    """Each byte of an index marked alone, and each half, under every option and S."""
    half = len(ALL) // 2
    halves = (ALL[:half] + NONE[half:], NONE[:half] + ALL[half:])
    sizes = itertools.cycle(range(4))
    for option, scaled in itertools.product(OPTIONS, range(2)):
        chosen = [(one_byte(place), next(sizes)) for place in range(8)] + list(itertools.product(halves, range(4)))
        for taint, size in chosen:
            choice = rng.choice([choice for choice in sized_choices() if choice['size'] == size])
            word = word_with(rng, REGISTER, {**choice, 'option': option, 'scaled': scaled})
            yield step('marked bytes of an index', word, marked_state(rng, word, access_of(word).index, taint))
        upper = marked_word(rng, option, scaled, rm=LAST)
        yield step('marked SP, index of zero', upper, marked_state(rng, upper, LAST, one_byte(rng.randrange(8))))
        both = marked_word(rng, option, scaled, rn=5, rm=5)
        yield step('marked byte of base and index', both, marked_state(rng, both, 5, one_byte(rng.randrange(4, 8))))


def marked_word(rng, option, scaled, **registers):
    choice = rng.choice(sized_choices())
    return word_of(REGISTER, **{**apart(rng, REGISTER), **choice, 'option': option, 'scaled': scaled, **registers})


def marked_state(rng, word, number, taint):
    state = state_for(rng, word)
    state.taints[number] = taint
    return state


def order_cases(rng):
    """A half of an index marked where the access is outside the window or read-only, and a prefetch by marked bytes."""
    for option, upper, outside in itertools.product(OPTIONS, range(2), range(2)):
        word = word_with(rng, REGISTER, {'size': 3, 'opc': 0, 'option': option, 'scaled': rng.getrandbits(1)})
        taint = NONE[:4] + ALL[4:] if upper else one_byte(rng.randrange(4))
        state = marked_state(rng, word, access_of(word).index, taint)
        if outside:
            state.memory, state.taint, state.readonly = state.memory[:4], state.taint[:4], 0
        else:
            state.readonly = len(state.memory)
        yield step('marked bytes before a window', word, state)
    for family, place in itertools.product(WITH_PREFETCH, (0, 3, 4, 7)):
        word = prefetch_word(rng, family)
        access = access_of(word)
        yield step('prefetch by marked bytes', word, marked_state(
            rng, word, access.base if access.index is None else access.index, one_byte(place)))


# The status of a store-exclusive.

def status_cases(rng):
    """Each byte of a status register marked alone, with a store that passes and one that fails."""
    for place, passes in itertools.product(range(8), range(2)):
        choice = exclusive_choice(rng.randrange(4), *rng.choice(EXCLUSIVES[:2]))
        word = word_with(rng, EXCLUSIVE, choice)
        state = stored_state(rng, word, 0, rng.randrange(8))
        if not passes:
            state.monitor = state.monitor[0], 0
        state.taints[access_of(word).status] = one_byte(place)
        yield step('marked byte of a status', word, state)
        state = state.copy()
        state.taints[LAST] = one_byte(place)
        yield step('marked SP, no status', word & ~(31 << 16) | LAST << 16, state)


# Runs that copy.

class Copies:
    """A window of 48 bytes with SP in its middle, a base at its start, and other registers to copy by."""

    def __init__(self, rng, taint):
        self.rng = rng
        self.base, self.index, *self.others = rng.sample(range(31), 14)
        origin = 4096 + 16 * rng.randrange(200)
        registers = [rng.getrandbits(64) for _ in range(32)]
        registers[self.base], registers[LAST] = origin, origin + 32
        taints = [some_bytes(rng) if rng.getrandbits(1) else NONE for _ in range(32)]
        taints[self.base] = taints[LAST] = NONE
        self.state = State(origin, 0, 4 * rng.randrange(250, 400), registers, taints, bytes(range(48)), taint)

    def at(self, size, opc, rt, offset, rn=None):
        """A load or store of this size and opc by the base, or by another."""
        return word_of(UNSCALED, size=size, opc=opc, imm=offset, rn=self.base if rn is None else rn, rt=rt)

    def case(self, group, *words):
        return Case(group, words, self.state, 2 * len(words), len(words))


def marked_at(rng, *places):
    """The taint of 48 bytes of which these are marked."""
    return bytes(rng.choice(TAINTS) if i in places else 0 for i in range(48))


def spills(rng):
    """A doubleword is spilled and loaded again byte by byte: one that isn't marked is an index, and the marked one isn't."""
    for place in range(8):
        copies = Copies(rng, marked_at(rng, place))
        wide, *parts, last = copies.others[:10]
        words = [copies.at(3, 1, wide, 0), copies.at(3, 0, wide, 0, LAST)]
        words += [copies.at(0, 1, part, i, LAST) for i, part in enumerate(parts)]
        words += [word_of(REGISTER, opc=1, option=option, rn=copies.base, rm=parts[at], rt=last)
                  for option, at in ((2, (place + 1) % 8), (3, (place + 7) % 8), (7, place))]
        yield copies.case('spill and reload', *words)


def pair_spills(rng):
    """A pair is spilled and loaded again with its registers exchanged, and then signed in parts."""
    for place in range(16):
        copies = Copies(rng, marked_at(rng, place))
        first, second, third, fourth, *parts = copies.others
        words = [word_of(PAIR, opc=2, mode=PAIR_OFFSET, load=1, rn=copies.base, rt=first, rt2=second),
                 word_of(PAIR, opc=2, mode=PAIR_PRE, load=0, imm=-2, rn=LAST, rt=second, rt2=first),
                 word_of(PAIR, opc=1, mode=PAIR_OFFSET, load=1, imm=rng.choice((0, 1, 2)), rn=LAST, rt=third, rt2=fourth)]
        for part in parts:
            size, opc = rng.choice(((0, 2), (0, 3), (1, 2), (1, 3), (2, 2), (2, 1)))
            words.append(copies.at(size, opc, part, rng.randrange(0, 16 >> size) << size, LAST))
        yield copies.case('spill and reload of a pair', *words)


def any_copies(rng):
    """Loads and stores of every size among a few registers and bytes, of which a third are marked."""
    for _ in range(90):
        copies = Copies(rng, marked_at(rng, *(place for place in range(48) if rng.randrange(3) == 0)))
        words = []
        for _ in range(rng.randrange(5, 15)):
            choice = rng.choice(sized_choices())
            words.append(copies.at(choice['size'], choice['opc'], rng.choice((*copies.others[:3], LAST)), rng.randrange(24)))
        yield copies.case('copies', *words)


def locked_copies(rng):
    """A doubleword with one marked byte, or a part of it, is loaded and stored by exclusives."""
    for size, _ in itertools.product(range(4), range(5)):
        copies = Copies(rng, marked_at(rng, rng.randrange(1 << size), 40))
        data, status = copies.others[:2]
        words = [word_of(EXCLUSIVE, **exclusive_choice(size, *LDXR), rn=copies.base, rt=data),
                 word_of(EXCLUSIVE, **exclusive_choice(size, *STXR), rn=copies.base, rt=data, rs=status),
                 word_of(EXCLUSIVE, **exclusive_choice(size, *EXCLUSIVES[4]), rn=LAST, rt=data),
                 word_of(EXCLUSIVE, **exclusive_choice(3, *EXCLUSIVES[5]), rn=LAST, rt=status),
                 word_of(EXCLUSIVE, **exclusive_choice(size, *STXR), rn=copies.base, rt=status, rs=data)]
        yield copies.case('copies by exclusives', *words)


def all_marks(rng):
    cases = []
    for group in (load_cases, store_cases, base_cases, index_cases, order_cases, status_cases, spills, pair_spills,
                  any_copies, locked_copies):
        cases += group(rng)
    return cases
