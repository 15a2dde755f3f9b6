"""Cases of 02's ninth family and its monitor, for the program `replay`.

A scene has a window of 64 bytes about a place that is a multiple of 16, and registers of its own for each role. Its words
take and lose the lock that a monitor is, or are refused while it is held.
"""
import itertools

from machine_model import (
    ALL, EXCLUSIVE, LAST, NONE, OPEN, ORDERED, PAIR, POST, SPACE, UNSCALED, UNSIGNED, State, word_of)
from replay_format import Case, outcome_of
from replay_states import (
    EXCLUSIVES, MODEL, TAINTS, any_word, choices, exclusive_choice, is_unpredictable, state_for, whole)
from replay_steps import bad_windows, sized, spoiled, step, undefined_exclusives, unpredictable_exclusives

SIZES = range(4)
REFUSED_ELSEWHERE = (0x91000000, 0xc87f0820, 0xc8df7c20, 0xf8bfc020, 0xc8a07c20)


class Scene:
    """Bases at the place and 16 bytes behind it, data, a register to load into, and two for a status."""

    def __init__(self, rng, size):
        self.rng, self.size, self.width = rng, size, 1 << size
        self.base, self.other, self.data, self.target, self.status, self.again = rng.sample(range(31), 6)
        self.place = 4096 + 16 * rng.randrange(200)
        registers = [rng.getrandbits(64) for _ in range(32)]
        registers[self.base], registers[self.other] = self.place, self.place + 16
        registers[LAST] = self.place + 32
        taints = [whole(rng.getrandbits(1)) for _ in range(32)]
        for number in (self.base, self.other, LAST):
            taints[number] = NONE
        memory = [rng.getrandbits(8) for _ in range(64)]
        taint = [rng.choice(TAINTS) if rng.getrandbits(1) else 0 for _ in range(64)]
        self.state = State(self.place - 16, 0, 4 * rng.randrange(250, 400), registers, taints, memory, taint,
                           (rng.getrandbits(64), rng.choice((0, 1, 2, 4, 8))))

    def armed(self):
        """With the monitor at the place."""
        self.state.monitor = self.place, self.width
        return self

    def word(self, kind, size=None, **registers):
        """One of EXCLUSIVES with these registers, of the scene's size if none is given."""
        choice = exclusive_choice(self.size if size is None else size, *kind)
        return word_of(EXCLUSIVE, **{'rn': self.base, **registers, **choice})

    def load(self, size=None, **registers):
        return self.word((0, 1, self.rng.getrandbits(1)), size, **{'rt': self.target, **registers})

    def store(self, size=None, **registers):
        return self.word((0, 0, self.rng.getrandbits(1)), size, **{'rs': self.status, 'rt': self.data, **registers})

    def case(self, group, *words, status=None):
        """The words, and the status of the last one where it has to be this."""
        case = Case(group, words, self.state.copy(), 2 * len(words), len(words) + self.rng.choice((0, 0, 1, 4)))
        outcome = outcome_of(MODEL, case)
        assert status is None or (outcome.steps, outcome.statuses[len(words) - 1]) == (len(words), status), group
        return case


def scenes(rng, times=1):
    for size, _ in itertools.product(SIZES, range(times)):
        yield Scene(rng, size)


# Words.

def register_cases(rng):
    """Each form with registers 0, 30 and 31 in each place."""
    for choice in choices(EXCLUSIVE):
        places = (0, 30, 31)
        for rt, rn, rs in itertools.product(places, places, places if 'rs' not in choice else (LAST,)):
            word = word_of(EXCLUSIVE, **{'rs': rs, **choice, 'rt': rt, 'rn': rn})
            if not is_unpredictable(word):
                yield step('register at an edge', word, state_for(rng, word))


# The lock.

def taken_cases(rng):
    for scene in scenes(rng, 6):
        yield scene.case('taken', scene.load(), scene.store(), status=0)
    for scene in scenes(rng, 2):
        yield scene.case('taken and given back', scene.load(), scene.store(), scene.word((1, 0, 1), rt=LAST), status=0)
        yield scene.case('taken by an armed monitor', scene.load(rt=LAST), scene.store(), status=0)
    for scene in scenes(rng):
        yield scene.case('taken twice', scene.load(), scene.store(), scene.load(), scene.store(rs=scene.again), status=0)
        yield scene.case('data is the base', scene.load(), scene.store(rt=scene.base), status=0)
        yield scene.case('target is the base', scene.load(rt=scene.base), scene.load(rn=scene.other, rt=scene.again))
        yield scene.case('by SP', scene.load(rn=LAST), scene.store(rn=LAST), status=0)
        yield scene.case('zero stored', scene.load(), scene.store(rt=LAST), status=0)


def lost_cases(rng):
    for held, size in itertools.permutations(SIZES, 2):
        scene = Scene(rng, held)
        if rng.getrandbits(1):
            # Bytes that a comparison of values would not tell apart.
            scene.state.memory[16:24] = bytes(8)
        yield scene.case('lost by another size', scene.load(), scene.store(size), scene.store(rs=scene.again), status=1)
    for scene in scenes(rng, 3):
        yield scene.case('lost by another address', scene.load(), scene.store(rn=scene.other), status=1)
        yield scene.case('lost by an address next to it', scene.load(), next_to(scene), scene.store(), status=1)
        yield scene.case('lost by a second load', scene.load(), scene.load(rn=scene.other), scene.store(), status=1)
        yield scene.case('taken at the second load', scene.load(), scene.load(rn=scene.other),
                         scene.store(rn=scene.other), status=0)
        yield scene.case('lost by the first store', scene.load(), scene.store(), scene.store(rs=scene.again), status=1)
        yield scene.case('taken again by another size', scene.load(3), scene.load(), scene.store(), status=0)


def next_to(scene):
    """A store-exclusive by a second base, one access before or behind the place."""
    scene.state.registers[scene.other] = scene.place + scene.rng.choice((-1, 1)) * scene.width
    return scene.store(rn=scene.other)


def given_cases(rng):
    """Monitors as they are handed in: open, at the place, and any numbers."""
    for size in SIZES:
        width = 1 << size
        for address, held in ((0, 0), (0, width), (None, 0), (None, width), (None, width ^ 3), (None, 2 * width),
                              (None, width + (1 << 32)), (None, width + (1 << 8)), (None, SPACE - 1), (None, SPACE - width),
                              (1, width), (-1, width), (1 << 32, width), (1 << 63, width), (width, width), (-width, width)):
            scene = Scene(rng, size)
            at = 0 if (address, held) == (0, 0) else (scene.place + (address or 0)) % SPACE
            scene.state.monitor = at, held
            passes = scene.state.monitor == (scene.place, width)
            yield scene.case('monitor handed in', scene.store(), status=0 if passes else 1)
        for monitor in ((0, SPACE - 1), (SPACE - 1, 0), (SPACE - 1, SPACE - 1), (rng.getrandbits(64), rng.getrandbits(64))):
            scene = Scene(rng, size)
            scene.state.monitor = monitor
            # An ordinary word leaves any numbers, and an exclusive replaces them.
            yield scene.case('any monitor left', word_of(UNSIGNED, size=size, opc=1, rn=scene.base, rt=scene.target))
            yield scene.case('any monitor replaced', scene.load())
            yield scene.case('any monitor lost', scene.store(), status=1)


def between(scene):
    """Words that leave a monitor alone, at the place too."""
    base = {'rn': scene.base, 'rt': scene.data}
    width = scene.size
    yield word_of(UNSIGNED, size=width, opc=0, **base)
    yield word_of(UNSCALED, size=0, opc=0, imm=0, **base)
    yield word_of(UNSCALED, size=3, opc=0, imm=0, **base)
    yield word_of(UNSIGNED, size=width, opc=1, rn=scene.base, rt=scene.target)
    yield word_of(ORDERED, size=width, opc=0, imm=0, **base)
    yield word_of(PAIR, opc=2, mode=2, load=0, imm=0, rt2=scene.other, **base)
    yield word_of(POST, size=width, opc=0, imm=0, **base)
    yield word_of(UNSIGNED, size=3, opc=2, rn=scene.base, rt=0)
    # The bytes that were loaded, stored again, and stores elsewhere.
    yield word_of(UNSIGNED, size=width, opc=0, rn=scene.base, rt=scene.target)
    yield word_of(UNSIGNED, size=width, opc=0, rn=scene.other, rt=scene.data)
    yield word_of(UNSCALED, size=width, opc=0, imm=-8, **base)
    yield scene.word((1, 0, 1), rt=scene.target)
    yield scene.word((1, 0, 1), rt=scene.data, rn=scene.other)
    yield scene.word((1, 1, 1), rt=scene.again)
    yield scene.word((1, 0, 1), rt=scene.data)
    yield scene.word((1, 0, 1), 3, rt=scene.data)
    yield scene.word((1, 1, 1), 0, rt=scene.target, rn=scene.other)


def kept_cases(rng):
    """Everything but exclusives leaves the monitor as it is, armed or open."""
    for size in SIZES:
        for i in range(len(list(between(Scene(rng, size))))):
            scene = Scene(rng, size)
            word = list(between(scene))[i]
            yield scene.case('kept between', scene.load(), word, scene.store(), status=0)
            scene = Scene(rng, size)
            scene.state.monitor = rng.choice((OPEN, (scene.place, 0), (scene.place, scene.width)))
            yield scene.case('kept alone', list(between(scene))[i])


def taint_cases(rng):
    """Data tainted or not, over bytes of which some, all or none are tainted, by a store that passes or fails."""
    for size, tainted, taint, passes, status in itertools.product(SIZES, range(2), (0, 255, None), range(2), range(2)):
        scene = Scene(rng, size)
        scene.state.taints[scene.data], scene.state.taints[scene.status] = whole(tainted), whole(status)
        if taint is not None:
            scene.state.taint[:] = bytes([taint]) * 64
        if passes:
            scene.armed()
        yield scene.case('taint of a store', scene.store(), status=1 - passes)
    for size, passes in itertools.product(SIZES, range(2)):
        # Rs 31 is the zero register: SP keeps its value and its taint.
        scene = Scene(rng, size).armed() if passes else Scene(rng, size)
        scene.state.taints[LAST] = ALL
        yield scene.case('no status register', scene.store(rs=LAST), status=1 - passes)
        scene = Scene(rng, size).armed() if passes else Scene(rng, size)
        yield scene.case('no status register, by SP', scene.store(rs=LAST, rn=LAST))
        # What a status overwrites no longer keeps an address from being used.
        scene = Scene(rng, size).armed() if passes else Scene(rng, size)
        scene.state.taints[scene.status] = ALL
        yield scene.case('status as a base', scene.store(), word_of(UNSIGNED, size=0, opc=1, rn=scene.status, rt=0))


# Refusals with the monitor armed at the very place.

def refused_cases(rng):
    """Each test refuses before the monitor is looked at, armed or not."""
    for size, arms, loads in itertools.product(SIZES, range(2), range(2)):
        for spoil in (tainted_base, unaligned_stack, unaligned, outside, read_only):
            scene = Scene(rng, size)
            word = (scene.load if loads else scene.store)(**spoil(scene))
            if arms:
                scene.state.monitor = scene.state.registers[scene.base], scene.width
            yield scene.case('refused with the monitor', word, scene.load(rn=scene.other))
            yield scene.case('refused behind a load', scene.load(rn=scene.other), word)
    for spoil in bad_windows():
        scene = Scene(rng, rng.choice(SIZES)).armed()
        spoiled(scene.state, spoil)
        yield scene.case('answer 1 with the monitor', scene.store())
    for size in SIZES:
        scene = Scene(rng, size).armed()
        case = scene.case('answer 10 with the monitor', scene.store(), scene.load())
        yield from (case._replace(room=room, places=places) for room, places in ((3, 2), (4, 1), (4, 0), (0, 0)))
        for word in (*rng.sample(list(undefined_exclusives(rng)), 4), *rng.sample(list(unpredictable_exclusives(rng)), 4),
                     *REFUSED_ELSEWHERE):
            scene = Scene(rng, size).armed()
            yield scene.case('no word of the lock', word, scene.store())


def tainted_base(scene):
    scene.state.taints[scene.base] = ALL
    return {}


def unaligned_stack(scene):
    scene.state.registers[LAST] += scene.rng.choice((1, 4, 8, 12))
    return {'rn': LAST}


def unaligned(scene):
    scene.state.registers[scene.base] += 1
    return {}


def outside(scene):
    scene.state.registers[scene.base] += scene.rng.choice((48, 64, -16 - scene.width, 1 << 32))
    return {}


def read_only(scene):
    scene.state.readonly = 17
    return {}


def residue_cases(rng):
    """Every form at each residue of 16; an exclusive by its size, the others by the block."""
    for size, kind, residue in itertools.product(SIZES, EXCLUSIVES, range(16)):
        if (residue + size + kind[2]) % 2 and residue not in (8, 12, 14, 15, 16 - (1 << size)):
            continue
        scene = Scene(rng, size)
        scene.state.registers[scene.base] += residue
        if rng.getrandbits(1):
            scene.state.monitor = scene.place + residue, scene.width
        yield scene.case('residue', scene.word(kind, rt=scene.data, rs=scene.status))


def end_cases(rng):
    """The first and last places of a window at either end of the address space, and those next to them; r about them."""
    for size, kind, origin in itertools.product(SIZES, EXCLUSIVES[::2] + EXCLUSIVES[4:], (0, SPACE - 16)):
        width = 1 << size
        for address in (0, width, SPACE - width, SPACE - 2 * width, 16, SPACE - 16 - width):
            word = any_word(rng, EXCLUSIVE, exclusive_choice(size, *kind), rn=rng.randrange(31))
            if rng.getrandbits(1):
                state = sized(rng, state_for(rng, word, address), origin, 16)
                state.readonly = rng.choice((0, width, 1))
                state.monitor = rng.choice(((address, width), OPEN, (SPACE - 1, width)))
                yield step('exclusive at an end', word, state)


def last_address_cases(rng):
    """A byte at 2^64 - 1, which some emulators have for an open monitor."""
    for byte, monitor in itertools.product((0, 5), (OPEN, (SPACE - 1, 0), (SPACE - 1, 1), (SPACE - 1, 8), (0, 1))):
        word = any_word(rng, EXCLUSIVE, exclusive_choice(0, 0, 0, rng.getrandbits(1)), rn=1, rs=2, rt=3)
        state = state_for(rng, word, SPACE - 1)
        state.memory[-1], state.monitor = byte, monitor
        yield step('exclusive at the last address', word, state)


def long_locks(rng):
    """Runs of loads and stores at a few places, of any size."""
    for _ in range(150):
        scene = Scene(rng, rng.choice(SIZES))
        words = []
        for _ in range(rng.randrange(3, 12)):
            size = rng.choice((scene.size, scene.size, rng.choice(SIZES)))
            base = rng.choice((scene.base, scene.base, scene.other))
            kind = rng.choice(EXCLUSIVES[:4] * 2 + EXCLUSIVES)
            words.append(scene.word(kind, size, rn=base, rt=rng.choice((scene.data, scene.target)),
                                    rs=rng.choice((scene.status, scene.again, LAST))))
        scene.state.readonly = rng.choice((0, 0, 0, 20))
        yield scene.case('locks', *words)


def all_exclusives(rng):
    cases = []
    for group in (register_cases, taken_cases, lost_cases, given_cases, kept_cases, taint_cases, refused_cases,
                  residue_cases, end_cases, last_address_cases, long_locks):
        cases += group(rng)
    return cases
