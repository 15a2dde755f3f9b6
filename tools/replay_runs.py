"""Cases of many words, for the program `replay`.

A run is made by doing it: each next word is one that the model takes where the run stands, until one is wanted that
it refuses. Words after that one are never reached, and have to leave no mark.
"""
from machine_model import (
    EXCLUSIVE, FAMILIES, LAST, LITERAL, NONE, ORDERED, PAIR, POST, PRE, REGISTER, SPACE, UNSCALED, UNSIGNED, State, word_of)
from replay_format import MOST_MEMORY, MOST_STATUSES, MOST_TRACE, MOST_WORDS, Case
from replay_states import (
    MODEL, TAINTS, WITH_VECTORS, access_of, any_monitor, any_word, choices, exclusive_choice, fill_vectors, prefetch_word,
    registers_of, some_bytes, vector_choices)
from replay_steps import bad_windows, spoiled, undefined_words, unpredictable_words

# So far a base may be from the window to be led back into it.
NEAR = 300


def start(rng, length, pc=None, secret=False, readonly=None, vectors=False):
    """A state with pointers into its window, small numbers for indexes, some taint, and maybe values in vector registers."""
    origin = 4096 + rng.randrange(4000)
    if pc is None and rng.randrange(8) == 0:
        origin = rng.choice((0, SPACE - length, rng.getrandbits(60)))
    registers = [rng.getrandbits(64) for _ in range(32)]
    numbers = rng.sample(range(31), 16)
    for number in numbers[:8] + [LAST]:
        registers[number] = (origin + rng.randrange(length)) % SPACE
    registers[LAST] -= registers[LAST] % 16
    for number in numbers[8:12]:
        registers[number] = (rng.getrandbits(32) << 32 | rng.randrange(8)) if rng.getrandbits(1) else rng.randrange(6)
    taints = [some_bytes(rng) if number not in numbers[:12] and number != LAST and rng.randrange(2 if secret else 5) == 0
              else NONE for number in range(32)]
    for number in numbers[8:12]:
        # An index that is used by half may have marks in the other.
        if registers[number] >= 6 and rng.getrandbits(1):
            taints[number] = NONE[:4] + some_bytes(rng)[4:]
    memory = bytes(rng.getrandbits(8) for _ in range(length))
    taint = bytes(rng.choice(TAINTS) if rng.randrange(3 if secret else 8) == 0 else 0 for _ in range(length))
    if pc is None:
        pc = 4 * rng.randrange(250, 400) if origin >= 4096 else 4 * rng.randrange(1000, 2000)
    if readonly is None:
        readonly = rng.choice((0, 0, rng.randrange(length // 4 + 1)))
    monitor = any_monitor(rng, registers[rng.choice(numbers[:8])], rng.choice((1, 2, 4, 8)))
    state = State(origin, readonly, pc, registers, taints, memory, taint, monitor)
    if vectors:
        fill_vectors(rng, state, often=2 if secret else 5)
    return state


def aimed_word(rng, state):
    """A word whose access may well be in the window; of vectors too, where these have values."""
    family = rng.choice(FAMILIES)
    vector = any(state.vectors) and family in WITH_VECTORS and rng.randrange(3)
    choice = rng.choice((vector_choices if vector else choices)(family))
    fields = {name: rng.randrange(32) for name in registers_of(family)}
    target = state.origin + rng.randrange(max(1, len(state.memory)))
    if family == LITERAL:
        return word_of(family, **fields, **choice, imm=(target - state.pc) // 4)
    bases = [number for number in range(32) if not any(state.taints[number])
             and abs(state.registers[number] - state.origin) < NEAR]
    if bases:
        fields['rn'] = rng.choice(bases)
    if family == EXCLUSIVE:
        return exclusive_word(rng, state, bases, {**fields, **choice})
    if family == REGISTER:
        small = [number for number in range(32)
                 if not any(state.taints[number][:4]) and state.registers[number] % (1 << 32) < 64]
        fields['rm'] = rng.choice(small + [LAST])
        return word_of(family, **fields, **choice)
    offset = target - state.registers[fields['rn']]
    width = 1 if family in (POST, PRE, UNSCALED, ORDERED) else access_of(word_of(family, **choice)).width
    return word_of(family, **fields, **choice, imm=offset // width)


def exclusive_word(rng, state, bases, fields):
    """Often a store-exclusive that the monitor waits for, where a base has its address."""
    address, size = state.monitor
    armed = [number for number in bases if state.registers[number] == address]
    if armed and size in (1, 2, 4, 8) and rng.randrange(3):
        choice = exclusive_choice((1, 2, 4, 8).index(size), 0, 0, rng.getrandbits(1))
        return word_of(EXCLUSIVE, **{**fields, **choice, 'rn': rng.choice(armed), 'rs': rng.randrange(32)})
    return word_of(EXCLUSIVE, **fields)


def refused_word(rng, state, answer):
    """One that gets this answer, or, where none is found, any other that is refused."""
    for attempt in range(370):
        if answer == 2:
            word = rng.getrandbits(32)
        elif answer == 3:
            word = rng.choice(list(undefined_words(rng)))
        elif answer == 4:
            word = rng.choice(list(unpredictable_words(rng)))
        elif attempt % 2:
            word = aimed_word(rng, state)
        else:
            word = any_word(rng, rng.choice((PAIR, ORDERED, PRE, REGISTER, EXCLUSIVE)), rn=rng.randrange(32))
        found = MODEL.step(word, state.copy())[0]
        if found == answer or found and attempt > 300:
            return word
    return 0x91000000


def next_word(rng, state):
    """A word that is done here."""
    for _ in range(60):
        word = aimed_word(rng, state)
        if rng.randrange(16) == 0:
            word = prefetch_word(rng, rng.choice((LITERAL, UNSCALED, REGISTER)))
        if MODEL.step(word, state.copy())[0] == 0:
            return word
    return prefetch_word(rng, UNSIGNED)


def words_from(rng, given, done, refused=None, more=0):
    """So many words that are done, then one of a refusal if wanted, then so many that nothing reaches."""
    state, words = given.copy(), []
    for _ in range(done):
        words.append(next_word(rng, state))
        MODEL.step(words[-1], state)
    if refused:
        words.append(refused_word(rng, state, refused))
    return tuple(words) + tuple(aimed_word(rng, state) for _ in range(more))


def any_run(rng, group, done, refused=None, more=0, extra=0, **how):
    length = rng.choice((16, 24, 32, 32, 48))
    given = start(rng, length, readonly=length // 2 if refused == 8 else None, **how)
    words = words_from(rng, given, done, refused, more)
    return Case(group, words, given, 2 * len(words) + extra, len(words))


def largest_case(rng):
    """One at all of the program's limits."""
    given = start(rng, MOST_MEMORY)
    return Case('at the limits', words_from(rng, given, MOST_WORDS), given, MOST_TRACE, MOST_STATUSES)


def done_runs(rng):
    for _ in range(280):
        yield any_run(rng, 'run to the end', rng.randrange(2, 14), extra=rng.choice((0, 0, 0, 1, 3)))
    for length in (64, 100, 200, 300):
        yield any_run(rng, 'long run', length)
    yield any_run(rng, 'longest run', MOST_WORDS)
    yield largest_case(rng)


def refused_runs(rng):
    for i in range(370):
        yield any_run(rng, 'refused in the middle', rng.randrange(0, 12), 2 + i % 7, rng.randrange(3))
    yield any_run(rng, 'long run refused at its end', 120, 7)


def short_lists(rng):
    """A trace, a list of statuses, or both, that the words don't fit in."""
    for i in range(80):
        case = any_run(rng, 'trace or list too short', rng.randrange(1, 9), rng.choice((None, 3, 7)))
        if i % 3 != 0:
            case = case._replace(places=rng.choice((0, len(case.words) - 1, len(case.words) // 2)))
        if i % 3 != 1:
            case = case._replace(room=rng.choice((0, 1, 2, case.room - 1, case.room - 2, case.room // 2)))
        yield case


def empty_runs(rng):
    for i in range(40):
        yield any_run(rng, 'no words', 0, extra=i % 4)
    for spoil in bad_windows() * 2:
        case = any_run(rng, 'no words, answer 1', 0, extra=rng.randrange(3))
        yield case._replace(state=spoiled(case.state, spoil))


def bad_window_runs(rng):
    for spoil in bad_windows() * 3:
        case = any_run(rng, 'answer 1 at the start', rng.randrange(1, 6))
        room, places = rng.choice((
            (case.room, case.places), (rng.randrange(case.room), case.places), (case.room, rng.randrange(case.places))))
        yield case._replace(state=spoiled(case.state, spoil), room=room, places=places)


def wrapping_runs(rng):
    """PC goes past 2^64 on the way."""
    for _ in range(40):
        yield any_run(rng, 'PC past the end', rng.randrange(2, 9), rng.choice((None, None, 5, 7)),
                      pc=SPACE - 4 * rng.randrange(1, 6))


def all_runs(rng):
    cases = []
    for group in (done_runs, refused_runs, short_lists, empty_runs, bad_window_runs, wrapping_runs):
        cases += group(rng)
    return cases
