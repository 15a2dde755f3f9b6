"""Runs with questions about them, for the program `trails`: how they are written, and how they are made.

A case, numbers little-endian: nine 64-bit numbers, which are W words, T numbers of trace, S statuses, K bytes of taint, Q
questions, the steps, origin, r, and the length of memory; 32 64-bit numbers, the taints of X0 to X30 and SP; 64, those of V0 to
V31, the low half of each first; W words of 4 bytes; T numbers; S bytes; K bytes; and for each question five numbers, which are
the step, the kind of the place, its number, its byte, and how many numbers the lent list has. Every place of the list holds
0xfefefefefefefefe before. The lines of a case are `case` with its number from 0, and then for each question, fields parted by
tabs:

    why, the answer, the number of links, and each number of the list, or - where it holds what it held before

A case with more than 1024 words, statuses or bytes of taint, or 2048 numbers of trace, gives the one line `case`, number,
`too large`, and so does a list of more than 2048 numbers in place of its answer; input that ends inside a case gives the line
`case`, number, `cut short`. Nothing comes after either.
"""
import struct
from typing import NamedTuple

from machine_model import EXCLUSIVE, FAMILIES, LAST, LITERAL, PAIR, REGISTER, SPACE, State, word_of
from replay_states import (
    MODEL, TAINTS, WITH_PREFETCH, WITH_VECTORS, access_of, any_immediate, choices, is_unpredictable, prefetch_word, registers_of,
    vector_choices)
from why_model import CAPACITY, GENERAL, MEMORY, UNTOUCHED, VECTOR, Question, Run, Why

# Registers of the drawn runs: so few that they meet.
POOLS = (0, 1, 2, 30, LAST), (1, 2, 3), (1, 2)
FAR = SPACE - 1
RIGHT = Why()


class Case(NamedTuple):
    # What the case is for: the counts at the end go by it.
    group: str
    run: Run
    questions: tuple


# Input and output.

def case_bytes(case):
    run = case.run
    return b''.join((
        struct.pack('<9Q', len(run.words), len(run.trace), len(run.statuses), len(run.taint), len(case.questions), run.steps,
                    run.origin, run.readonly, run.length),
        *run.register_taint, *run.vector_taint, struct.pack('<%dI' % len(run.words), *run.words),
        struct.pack('<%dQ' % len(run.trace), *run.trace), run.statuses, run.taint,
        *(struct.pack('<5Q', *question) for question in case.questions)))


def line_of(said):
    answer, count, links = said
    return '\t'.join(['why', str(answer), str(count), *('-' if n == UNTOUCHED else str(n) for n in links)]) + '\n'


def case_text(model, number, case):
    lines = (line_of(model.explain(case.run, question)) for question in case.questions)
    return 'case\t%d\n' % number + ''.join(lines)


# Runs.

def started(run, marks=None):
    """A run with taints at the start: these, in each byte, or else none."""
    mark = marks or (lambda: 0)
    return run._replace(
        register_taint=tuple(bytes(mark() for _ in range(8)) for _ in range(32)),
        vector_taint=tuple(bytes(mark() for _ in range(16)) for _ in range(32)), taint=bytes(mark() for _ in range(run.length)))


def window(origin, length, readonly=0):
    """A run of no steps."""
    return started(Run((), (), b'', 0, (), (), b'', origin, readonly, length))


def stepped(run, word, address, status=0):
    """A run with one step more. A prefetch has no address."""
    access = access_of(word)
    noted = (0, 0) if access.prefetch else (MODEL.code_of(access), address)
    return run._replace(words=(*run.words, word), trace=(*run.trace, *noted), statuses=run.statuses + bytes([status]),
                        steps=run.steps + 1)


def every(run):
    """A run with every byte tainted at the start."""
    return started(run, lambda: 1)


def some(rng, run, often):
    """One byte in so many is tainted."""
    return started(run, lambda: rng.choice(TAINTS) if rng.randrange(often) == 0 else 0)


def any_address(rng, run, access):
    """One at which an access is done, or None if there is none, or none was found."""
    low, high = run.origin + (run.readonly if access.store else 0), run.end() - access.length()
    for _ in range(20 if low <= high else 0):
        address = rng.randint(low, high)
        if access.exclusive:
            address -= address % access.width
        if address >= low and not MODEL.is_misaligned(None, access, address):
            return address
    return None


def kinds(family):
    """Fields that choose between loads and stores, with one index for each operation."""
    found = choices(family) + (vector_choices(family) if family in WITH_VECTORS else [])
    return found if family != REGISTER else [kind for i, kind in enumerate(found) if i % 8 == i // 8 % 8]


def any_word(rng, pool):
    if rng.randrange(25) == 0:
        return prefetch_word(rng, rng.choice((LITERAL, *WITH_PREFETCH)))
    while True:
        family = rng.choice((*FAMILIES, EXCLUSIVE, PAIR))
        registers = {name: rng.choice(pool) for name in registers_of(family)}
        word = word_of(family, **{**registers, **any_immediate(rng, family), **rng.choice(kinds(family))})
        access = access_of(word)
        # A load of less than a register leaves zeros, and soon nothing is tainted: most words move a whole one.
        is_whole = access.width == access.capacity() and not access.writeback
        if not is_unpredictable(word) and (is_whole or rng.randrange(8) == 0):
            return word


def any_status(rng, access):
    """A 1 is lent for other words too, and says nothing."""
    return int(rng.randrange(2 if access.status is not None else 12) == 0)


def any_window(rng):
    length = rng.choice((16, 16, 24, 32, 48))
    origin = rng.choice((0, SPACE - length, 4096, 4096, 4104, 4111, rng.getrandbits(64) % (SPACE - length)))
    return window(origin, length, rng.choice((0, 0, 0, 1, 8, length)))


def any_run(rng, steps):
    run, pool = some(rng, any_window(rng), rng.choice((1, 1, 1, 2, 4, 30))), rng.choice(POOLS)
    while run.steps < steps:
        word = any_word(rng, pool)
        access = access_of(word)
        address = 0 if access.prefetch else any_address(rng, run, access)
        if address is not None:
            run = stepped(run, word, address, any_status(rng, access))
    return run if rng.randrange(3) else longer(rng, run)


def longer(rng, run):
    """Lists that go on behind the steps, with what no step has."""
    more = rng.randrange(3)
    return run._replace(words=run.words + (0xffffffff,) * more, trace=run.trace + (FAR,) * rng.randrange(4),
                        statuses=run.statuses + bytes([7]) * rng.randrange(3))


def hold(rng, run):
    """Holds the trails of a good run against machine_model.py, which does its words at its addresses with its statuses: what
    is tainted is what its taint rule says, and the value of a byte is that of what it was copied from, and of where its trail
    began, or copies of the sign of either."""
    state = State(run.origin, run.readonly, 0, [rng.getrandbits(64) for _ in range(32)], run.register_taint,
                  rng.randbytes(run.length), run.taint, vectors=[rng.getrandbits(128) for _ in range(32)],
                  vector_taints=run.vector_taint)
    first = before = contents(state)[0]
    for step, trails in enumerate(RIGHT.carried(run)):
        values, tainted = contents(state)
        if tainted != set(trails) or any(len(trail) > step + 1 for trail in trails.values()):
            raise SystemExit('the taint rule says something else before step %d of %s' % (step, run))
        pairs = [(values[place], first[trail[-1][:2]]) for place, trail in trails.items()]
        pairs += [(values[place], before[trail[1][:2]]) for place, trail in trails.items() if trail[0][2] == step > 0]
        if not all(value in (copied, 255 * (copied >> 7)) for value, copied in pairs):
            raise SystemExit('a value says something else before step %d of %s' % (step, run))
        if step < run.steps:
            taint_step(state, *RIGHT.step_of(run, step))
        before = values


def contents(state):
    """The value of the byte at each place, and which places are tainted."""
    values, tainted = {}, set()
    files = (GENERAL, 8, state.registers, state.taints), (VECTOR, 16, state.vectors, state.vector_taints)
    for kind, width, file, taints in files:
        for number, (value, marks) in enumerate(zip(file, taints)):
            values.update(((kind, 16 * number + i), byte) for i, byte in enumerate(value.to_bytes(width, 'little')))
            tainted.update((kind, 16 * number + i) for i, mark in enumerate(marks) if mark)
    values.update(((MEMORY, state.origin + i), byte) for i, byte in enumerate(state.memory))
    tainted.update((MEMORY, state.origin + i) for i, mark in enumerate(state.taint) if mark)
    return values, tainted


def taint_step(state, access, code, address, status):
    if access.prefetch:
        return
    if access.status is not None:
        # The monitor is as the status says.
        state.monitor = (address, access.width) if status == 0 else (address, 0)
    MODEL.access(state, access, address)
    if access.writeback:
        MODEL.write_back(state, access, 0)


# Questions.

def about(step, place, room):
    kind, number = place
    return Question(step, kind, number, 0, room) if kind == MEMORY else Question(step, kind, number // 16, number % 16, room)


def any_place(rng, run, step):
    """Mostly a tainted one, and rather one that a step has tainted; else one of the few registers, or a byte of memory."""
    trails = RIGHT.trails_of(run)[step]
    copied = [place for place, trail in trails.items() if len(trail) > 1]
    if trails and rng.randrange(5):
        return rng.choice(copied if copied and rng.randrange(6) else list(trails))
    kind = rng.choice((GENERAL, MEMORY, VECTOR))
    if kind == MEMORY and run.length:
        return MEMORY, rng.randrange(run.origin, run.end())
    kind = kind if kind != MEMORY else GENERAL
    return kind, 16 * rng.choice(POOLS[0]) + rng.randrange(CAPACITY[kind])


def any_room(rng, links):
    return max(3 * links + rng.choice((0, 0, 0, 0, 1, 2, 3, 5, 8, -1, -3)), 0)


def any_question(rng, run):
    step = rng.choice((run.steps, rng.randint(0, run.steps)))
    place = any_place(rng, run, step)
    question = about(step, place, 0)
    if question.kind == MEMORY:
        question = question._replace(byte=rng.choice((0, 0, 7, 15, 16, FAR)))
    return question._replace(room=any_room(rng, len(RIGHT.trail(run, question))))


def held(rng, group, run, questions):
    """A case of a good run."""
    hold(rng, run)
    return Case(group, run, tuple(questions))


def with_step(run, step, word=None, code=None, address=None, status=None):
    """The run with one step damaged."""
    words, trace, statuses = list(run.words), list(run.trace), bytearray(run.statuses)
    if word is not None:
        words[step] = word
    if code is not None:
        trace[2 * step] = code % SPACE
    if address is not None:
        trace[2 * step + 1] = address % SPACE
    if status is not None:
        statuses[step] = status
    return run._replace(words=tuple(words), trace=tuple(trace), statuses=bytes(statuses))
