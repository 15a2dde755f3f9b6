"""A model of 02's CR 8 with CR 12 and CR 13, to hold the proved one against: why is a byte tainted?

It is written from them alone. Every tainted byte has its trail: the links that explain it, latest first. Trails are carried
forwards through all the steps, and all of them are kept, so a question only looks one up. What a word is and moves, and when an
access is refused, is machine_model.py's. Each rule is a method of its own: why_mutants.py overrides one at a time.
"""
import functools
from typing import NamedTuple

from machine_model import LAST, SIGNED_32, SIGNED_64, SPACE, ZEROS, Model, fields_of

MACHINE = Model()

# The list of links before a question, in every place.
UNTOUCHED = 0xfefefefefefefefe
# The kinds of places. A place is its kind with the number that a link has: 16 times the register and the byte, or the address.
GENERAL, MEMORY, VECTOR = range(3)
# Bytes of a register, by its kind.
CAPACITY = {GENERAL: 8, VECTOR: 16}


class Run(NamedTuple):
    """What a host has kept of a run, and what it began with."""
    words: tuple
    # Code and address of each step, one behind the other.
    trace: tuple
    statuses: bytes
    steps: int
    # Thirty-two of eight bytes, and thirty-two of sixteen: any but 0 is a mark.
    register_taint: tuple
    vector_taint: tuple
    # A byte for each of memory's.
    taint: bytes
    origin: int
    readonly: int
    length: int

    def end(self):
        """As a whole number: it may be 2^64 or more."""
        return self.origin + self.length


class Question(NamedTuple):
    step: int
    kind: int
    number: int
    byte: int
    # Numbers of the lent list.
    room: int


@functools.lru_cache(maxsize=None)
def access_of(word):
    """What a word says, or None for answers 2 and 3."""
    family = MACHINE.family_of(word)
    fields = family and fields_of(family, word)
    return None if family is None or MACHINE.is_undefined(family, fields) else MACHINE.access_of(family, fields)


class Why:
    # The tests in the order in which they are made.
    ORDER = (1, 7, 11, 17, 18, 10)

    def __init__(self):
        self.run, self.trails = None, None

    def explain(self, run, question):
        """The answer, the number of links, and the list as it is left."""
        links = [UNTOUCHED] * question.room
        for answer in self.ORDER:
            if self.is_refused(answer, run, question):
                return self.refused(answer, run, question, links)
        trail = self.trail(run, question)
        shown = self.shown(trail)
        return 0, self.count(trail), (shown + self.rest(links[len(shown):]))[:len(links)]

    def refused(self, answer, run, question, links):
        return answer, 0, links

    def shown(self, trail):
        """The numbers of the links, latest first."""
        return [number for link in trail for number in link]

    def count(self, trail):
        return len(trail)

    def rest(self, links):
        """The places behind the links."""
        return links

    # "Refusals", in their order.

    def is_refused(self, answer, run, question):
        return {1: self.is_bad_window, 7: self.is_outside, 11: self.is_no_place, 17: self.is_bad_trace,
                18: self.is_after_end, 10: self.is_short}[answer](run, question)

    def is_bad_window(self, run, question):
        return run.end() > SPACE or run.readonly > run.length or len(run.taint) != run.length

    def is_outside(self, run, question):
        return question.kind == MEMORY and not run.origin <= question.number < run.end()

    def is_no_place(self, run, question):
        if question.kind == MEMORY:
            return False
        return question.kind not in CAPACITY or question.number > LAST or question.byte >= CAPACITY[question.kind]

    def is_bad_trace(self, run, question):
        """All steps are looked at, whichever is asked about."""
        return self.falls_short(run) or any(self.is_bad_step(run, step) for step in self.tested(run, question))

    def falls_short(self, run):
        return len(run.words) < run.steps or len(run.statuses) < run.steps or len(run.trace) < 2 * run.steps

    def tested(self, run, question):
        return range(run.steps)

    def is_bad_step(self, run, step):
        access, code, address, status = self.step_of(run, step)
        if access is None or MACHINE.is_unpredictable(None, access, address):
            return True
        if self.is_bad_status(access, status) or code != self.code_of(access):
            return True
        return self.is_bad_prefetch(address) if access.prefetch else self.is_bad_access(run, access, address)

    def is_bad_status(self, access, status):
        """Of any word: that it says nothing of most is no reason to refuse a 1."""
        return status > 1

    def code_of(self, access):
        return 0 if access.prefetch else MACHINE.code_of(access)

    def is_bad_prefetch(self, address):
        return address != 0

    def is_bad_access(self, run, access, address):
        """6 but for the stack pointer's test, 7 and 8; a store that failed is tested as any other."""
        return (MACHINE.is_misaligned(run, access, address) or MACHINE.is_outside(run, access, address)
                or MACHINE.is_read_only(run, access, address))

    def is_after_end(self, run, question):
        return question.step > run.steps

    def is_short(self, run, question):
        return question.room < 3 * len(self.trail(run, question))

    # The steps.

    def step_of(self, run, step):
        """Its access, code, address and status."""
        return access_of(run.words[step]), *run.trace[2 * step:2 * step + 2], run.statuses[step]

    # Trails, from the start to the end.

    def trail(self, run, question):
        """Of the place asked about, just before the step; none if it isn't tainted."""
        return self.trails_of(run)[min(self.asked_step(question), run.steps)].get(self.place_of(question), ())

    def trails_of(self, run):
        """Before each step, and at the end; those of the last run are kept."""
        if self.run is not run:
            self.run, self.trails = run, list(self.carried(run))
        return self.trails

    def asked_step(self, question):
        return question.step

    def place_of(self, question):
        if question.kind == MEMORY:
            return MEMORY, question.number
        return self.register_place(question.kind, question.number, question.byte)

    def register_place(self, kind, number, byte):
        return kind, 16 * number + byte

    def carried(self, run):
        """The trails of all tainted places before each step, and at the end."""
        trails = dict(self.started(run))
        yield trails
        for step in range(run.steps):
            trails = self.after(trails, *self.step_of(run, step), step)
            yield trails

    def started(self, run):
        """The trails of the start: one link each."""
        for kind, taints in ((GENERAL, run.register_taint), (VECTOR, run.vector_taint)):
            for number, marks in enumerate(taints):
                for byte in self.marked(marks):
                    yield self.first(self.register_place(kind, number, byte))
        for offset in self.marked(run.taint):
            yield self.first((MEMORY, run.origin + offset))

    def marked(self, marks):
        """The indexes of bytes that are marks."""
        return [i for i, mark in enumerate(marks) if mark != 0]

    def first(self, place):
        return place, ((*place, 0),)

    def after(self, before, access, code, address, status, step):
        """The trails after a step, from those before it."""
        trails = dict(before)
        if access.prefetch:
            return trails
        for place, source in self.moves(access, address, status):
            self.copy(trails, place, before.get(source), step)
        for number in self.cleared(access):
            for byte in range(8):
                trails.pop((GENERAL, 16 * number + byte), None)
        return trails

    def copy(self, trails, place, trail, step):
        """A place gets a trail, which goes on to it, or none."""
        if trail is None:
            trails.pop(place, None)
        else:
            trails[place] = self.longer(place, trail, step)

    def longer(self, place, trail, step):
        return ((*place, step + 1), *trail)

    def moves(self, access, address, status):
        """Each place that is written, and the place that its byte is copied from, or None."""
        if not access.store:
            yield from self.loads(access, address)
        elif not self.is_failed(access, status):
            yield from self.stores(access, address)

    def is_failed(self, access, status):
        return access.status is not None and status == 1

    def loads(self, access, address):
        for k, number in enumerate(access.targets):
            for byte in range(access.capacity()):
                place = self.target_place(access, number, byte)
                if place is not None:
                    yield place, self.loaded_from(access, address + self.part(k) * access.width, byte)

    def stores(self, access, address):
        for k, number in enumerate(access.targets):
            for byte in range(access.width):
                yield (MEMORY, address + self.part(k) * access.width + byte), self.target_place(access, number, byte)

    def part(self, k):
        """Which part of a pair's bytes its k-th register has."""
        return k

    def target_place(self, access, number, byte):
        """A byte of Rt or Rt2: 31 is the zero register, and no place, where it isn't a vector."""
        if access.vector:
            return self.register_place(VECTOR, number, byte)
        return None if number == LAST else self.register_place(GENERAL, number, byte)

    def loaded_from(self, access, first, byte):
        """The place that a byte of a register is loaded from: a copy of the sign has the top byte loaded, and what isn't
        filled none."""
        if byte < access.width:
            return MEMORY, first + byte
        return self.sign_from(access, first, byte) if byte < self.filled(access) else self.above_from(access, byte)

    def sign_from(self, access, first, byte):
        return MEMORY, first + access.width - 1

    def above_from(self, access, byte):
        return None

    def filled(self, access):
        """The bytes of a register that hold what was loaded or copies of its sign."""
        return {ZEROS: access.width, SIGNED_64: 8, SIGNED_32: 4}[access.above]

    def cleared(self, access):
        """The registers that writeback and the status leave unmarked."""
        if access.writeback:
            yield access.base
        if access.status is not None and access.status != LAST:
            yield access.status
