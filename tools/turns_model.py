"""A model of 02's CR 11, two plugins that take turns on one memory, to hold the proved turns against.

It is written from 02 and its readings alone, over the model of a run (machine_model.py): ranges take the place of the read-only
beginning, and answer 12 comes behind 8. Each rule is a method of its own: turns_mutants.py overrides one at a time.
"""
from typing import NamedTuple

from machine_model import NONE, OPEN, VECTOR_NONE, Model, State


class Range(NamedTuple):
    """So many bytes from an address on, as whole numbers."""
    address: int
    length: int

    def end(self):
        return self.address + self.length

    def covers(self, first, end):
        """Whether the bytes from first to before end, one at least, are wholly in it."""
        return self.address <= first and end <= self.end()

    def touches(self, first, end):
        """Whether it has one of these bytes."""
        return max(self.address, first) < min(self.end(), end)


class Ranges(NamedTuple):
    """As they are for the plugin whose turn it is."""
    shared: Range
    own: Range
    other: Range


class Plugin(NamedTuple):
    """What a plugin has for itself beside its range."""
    pc: int = 0
    registers: tuple = (0,) * 32
    taints: tuple = (NONE,) * 32
    monitor: tuple = OPEN
    vectors: tuple = (0,) * 32
    vector_taints: tuple = (VECTOR_NONE,) * 32


class Turn(NamedTuple):
    # 0 or 1.
    who: int
    words: tuple
    # Numbers of trace, and statuses.
    room: int
    places: int


class Play(NamedTuple):
    """A sequence of turns, and what it starts from."""
    # What it is for: the counts at the end go by it.
    group: str
    origin: int
    memory: bytes
    taint: bytes
    shared: Range
    private: tuple
    plugins: tuple
    turns: tuple

    def ranges(self, who):
        return Ranges(self.shared, self.private[who], self.private[1 - who])


class Ranged(State):
    """A state with ranges, and without read-only bytes."""

    def __init__(self, ranges, origin, memory, taint, plugin):
        super().__init__(origin, 0, plugin.pc, plugin.registers, plugin.taints, memory, taint, plugin.monitor, plugin.vectors,
                         plugin.vector_taints)
        self.ranges = ranges

    def copy(self):
        return Ranged(self.ranges, self.origin, self.memory, self.taint, self.plugin())

    def plugin(self):
        return Plugin(self.pc, tuple(self.registers), tuple(self.taints), self.monitor, tuple(self.vectors),
                      tuple(self.vector_taints))


class TurnModel(Model):
    """02, CR 11, "Refusals", and the readings: "Order 1 to 8, then 12"."""
    ORDER = Model.ORDER + (12,)

    def is_refused(self, answer, state, word, family, f, access, address):
        if answer == 12:
            return not access.prefetch and self.is_not_allowed(state, access, address)
        return super().is_refused(answer, state, word, family, f, access, address)

    def is_bad_window(self, state):
        return super().is_bad_window(state) or self.are_bad_ranges(state)

    def are_bad_ranges(self, state):
        """"1 if two ranges share a byte or one, empty too, isn't inside the window as 7 counts"."""
        return self.have_common_byte(state) or any(self.is_stray(state, one) for one in self.tested(state))

    def tested(self, state):
        """The ranges that have to be inside the window."""
        return state.ranges

    def have_common_byte(self, state):
        shared, own, other = state.ranges
        return any(self.share(*two) for two in ((shared, own), (shared, other), (own, other)))

    def share(self, one, other):
        return one.touches(other.address, other.end())

    def is_stray(self, state, one):
        return not (state.origin <= one.address and one.end() <= state.end())

    def is_read_only(self, state, access, address):
        """8: "a store touching the shared range"."""
        return access.store and self.touches_shared(state, address, address + self.span(access))

    def touches_shared(self, state, first, end):
        return state.ranges.shared.touches(first, end)

    def is_not_allowed(self, state, access, address):
        """12: any access but "a load wholly in the shared range or in the plugin's own, a store wholly in its own"."""
        end = address + self.span(access)
        if access.store:
            return not self.may_store(state, address, end)
        return not self.may_load(state, address, end)

    def may_load(self, state, first, end):
        return self.in_shared(state, first, end) or self.in_own(state, first, end)

    def may_store(self, state, first, end):
        return self.in_own(state, first, end)

    def in_shared(self, state, first, end):
        return state.ranges.shared.covers(first, end)

    def in_own(self, state, first, end):
        return state.ranges.own.covers(first, end)

    # The turns in order.

    def play(self, play):
        """What each turn returns and leaves, memory too, in order."""
        plugins, memory, taint = list(play.plugins), play.memory, play.taint
        outcomes = []
        for turn in play.turns:
            start = self.start(play, plugins, turn, outcomes)
            given = Ranged(self.ranges(play, turn.who), play.origin, memory, taint, start)
            outcome = self.turn(turn, given, outcomes)
            outcomes.append(outcome)
            self.keep(plugins, turn, outcome)
            memory, taint = self.left(given, outcome)
        return outcomes

    def ranges(self, play, who):
        return play.ranges(who)

    def start(self, play, plugins, turn, outcomes):
        """"A turn starts from what the plugin's own last turn left, also after a refusal."""
        return plugins[turn.who]

    def turn(self, turn, given, outcomes):
        """"A refused run ends that turn only"."""
        return self.run(turn.words, given, turn.room, turn.places)

    def keep(self, plugins, turn, outcome):
        plugins[turn.who] = outcome.state.plugin()

    def left(self, given, outcome):
        return bytes(outcome.state.memory), bytes(outcome.state.taint)


def shown(play, who, outcomes):
    """All that a plugin shows: what each of its turns returns and leaves, its private bytes and their marks too."""
    first = max(play.private[who].address - play.origin, 0)
    end = first + play.private[who].length
    return [(outcome.steps, outcome.answer, outcome.code, outcome.address, outcome.trace, outcome.statuses,
             outcome.state.plugin(), outcome.state.memory[first:end], outcome.state.taint[first:end])
            for turn, outcome in zip(play.turns, outcomes) if turn.who == who]
