"""Wrong ways for two plugins to take turns, each with one rule of turns_model.py got wrong. The plays have to tell them."""
from machine_model import EXCLUSIVE, LITERAL, OPEN, ORDERED, SPACE, STACK
from turns_model import Range, Ranges, TurnModel


def grown(one, before, behind):
    """A range with so many bytes more at either end."""
    return Range(one.address - before, one.length + before + behind)


# What an access may reach.

class LoadAcross(TurnModel):
    """A load across shared and own is done."""
    def may_load(self, state, first, end):
        return all(state.ranges.shared.covers(at, at + 1) or state.ranges.own.covers(at, at + 1) for at in range(first, end))


class OtherLoaded(TurnModel):
    def may_load(self, state, first, end):
        return super().may_load(state, first, end) or state.ranges.other.covers(first, end)


class OtherStored(TurnModel):
    def may_store(self, state, first, end):
        return super().may_store(state, first, end) or state.ranges.other.covers(first, end)


class SharedWritable(TurnModel):
    def touches_shared(self, state, first, end):
        return False

    def may_store(self, state, first, end):
        return self.may_load(state, first, end)


class SharedNotTold(TurnModel):
    """A store touching the shared range is 12, as any other."""
    def touches_shared(self, state, first, end):
        return False


class SharedNotLoaded(TurnModel):
    def in_shared(self, state, first, end):
        return False


class OwnNotLoaded(TurnModel):
    def may_load(self, state, first, end):
        return self.in_shared(state, first, end)


class LastSharedByteStored(TurnModel):
    """A store that has no byte of the shared range but its last one is done."""
    def touches_shared(self, state, first, end):
        return grown(state.ranges.shared, 0, -1).touches(first, end)

    def may_store(self, state, first, end):
        return super().may_store(state, first, end) or state.ranges.shared.covers(end - 1, end) or (
            state.ranges.shared.end() == first + 1)


class LastSharedByteNotTold(TurnModel):
    def touches_shared(self, state, first, end):
        return grown(state.ranges.shared, 0, -1).touches(first, end)


class FirstSharedByteNotTold(TurnModel):
    def touches_shared(self, state, first, end):
        return grown(state.ranges.shared, -1, 0).touches(first, end)


class SharedTouchedBefore(TurnModel):
    """A store that ends where the shared range begins touches it."""
    def touches_shared(self, state, first, end):
        return grown(state.ranges.shared, 1, 0).touches(first, end)


class SharedTouchedBehind(TurnModel):
    def touches_shared(self, state, first, end):
        return grown(state.ranges.shared, 0, 1).touches(first, end)


class SharedByItsEnds(TurnModel):
    """A store touches the shared range if its first or its last byte does."""
    def touches_shared(self, state, first, end):
        return any(state.ranges.shared.covers(at, at + 1) for at in (first, end - 1))


class SharedByFirstByte(TurnModel):
    def touches_shared(self, state, first, end):
        return state.ranges.shared.covers(first, first + 1)


class SharedByWholeStore(TurnModel):
    def touches_shared(self, state, first, end):
        return state.ranges.shared.covers(first, end)


class EmptySharedTouched(TurnModel):
    """An empty shared range inside a store is touched."""
    def touches_shared(self, state, first, end):
        shared = state.ranges.shared
        return super().touches_shared(state, first, end) or shared.length == 0 and first < shared.address < end


def own_grown(name, before, behind):
    def in_own(self, state, first, end):
        return grown(state.ranges.own, before, behind).covers(first, end)
    return type(name, (TurnModel,), {'in_own': in_own})


def shared_grown(name, before, behind):
    def in_shared(self, state, first, end):
        return grown(state.ranges.shared, before, behind).covers(first, end)
    return type(name, (TurnModel,), {'in_shared': in_shared})


class OwnByFirstByte(TurnModel):
    def in_own(self, state, first, end):
        return state.ranges.own.covers(first, first + 1)


class OwnByLastByte(TurnModel):
    def in_own(self, state, first, end):
        return state.ranges.own.covers(end - 1, end)


class SharedLoadByFirstByte(TurnModel):
    def in_shared(self, state, first, end):
        return state.ranges.shared.covers(first, first + 1)


class SharedLoadByLastByte(TurnModel):
    def in_shared(self, state, first, end):
        return state.ranges.shared.covers(end - 1, end)


class HalfOfAPair(TurnModel):
    """Of a pair the first register's bytes are tested."""
    def is_not_allowed(self, state, access, address):
        return super().is_not_allowed(state, access._replace(targets=access.targets[:1]), address)


class OwnEndWraps(TurnModel):
    """The end of a range is taken modulo 2^64."""
    def in_own(self, state, first, end):
        return state.ranges.own.address <= first and end % SPACE <= state.ranges.own.end() % SPACE


class OwnRangeEndWraps(TurnModel):
    def in_own(self, state, first, end):
        return state.ranges.own.address <= first and end <= state.ranges.own.end() % SPACE


class SharedRangeEndWraps(TurnModel):
    def in_shared(self, state, first, end):
        return state.ranges.shared.address <= first and end <= state.ranges.shared.end() % SPACE


class SharedTouchWraps(TurnModel):
    def touches_shared(self, state, first, end):
        shared = state.ranges.shared
        return max(shared.address, first) < min(shared.end() % SPACE, end % SPACE)


def not_tested(name, kinds):
    """Accesses of a kind are done anywhere in the window, but for 8."""
    def is_not_allowed(self, state, access, address):
        return not kinds(access) and TurnModel.is_not_allowed(self, state, access, address)
    return type(name, (TurnModel,), {'is_not_allowed': is_not_allowed})


class PrefetchTested(TurnModel):
    def is_refused(self, answer, state, word, family, f, access, address):
        if answer == 12 and access.prefetch:
            return not self.may_load(state, address, address + 1)
        return super().is_refused(answer, state, word, family, f, access, address)


class FailingStoreNotTested(TurnModel):
    """A store-exclusive that would fail is tested for nothing behind 7."""
    def is_not_allowed(self, state, access, address):
        fails = access.status is not None and not self.is_armed_for(state, access, address)
        return not fails and super().is_not_allowed(state, access, address)


class FailingStoreTouches(TurnModel):
    def is_read_only(self, state, access, address):
        fails = access.status is not None and not self.is_armed_for(state, access, address)
        return not fails and super().is_read_only(state, access, address)


class WindowBeginsReadOnly(TurnModel):
    """As many bytes as are shared are read-only where the window begins."""
    def is_read_only(self, state, access, address):
        return super().is_read_only(state, access, address) or (
            access.store and address < state.origin + state.ranges.shared.length)


class OnlyWindowBeginsReadOnly(TurnModel):
    def is_read_only(self, state, access, address):
        return access.store and address < state.origin + state.ranges.shared.length


# What is answered, and in which order.

def in_order(name, *order):
    return type(name, (TurnModel,), {'ORDER': order})


class NotAllowedWithoutAddress(TurnModel):
    def refusal(self, answer, state, address):
        return (12, 0, 0) if answer == 12 else super().refusal(answer, state, address)


class NotAllowedWithCode(TurnModel):
    def refusal(self, answer, state, address):
        return (12, 1, address) if answer == 12 else super().refusal(answer, state, address)


class NotAllowedAsOutside(TurnModel):
    def refusal(self, answer, state, address):
        return (7, 0, address) if answer == 12 else super().refusal(answer, state, address)


# Answer 1.

class OnlyOwnTested(TurnModel):
    """1 is given only for the plugin's own range."""
    def tested(self, state):
        return [state.ranges.own]

    def have_common_byte(self, state):
        shared, own, other = state.ranges
        return self.share(own, shared) or self.share(own, other)


def not_tested_range(name, which):
    def tested(self, state):
        return [one for i, one in enumerate(state.ranges) if i != which]
    return type(name, (TurnModel,), {'tested': tested})


def not_compared(name, *which):
    """Two ranges may share bytes."""
    def have_common_byte(self, state):
        pairs = [two for two in ((0, 1), (0, 2), (1, 2)) if two != which]
        return any(self.share(*(state.ranges[i] for i in two)) for two in pairs)
    return type(name, (TurnModel,), {'have_common_byte': have_common_byte})


class EmptyNotTested(TurnModel):
    """An empty range may stand anywhere."""
    def is_stray(self, state, one):
        return one.length != 0 and super().is_stray(state, one)


class EmptyNotAtTheEnd(TurnModel):
    def is_stray(self, state, one):
        return super().is_stray(state, one) or one.length == 0 and one.address == state.end()


class EmptyNotAllowed(TurnModel):
    def is_stray(self, state, one):
        return super().is_stray(state, one) or one.length == 0


class EmptyShares(TurnModel):
    """An empty range inside another one shares a byte with it."""
    def share(self, one, other):
        return one.address < other.end() and other.address < one.end()


class TouchingShare(TurnModel):
    """Ranges that touch share a byte."""
    def share(self, one, other):
        return one.length != 0 != other.length and one.address <= other.end() and other.address <= one.end()


class OneByteShared(TurnModel):
    """Ranges may have one byte in common at their ends."""
    def share(self, one, other):
        return grown(one, 0, -1).touches(other.address, other.end() - 1)


class SharedOnOneSide(TurnModel):
    """Two ranges share a byte if the second begins inside the first."""
    def share(self, one, other):
        return other.length != 0 and one.address <= other.address < one.end()


class SharedOnTheOtherSide(TurnModel):
    def share(self, one, other):
        return one.length != 0 and other.address <= one.address < other.end()


class StrayByItsStart(TurnModel):
    def is_stray(self, state, one):
        return not state.origin <= one.address <= state.end()


class StrayByItsEnd(TurnModel):
    def is_stray(self, state, one):
        return one.end() > state.end()


class StrayByOneByte(TurnModel):
    def is_stray(self, state, one):
        return super().is_stray(state, grown(one, 0, -1) if one.length else one)


class StrayByOneByteBefore(TurnModel):
    def is_stray(self, state, one):
        return super().is_stray(state, grown(one, -1, 0) if one.length else one)


class StrayWraps(TurnModel):
    """The end of a range is taken modulo 2^64."""
    def is_stray(self, state, one):
        return not (state.origin <= one.address and one.end() % SPACE <= state.end())


class ShareWraps(TurnModel):
    """So it is where ranges are compared."""
    def share(self, one, other):
        return max(one.address, other.address) < min(one.end() % SPACE, other.end() % SPACE)


class RoomBeforeRanges(TurnModel):
    """10 is given before 1 for ranges."""
    def run(self, words, given, room, places):
        if not super(TurnModel, self).is_bad_window(given) and self.is_short(words, room, places):
            return self.not_begun(10, given.copy(), room, places)
        return super().run(words, given, room, places)


class RangesNotTested(TurnModel):
    def are_bad_ranges(self, state):
        return False


class RangesTestedOnce(TurnModel):
    """1 for ranges is given in the first turn only."""
    def turn(self, turn, given, outcomes):
        self.later = bool(outcomes)
        return super().turn(turn, given, outcomes)

    def are_bad_ranges(self, state):
        return not self.later and super().are_bad_ranges(state)


class RangesTestedByWords(TurnModel):
    """1 for ranges is given only to a turn that has a word."""
    def run(self, words, given, room, places):
        self.empty = not words
        return super().run(words, given, room, places)

    def are_bad_ranges(self, state):
        return not self.empty and super().are_bad_ranges(state)


# The turns in order.

class MonitorShared(TurnModel):
    def keep(self, plugins, turn, outcome):
        plugins[:] = [plugin._replace(monitor=outcome.state.monitor) for plugin in plugins]
        super().keep(plugins, turn, outcome)


class MonitorOpenAtTurns(TurnModel):
    """Each turn starts with an open monitor."""
    def start(self, play, plugins, turn, outcomes):
        return super().start(play, plugins, turn, outcomes)._replace(monitor=OPEN)


class MonitorOpenedByOther(TurnModel):
    """A turn opens the other's monitor."""
    def keep(self, plugins, turn, outcome):
        super().keep(plugins, turn, outcome)
        plugins[1 - turn.who] = plugins[1 - turn.who]._replace(monitor=OPEN)


class MonitorOpenedByRefusal(TurnModel):
    def keep(self, plugins, turn, outcome):
        super().keep(plugins, turn, outcome)
        if outcome.answer:
            plugins[turn.who] = plugins[turn.who]._replace(monitor=OPEN)


def common(name, *fields):
    """What a turn leaves in these goes to both plugins."""
    def keep(self, plugins, turn, outcome):
        left = outcome.state.plugin()
        plugins[1 - turn.who] = plugins[1 - turn.who]._replace(**{field: getattr(left, field) for field in fields})
        plugins[turn.who] = left
    return type(name, (TurnModel,), {'keep': keep})


def not_kept(name, *fields):
    """These start each turn as they were in the plugin's first one."""
    def start(self, play, plugins, turn, outcomes):
        first = play.plugins[turn.who]
        return plugins[turn.who]._replace(**{field: getattr(first, field) for field in fields})
    return type(name, (TurnModel,), {'start': start})


class StartsFromTheFirst(TurnModel):
    def start(self, play, plugins, turn, outcomes):
        return play.plugins[turn.who]


class StartsFromTheOther(TurnModel):
    """A turn starts from what the turn before left, whoever took it."""
    def start(self, play, plugins, turn, outcomes):
        return outcomes[-1].state.plugin() if outcomes else plugins[turn.who]


class RefusedEndsAll(TurnModel):
    """A refused turn ends the sequence: the turns behind it say what it said, and do nothing."""
    def turn(self, turn, given, outcomes):
        if outcomes and outcomes[-1].answer:
            return self.not_begun(outcomes[-1].answer, given.copy(), turn.room, turn.places)
        return super().turn(turn, given, outcomes)


class RefusedEndsOwn(TurnModel):
    """A refused turn ends those of its plugin."""
    def turn(self, turn, given, outcomes):
        self.ended = self.ended if outcomes else {}
        if turn.who in self.ended:
            return self.not_begun(self.ended[turn.who], given.copy(), turn.room, turn.places)
        outcome = super().turn(turn, given, outcomes)
        if outcome.answer:
            self.ended[turn.who] = outcome.answer
        return outcome


class RefusedTakenBack(TurnModel):
    """A refused turn leaves its plugin as it was before."""
    def keep(self, plugins, turn, outcome):
        if not outcome.answer:
            super().keep(plugins, turn, outcome)


class RefusedMemoryTakenBack(TurnModel):
    def left(self, given, outcome):
        return (bytes(given.memory), bytes(given.taint)) if outcome.answer else super().left(given, outcome)


class RefusedWordPassed(TurnModel):
    """A refused word is passed over in the next turn."""
    def keep(self, plugins, turn, outcome):
        super().keep(plugins, turn, outcome)
        if outcome.answer > 1 and outcome.answer != 10:
            plugins[turn.who] = plugins[turn.who]._replace(pc=(outcome.state.pc + 4) % SPACE)


class MemoryOfEach(TurnModel):
    """Taints of memory are each plugin's own."""
    def play(self, play):
        self.taints = [play.taint, play.taint]
        return super().play(play)

    def turn(self, turn, given, outcomes):
        given.taint[:] = self.taints[turn.who]
        outcome = super().turn(turn, given, outcomes)
        self.taints[turn.who] = bytes(outcome.state.taint)
        return outcome


class RangesOfTheFirst(TurnModel):
    """Both plugins have the first one's range for their own."""
    def ranges(self, play, who):
        return play.ranges(0)


class RangesExchanged(TurnModel):
    def ranges(self, play, who):
        return play.ranges(1 - who)


class SharedIsOwn(TurnModel):
    """The shared range and the other's are mistaken for each other."""
    def ranges(self, play, who):
        shared, own, other = play.ranges(who)
        return Ranges(other, own, shared)


REACHES = [
    LoadAcross, OtherLoaded, OtherStored, SharedWritable, SharedNotTold, SharedNotLoaded, OwnNotLoaded, LastSharedByteStored,
    LastSharedByteNotTold, FirstSharedByteNotTold, SharedTouchedBefore, SharedTouchedBehind, SharedByItsEnds, SharedByFirstByte,
    SharedByWholeStore, EmptySharedTouched,
    own_grown('OwnBeginsEarlier', 1, 0), own_grown('OwnBeginsLater', -1, 0), own_grown('OwnEndsLater', 0, 1),
    own_grown('OwnEndsEarlier', 0, -1), shared_grown('SharedBeginsEarlier', 1, 0), shared_grown('SharedBeginsLater', -1, 0),
    shared_grown('SharedEndsLater', 0, 1), shared_grown('SharedEndsEarlier', 0, -1),
    OwnByFirstByte, OwnByLastByte, SharedLoadByFirstByte, SharedLoadByLastByte, HalfOfAPair, OwnEndWraps, OwnRangeEndWraps,
    SharedRangeEndWraps, SharedTouchWraps,
    not_tested('LiteralNotTested', lambda access: access.family == LITERAL),
    not_tested('ExclusiveNotTested', lambda access: access.exclusive),
    not_tested('OrderedNotTested', lambda access: access.family == ORDERED),
    not_tested('AcquireReleaseNotTested', lambda access: access.family == EXCLUSIVE and not access.exclusive),
    not_tested('VectorNotTested', lambda access: access.vector),
    not_tested('PairNotTested', lambda access: len(access.targets) == 2),
    not_tested('WritebackNotTested', lambda access: access.writeback),
    not_tested('LoadNotTested', lambda access: not access.store), not_tested('StoreNotTested', lambda access: access.store),
    PrefetchTested, FailingStoreNotTested, FailingStoreTouches, WindowBeginsReadOnly, OnlyWindowBeginsReadOnly]
ANSWERS = [
    in_order('TwelveBeforeEight', 1, 2, 3, 4, 5, STACK, 6, 7, 12, 8),
    in_order('EightBeforeSeven', 1, 2, 3, 4, 5, STACK, 6, 8, 7, 12),
    in_order('TwelveBeforeSeven', 1, 2, 3, 4, 5, STACK, 6, 12, 7, 8),
    in_order('TwelveBeforeSix', 1, 2, 3, 4, 5, STACK, 12, 6, 7, 8),
    in_order('TwelveBeforeTheStack', 1, 2, 3, 4, 5, 12, STACK, 6, 7, 8),
    in_order('TwelveBeforeFive', 1, 2, 3, 4, 12, 5, STACK, 6, 7, 8),
    in_order('TwelveBeforeFour', 1, 2, 3, 12, 4, 5, STACK, 6, 7, 8),
    in_order('EightBeforeSix', 1, 2, 3, 4, 5, STACK, 8, 6, 7, 12),
    in_order('NoTwelve', 1, 2, 3, 4, 5, STACK, 6, 7, 8),
    NotAllowedWithoutAddress, NotAllowedWithCode, NotAllowedAsOutside]
RANGES = [
    OnlyOwnTested, not_tested_range('SharedNotInside', 0), not_tested_range('OwnNotInside', 1),
    not_tested_range('OtherNotInside', 2), not_compared('SharedAndOwnOverlap', 0, 1),
    not_compared('SharedAndOtherOverlap', 0, 2), not_compared('OwnAndOtherOverlap', 1, 2), EmptyNotTested, EmptyNotAtTheEnd,
    EmptyNotAllowed, EmptyShares, TouchingShare, OneByteShared, SharedOnOneSide, SharedOnTheOtherSide, StrayByItsStart,
    StrayByItsEnd, StrayByOneByte, StrayByOneByteBefore, StrayWraps, ShareWraps, RoomBeforeRanges, RangesNotTested,
    RangesTestedOnce, RangesTestedByWords]
SEQUENCES = [
    MonitorShared, MonitorOpenAtTurns, MonitorOpenedByOther, MonitorOpenedByRefusal, common('RegistersShared', 'registers'),
    common('TaintsShared', 'taints'), common('VectorsShared', 'vectors'), common('VectorTaintsShared', 'vector_taints'),
    common('CounterShared', 'pc'), not_kept('RegistersNotKept', 'registers'), not_kept('TaintsNotKept', 'taints'),
    not_kept('VectorsNotKept', 'vectors'), not_kept('VectorTaintsNotKept', 'vector_taints'), not_kept('CounterNotKept', 'pc'),
    not_kept('MonitorNotKept', 'monitor'), StartsFromTheFirst, StartsFromTheOther, RefusedEndsAll, RefusedEndsOwn,
    RefusedTakenBack, RefusedMemoryTakenBack, RefusedWordPassed, MemoryOfEach, RangesOfTheFirst, RangesExchanged, SharedIsOwn]
