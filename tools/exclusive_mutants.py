"""Wrong machines of 02's ninth family, its monitor (CR 3) and the list of statuses (CR 8), each with one error.

The stored cases have to tell every one of them from the right machine, as those of machine_mutants.py.
"""
from machine_model import EXCLUSIVE, LAST, NO_STATUS, NONE, OPEN, ORDERED, SIGNED_64, STACK, Model, fields_of
from machine_mutants import ChangedAccess, ChangedRun


class KeepsMonitorIfFailed(Model):
    """A store-exclusive that fails doesn't open the monitor."""

    def store_exclusive(self, state, access, address):
        monitor = state.monitor
        status = super().store_exclusive(state, access, address)
        state.monitor = monitor if status else OPEN
        return status


class KeepsMonitorIfStored(Model):
    def store_exclusive(self, state, access, address):
        monitor = state.monitor
        status = super().store_exclusive(state, access, address)
        state.monitor = OPEN if status else monitor
        return status


class OpensSizeOnly(Model):
    """A monitor that opens keeps its address."""

    def open(self, state):
        state.monitor = state.monitor[0], 0


class OpensIfItWasArmed(Model):
    """A monitor that was open before keeps its address."""

    def open(self, state):
        if state.monitor[1]:
            super().open(state)


class ArmsIfRefused(Model):
    """A load-exclusive that one of these tests refuses arms the monitor."""
    tests = None

    def refusal(self, answer, state, address):
        if answer in self.tests and self.pending is not None and self.pending.exclusive and not self.pending.store:
            self.arm(state, self.pending, address)
        return super().refusal(answer, state, address)

    def step(self, word, state):
        family = self.family_of(word)
        f = family and fields_of(family, word)
        self.pending = self.access_of(family, f) if family and not self.is_undefined(family, f) else None
        return super().step(word, state)


class ArmsIfTainted(ArmsIfRefused):
    tests = (5,)


class ArmsIfMisaligned(ArmsIfRefused):
    tests = (6,)


class ArmsIfOutside(ArmsIfRefused):
    tests = (7,)


class ArmsByUnalignedStack(ArmsIfRefused):
    tests = (STACK,)


class OpensIfRefused(Model):
    """A refused step opens the monitor, whatever it is."""

    def refusal(self, answer, state, address):
        self.open(state)
        return super().refusal(answer, state, address)


class OpensIfStoreRefused(ArmsIfRefused):
    """A store-exclusive that is refused for its address opens the monitor."""

    def refusal(self, answer, state, address):
        if answer in (STACK, 6, 7, 8) and self.pending.status is not None:
            self.open(state)
        return Model.refusal(self, answer, state, address)


class SizeNotCompared(Model):
    """An open monitor is told by its size, and then only the address counts."""

    def is_armed_for(self, state, access, address):
        return state.monitor[1] != 0 and state.monitor[0] == address


class OpenNotTold(Model):
    """The address alone counts, of an open monitor too."""

    def is_armed_for(self, state, access, address):
        return state.monitor[0] == address


class AddressNotCompared(Model):
    def is_armed_for(self, state, access, address):
        return state.monitor[1] == access.width


class AnyArmed(Model):
    def is_armed_for(self, state, access, address):
        return state.monitor[1] != 0


class WiderArmed(Model):
    """A larger size at the same address will do."""

    def is_armed_for(self, state, access, address):
        return state.monitor[0] == address and state.monitor[1] >= access.width


class NarrowerArmed(Model):
    def is_armed_for(self, state, access, address):
        return state.monitor[0] == address and 0 < state.monitor[1] <= access.width


class InsideArmed(Model):
    """An access inside the bytes that are held will do."""

    def is_armed_for(self, state, access, address):
        at, size = state.monitor
        return size in (1, 2, 4, 8) and at <= address and address + access.width <= at + size


class SizeBy32Bits(Model):
    def is_armed_for(self, state, access, address):
        return state.monitor[0] == address and state.monitor[1] % (1 << 32) == access.width


class SizeByByte(Model):
    def is_armed_for(self, state, access, address):
        return state.monitor[0] == address and state.monitor[1] % (1 << 8) == access.width


class AddressBy32Bits(Model):
    def is_armed_for(self, state, access, address):
        return (state.monitor[0] - address) % (1 << 32) == 0 and state.monitor[1] == access.width


class AddressByBlock(Model):
    """A reservation of 16 bytes."""

    def is_armed_for(self, state, access, address):
        return state.monitor[0] // 16 == address // 16 and state.monitor[1] == access.width


class ArmsBlock(Model):
    def arm(self, state, access, address):
        state.monitor = address // 16 * 16, access.width


class ValueCompared(Model):
    """A store-exclusive fails where the bytes have changed since the load-exclusive."""

    def run(self, words, given, room, places):
        self.value = None
        return super().run(words, given, room, places)

    def bytes_at(self, state, access, address):
        return state.memory[address - state.origin:address - state.origin + access.width]

    def arm(self, state, access, address):
        super().arm(state, access, address)
        self.value = self.bytes_at(state, access, address)

    def is_armed_for(self, state, access, address):
        changed = self.value is not None and self.value != self.bytes_at(state, access, address)
        return super().is_armed_for(state, access, address) and not changed


class AlwaysStores(Model):
    def is_armed_for(self, state, access, address):
        return True


class NeverStores(Model):
    def is_armed_for(self, state, access, address):
        return False


class StatusAlwaysZero(Model):
    """0 in the register after a store that failed."""

    def write_status(self, state, access, status):
        super().write_status(state, access, 0)


class StatusSwapped(Model):
    def write_status(self, state, access, status):
        super().write_status(state, access, 1 - status)


class StoresIfFailed(Model):
    """The bytes are stored though the status is 1."""

    def fail(self, state, access, address):
        self.store(state, access, address)


class TaintsIfFailed(Model):
    """The taints of the bytes change as if they were stored."""

    def fail(self, state, access, address):
        memory = bytes(state.memory)
        self.store(state, access, address)
        state.memory = bytearray(memory)


class BytesIfFailed(Model):
    """The bytes are stored without their taints."""

    def fail(self, state, access, address):
        taint = bytes(state.taint)
        self.store(state, access, address)
        state.taint = bytearray(taint)


class StatusKeepsTaint(Model):
    def write_status(self, state, access, status):
        self.write(state, access.status, status, self.read(state, access.status)[1])


class FailedStatusKeepsTaint(Model):
    """Only a store that was done unmarks the status register."""

    def write_status(self, state, access, status):
        self.write(state, access.status, status, self.read(state, access.status)[1] if status else NONE)


class StatusTaintedByData(Model):
    def write_status(self, state, access, status):
        self.write(state, access.status, status, self.read(state, access.targets[0])[1])


class StatusByHalf(Model):
    """The upper half of the status register stays."""

    def write_status(self, state, access, status):
        old = self.read(state, access.status)[0]
        super().write_status(state, access, old >> 32 << 32 | status)


class StatusToStackPointer(Model):
    """Rs 31 is SP."""

    def write_status(self, state, access, status):
        self.set(state, access.status, status, NONE)


class NoStatusIfStored(Model):
    """The register is written only where the store fails."""

    def write_status(self, state, access, status):
        if status:
            super().write_status(state, access, status)


class ListsNoDroppedStatus(Model):
    """The list has 0 where the status register is 31."""

    def store_exclusive(self, state, access, address):
        status = super().store_exclusive(state, access, address)
        return 0 if access.status == LAST else status


class ListsNoFailure(Model):
    """The list has 0 for each store-exclusive."""

    def store_exclusive(self, state, access, address):
        super().store_exclusive(state, access, address)
        return 0


class ChangedFailure(Model):
    """Something about a step whose store fails is wrong."""

    def done(self, state, access, address):
        pc = state.pc
        result = super().done(state, access, address)
        return self.changed(state, pc, result) if result[3] else result


class FailsWithoutCode(ChangedFailure):
    def changed(self, state, pc, result):
        return result[0], 0, result[2], 1


class FailsWithoutAddress(ChangedFailure):
    def changed(self, state, pc, result):
        return result[0], result[1], 0, 1


class FailsAsLoad(ChangedFailure):
    """The code of a failed store has no 64."""

    def changed(self, state, pc, result):
        return result[0], result[1] - 64, result[2], 1


class FailsInPlace(ChangedFailure):
    """PC stays."""

    def changed(self, state, pc, result):
        state.pc = pc
        return result


class FailureRefused(ChangedFailure):
    """A failed store stops the run."""

    def changed(self, state, pc, result):
        return 7, 0, result[2], 0


class UnpredictableStatus(Model):
    """Answer 4 of a store-exclusive goes by another rule."""

    def is_unpredictable(self, state, access, address):
        if access.status is None:
            return super().is_unpredictable(state, access, address)
        return self.collides(access.status, access.targets[0], access.base)


class DataIsBaseRefused(UnpredictableStatus):
    """4 for Rt = Rn."""

    def collides(self, rs, rt, rn):
        return rs == rt or rs == rn != LAST or rt == rn


class StatusBySpRefused(UnpredictableStatus):
    """4 for Rs 31 by SP."""

    def collides(self, rs, rt, rn):
        return rs in (rt, rn)


class ZeroStatusTaken(UnpredictableStatus):
    """Rs = Rt = 31 is done."""

    def collides(self, rs, rt, rn):
        return rs != LAST and rs in (rt, rn)


class StatusIsDataTaken(UnpredictableStatus):
    def collides(self, rs, rt, rn):
        return rs == rn != LAST


class StatusIsBaseTaken(UnpredictableStatus):
    def collides(self, rs, rt, rn):
        return rs == rt


class LoadBaseRefused(Model):
    """4 for a load-exclusive whose target is its base."""

    def is_unpredictable(self, state, access, address):
        if access.exclusive and not access.store and access.base in access.targets:
            return True
        return super().is_unpredictable(state, access, address)


class UnusedRegisters(Model):
    """Which fields of the ninth family have to be ones is wrong."""

    def is_undefined(self, family, f):
        return self.flawed(f) if family == EXCLUSIVE else super().is_undefined(family, f)


class SecondIgnored(UnusedRegisters):
    """Rt2 may be anything."""

    def flawed(self, f):
        return f['rs'] != LAST and not self.has_status(f)


class StatusFieldIgnored(UnusedRegisters):
    """Rs may be anything."""

    def flawed(self, f):
        return f['rt2'] != LAST


class SecondOfStoreIgnored(UnusedRegisters):
    """Rt2 of a store-exclusive may be anything."""

    def flawed(self, f):
        return not self.has_status(f) and (f['rt2'] != LAST or f['rs'] != LAST)


class StatusFieldFixed(UnusedRegisters):
    """Rs of a store-exclusive has to be ones too."""

    def flawed(self, f):
        return f['rt2'] != LAST or f['rs'] != LAST


class LimitedTaken(Model):
    """ldlar and stllr are done."""

    def is_limited(self, f):
        return False


class ReleaseForeign(Model):
    """Bits 23 and 15 are 10 for ldar and stlr, and 11 is not of the set."""

    def is_limited(self, f):
        return (f['o2'], f['o0']) == (1, 1)


class UnpredictableBeforeUndefined(Model):
    """4 before 3."""

    def step(self, word, state):
        if self.family_of(word) == EXCLUSIVE and not self.is_bad_window(state):
            f = fields_of(EXCLUSIVE, word)
            if self.has_status(f) and (f['rs'] == f['rt'] or f['rs'] == f['rn'] != LAST):
                return 4, 0, 0, 0
        return super().step(word, state)


class MonitorEarly(Model):
    """A store-exclusive that would fail isn't tested by these."""
    skipped = None

    def is_refused(self, answer, state, word, family, f, access, address):
        if answer in self.skipped and access.status is not None and not self.is_armed_for(state, access, address):
            return False
        return super().is_refused(answer, state, word, family, f, access, address)


class MonitorBeforeReadOnly(MonitorEarly):
    skipped = (8,)


class MonitorBeforeWindow(MonitorEarly):
    skipped = (7, 8)


class MonitorBeforeAlignment(MonitorEarly):
    skipped = (6,)


class MonitorBeforeStack(MonitorEarly):
    skipped = (STACK,)


class MonitorBeforeTaint(MonitorEarly):
    skipped = (5,)


class StatusIfRefused(ArmsIfRefused):
    """Status 1 is written where the address is refused."""

    def refusal(self, answer, state, address):
        if answer in (6, 7, 8) and self.pending.status is not None:
            self.write_status(state, self.pending, 1)
        return Model.refusal(self, answer, state, address)


class StoresOpen(Model):
    """Each ordinary store opens the monitor."""

    def access(self, state, access, address):
        status = super().access(state, access, address)
        if access.store and not access.exclusive:
            self.open(state)
        return status


class StoresThereOpen(Model):
    """An ordinary store to a byte that is held opens the monitor."""

    def access(self, state, access, address):
        at, size = state.monitor
        if access.store and not access.exclusive and address < at + size and at < address + access.length():
            self.open(state)
        return super().access(state, access, address)


class ReleaseOpens(Model):
    """stlr opens the monitor."""

    def access(self, state, access, address):
        status = super().access(state, access, address)
        if access.family == EXCLUSIVE and access.store and not access.exclusive:
            self.open(state)
        return status


class AcquireArms(Model):
    """ldar arms the monitor."""

    def access(self, state, access, address):
        status = super().access(state, access, address)
        if access.family == EXCLUSIVE and not access.store:
            self.arm(state, access, address)
        return status


class PlainNeverArms(ChangedAccess):
    """ldxr loads and no more: only ldaxr arms the monitor."""

    def changed(self, access, f):
        plain = access.family == EXCLUSIVE and (f['o2'], f['load'], f['o0']) == (0, 1, 0)
        return access._replace(exclusive=False) if plain else access


class ZeroTargetNeverArms(Model):
    """A load-exclusive into the zero register doesn't arm."""

    def arm(self, state, access, address):
        if access.targets[0] != LAST:
            super().arm(state, access, address)


class ArmsOnce(Model):
    """A load-exclusive doesn't replace an armed monitor."""

    def arm(self, state, access, address):
        if state.monitor[1] == 0:
            super().arm(state, access, address)


class AcquireAligned(Model):
    """ldar and stlr have to be aligned, as exclusives have."""

    def is_misaligned(self, state, access, address):
        return super().is_misaligned(state, access._replace(exclusive=access.family == EXCLUSIVE), address)


class ExclusiveByBlock(Model):
    """An exclusive is tested by the block of 16 bytes."""

    def is_misaligned(self, state, access, address):
        return super().is_misaligned(state, access._replace(exclusive=False), address)


class ExclusiveUnaligned(Model):
    def is_misaligned(self, state, access, address):
        return not access.exclusive and super().is_misaligned(state, access, address)


class AcquireUntested(Model):
    """ldar and stlr are not tested."""

    def is_misaligned(self, state, access, address):
        return (access.exclusive or access.family == ORDERED) and super().is_misaligned(state, access, address)


class ExclusiveOf4(Model):
    """A doubleword needs only be a multiple of 4."""

    def is_misaligned(self, state, access, address):
        if access.exclusive and access.width == 8:
            return address % 4 != 0
        return super().is_misaligned(state, access, address)


class ExclusiveKeepsUpperHalf(Model):
    """A load-exclusive of a word leaves the upper half."""

    def extended(self, access, value, old):
        right = super().extended(access, value, old)
        return right | old >> 32 << 32 if access.family == EXCLUSIVE and access.width == 4 else right


class ExclusiveSigned(Model):
    """A load of the ninth family is signed."""

    def extended(self, access, value, old):
        above = SIGNED_64 if access.family == EXCLUSIVE else access.above
        return super().extended(access._replace(above=above), value, old)


class RunOpensFirst(Model):
    """A run starts with an open monitor."""

    def run(self, words, given, room, places):
        given = given.copy()
        given.monitor = OPEN
        return super().run(words, given, room, places)


class RunOpensLast(ChangedRun):
    """A run ends with an open monitor."""

    def changed(self, outcome, words, given):
        outcome.state.monitor = OPEN
        return outcome


class ChangedStatuses(ChangedRun):
    def changed(self, outcome, words, given):
        if outcome.answer in (1, 10):
            return outcome
        return outcome._replace(statuses=bytearray(self.list(outcome, words)))


class StatusesPastSteps(ChangedStatuses):
    """The rest of the list becomes 0."""

    def list(self, outcome, words):
        return outcome.statuses[:outcome.steps] + bytes(len(outcome.statuses) - outcome.steps)


class StatusesOfAllWords(ChangedStatuses):
    """Words that are not reached get 0."""

    def list(self, outcome, words):
        rest = len(words) - outcome.steps
        return outcome.statuses[:outcome.steps] + bytes(rest) + outcome.statuses[len(words):]


class StatusOfRefused(ChangedStatuses):
    """The refused step gets 1."""

    def list(self, outcome, words):
        if outcome.answer:
            outcome.statuses[outcome.steps] = 1
        return outcome.statuses


class StatusesOfStores(ChangedStatuses):
    """Nothing is written for other words."""

    def list(self, outcome, words):
        for i, word in enumerate(words[:outcome.steps]):
            family = self.family_of(word)
            if family != EXCLUSIVE or not self.has_status(fields_of(family, word)):
                outcome.statuses[i] = NO_STATUS
        return outcome.statuses


class StatusesTogether(ChangedStatuses):
    """The statuses of store-exclusives stand together at the start."""

    def list(self, outcome, words):
        own = [outcome.statuses[i] for i, word in enumerate(words[:outcome.steps])
               if self.family_of(word) == EXCLUSIVE and self.has_status(fields_of(EXCLUSIVE, word))]
        return own + [0] * (outcome.steps - len(own)) + list(outcome.statuses[outcome.steps:])


class PlacesUntested(Model):
    """A list that is too short is filled as far as it goes."""

    def run(self, words, given, room, places):
        outcome = super().run(words, given, room, max(places, len(words)))
        return outcome._replace(statuses=outcome.statuses[:places])


class PlacesFirst(Model):
    """10 for the list before 1."""

    def run(self, words, given, room, places):
        if places < len(words):
            return self.not_begun(10, given, room, places)
        return super().run(words, given, room, places)


class PlacesByStep(Model):
    """The list is tested as the steps are done, and not before."""

    def run(self, words, given, room, places):
        outcome = super().run(words, given, room, max(places, len(words)))
        if outcome.answer in (1, 10) or outcome.steps <= places:
            return outcome._replace(statuses=outcome.statuses[:places])
        return self.not_begun(10, given, room, places)


class PlacesExact(Model):
    """A list that is longer than the words is refused."""

    def is_short(self, words, room, places):
        return places > len(words) or super().is_short(words, room, places)


class PlacesByTwo(Model):
    """A list needs two places a word, as a trace does."""

    def is_short(self, words, room, places):
        return places < 2 * len(words) or super().is_short(words, room, places)


class ShortListCleared(Model):
    """A run that is refused with 10 clears its list."""

    def not_begun(self, answer, state, room, places):
        outcome = super().not_begun(answer, state, room, places)
        return outcome._replace(statuses=bytearray(places)) if answer == 10 else outcome


class ShortRunOpens(Model):
    """A run that isn't begun opens the monitor."""

    def not_begun(self, answer, state, room, places):
        state = state.copy()
        self.open(state)
        return super().not_begun(answer, state, room, places)


EXCLUSIVES = [
    KeepsMonitorIfFailed, KeepsMonitorIfStored, OpensSizeOnly, OpensIfItWasArmed, ArmsIfTainted, ArmsIfMisaligned,
    ArmsIfOutside, ArmsByUnalignedStack, OpensIfRefused, OpensIfStoreRefused, SizeNotCompared, OpenNotTold,
    AddressNotCompared, AnyArmed, WiderArmed, NarrowerArmed, InsideArmed, SizeBy32Bits, SizeByByte, AddressBy32Bits,
    AddressByBlock, ArmsBlock, ValueCompared, AlwaysStores, NeverStores, StatusAlwaysZero, StatusSwapped, StoresIfFailed,
    TaintsIfFailed, BytesIfFailed, StatusKeepsTaint, FailedStatusKeepsTaint, StatusTaintedByData, StatusByHalf,
    StatusToStackPointer, NoStatusIfStored, ListsNoDroppedStatus, ListsNoFailure, FailsWithoutCode, FailsWithoutAddress,
    FailsAsLoad, FailsInPlace, FailureRefused, DataIsBaseRefused, StatusBySpRefused, ZeroStatusTaken, StatusIsDataTaken,
    StatusIsBaseTaken, LoadBaseRefused, SecondIgnored, StatusFieldIgnored, SecondOfStoreIgnored, StatusFieldFixed,
    LimitedTaken, ReleaseForeign, UnpredictableBeforeUndefined, MonitorBeforeReadOnly, MonitorBeforeWindow,
    MonitorBeforeAlignment, MonitorBeforeStack, MonitorBeforeTaint, StatusIfRefused, StoresOpen, StoresThereOpen,
    ReleaseOpens, AcquireArms, PlainNeverArms, ZeroTargetNeverArms, ArmsOnce, AcquireAligned, ExclusiveByBlock,
    ExclusiveUnaligned, AcquireUntested, ExclusiveOf4, ExclusiveKeepsUpperHalf, ExclusiveSigned, RunOpensFirst,
    RunOpensLast, StatusesPastSteps, StatusesOfAllWords, StatusOfRefused, StatusesOfStores, StatusesTogether,
    PlacesUntested, PlacesFirst, PlacesByStep, PlacesExact, PlacesByTwo, ShortListCleared, ShortRunOpens]
