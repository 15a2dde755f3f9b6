"""Wrong machines, each with one error that a program might have.

The stored cases have to tell every one of them from the right machine. The first list has the errors that 01 warns of
and those that must not be provable, the second has further slips, the third has those of the stack pointer's alignment
(02, CR 1), the fourth has those that only one value or one window shows, and the last has wrong runs. Those of exclusives
and statuses stand in exclusive_mutants.py, those of marks by byte in mark_mutants.py, and those of vector registers in
vector_mutants.py.
"""
from machine_model import (
    ALL, EXCLUSIVE, LAST, LITERAL, NONE, ORDERED, PAIR, PAIR_OFFSET, REGISTER, SIGNED_32, SIGNED_64, SPACE, STACK, UNTOUCHED,
    ZEROS, Model, marks_of)


class KeepsUpperHalf(Model):
    """A signed 32-bit load leaves the upper half as it was."""

    def extended(self, access, value, old):
        right = super().extended(access, value, old)
        return right | old >> 32 << 32 if access.above == SIGNED_32 else right


class SignsUpperHalf(Model):
    """A signed 32-bit load is signed to 64 bits."""

    def extended(self, access, value, old):
        above = SIGNED_64 if access.above == SIGNED_32 else access.above
        return super().extended(access._replace(above=above), value, old)


class LoadsStackPointer(Model):
    """Rt 31 of a load is SP."""

    def write(self, state, number, value, taint):
        self.set(state, number, value, taint)


class StoresStackPointer(Model):
    """Rt 31 of a store is SP."""

    def store(self, state, access, address):
        given, self.read = self.read, lambda state, number: (state.registers[number], state.taints[number])
        super().store(state, access, address)
        self.read = given


class IndexesStackPointer(Model):
    """Rm 31 is SP."""

    def read_index(self, state, access):
        return state.registers[access.index], state.taints[access.index]


class WritesBackFirst(Model):
    """The base is written before a fault is known."""

    def is_outside(self, state, access, address):
        outside = super().is_outside(state, access, address)
        if outside and access.writeback:
            self.write_back(state, access, self.moved_base(state, access))
        return outside


class WritesBackBeforeReadOnly(Model):
    """The base is written before the read-only bytes are looked at."""

    def is_read_only(self, state, access, address):
        refused = super().is_read_only(state, access, address)
        if refused and access.writeback:
            self.write_back(state, access, self.moved_base(state, access))
        return refused


class WrapsEnd(Model):
    """The access's end is tested after its sum has wrapped."""

    def is_outside(self, state, access, address):
        return not (state.origin <= address and (address + self.span(access)) % SPACE <= state.end())


class WrapsBothEnds(Model):
    """Both ends are tested after their sums have wrapped."""

    def is_outside(self, state, access, address):
        return not (state.origin <= address and (address + self.span(access)) % SPACE <= state.end() % SPACE)


class TaintsByFirstByte(Model):
    """Every byte of a load is marked as the first one is."""

    def read_marks(self, taint):
        return marks_of(taint[:1]) * len(taint)


class TaintsByLastByte(Model):
    def read_marks(self, taint):
        return marks_of(taint[-1:]) * len(taint)


class LeavesState(Model):
    def done(self, state, access, address):
        return super().done(state.copy(), access, address)


class LeavesAllButPc(Model):
    def done(self, state, access, address):
        result = super().done(state.copy(), access, address)
        state.pc = self.next_pc(state.pc)
        return result


class AlwaysRefuses(Model):
    def step(self, word, state):
        return 2, 0, 0, 0


class TaintsAll(Model):
    def done(self, state, access, address):
        result = super().done(state, access, address)
        state.taints = [ALL] * 32
        state.taint = bytearray(b'\1' * len(state.taint))
        return result


class TaintsLoadedAndStored(Model):
    """Whatever is loaded or stored becomes tainted."""

    def loaded_taint(self, access, taint, old):
        return b'\1' * access.capacity()

    def stored_taint(self, access, taint, old):
        return b'\1' * access.width


class TaintsNoLoad(Model):
    def loaded_taint(self, access, taint, old):
        return bytes(access.capacity())


class TaintsNoStore(Model):
    def stored_taint(self, access, taint, old):
        return bytes(access.width)


class KeepsStoredTaint(Model):
    """A store changes no taint byte."""

    def store(self, state, access, address):
        taint = bytes(state.taint)
        super().store(state, access, address)
        state.taint = bytearray(taint)


class KeepsBaseTaint(Model):
    """Writeback leaves the base's taint as it was."""

    def write_back(self, state, access, moved):
        self.set(state, access.base, moved, state.taints[access.base])


class UnmarksOneByteOfBase(Model):
    """Writeback unmarks the lowest byte of the base alone."""

    def write_back(self, state, access, moved):
        self.set(state, access.base, moved, NONE[:1] + state.taints[access.base][1:])


class TaintsBase(Model):
    """Writeback gives the base the taint of the register moved."""

    def write_back(self, state, access, moved):
        self.set(state, access.base, moved, self.read(state, access.targets[0])[1])


class SecondFirst(Model):
    """A pair has its second register at the lower address."""

    def part(self, access, k):
        return len(access.targets) - 1 - k


class RefusesReadOnlyLoad(Model):
    """8 for a load too."""

    def is_read_only(self, state, access, address):
        return address < state.origin + state.readonly


class OneReadOnlyMore(Model):
    """origin + r + 1."""

    def is_read_only(self, state, access, address):
        return access.store and address < state.origin + state.readonly + 1


class OneReadOnlyLess(Model):
    def is_read_only(self, state, access, address):
        return access.store and address < state.origin + state.readonly - 1


class WindowBeforeBlock(Model):
    """7 before 6."""
    ORDER = (1, 2, 3, 4, 5, STACK, 7, 6, 8)


class CountsOneOfPair(Model):
    """The code has one register's bytes."""

    def code_of(self, access):
        return access.width + (64 if access.store else 0)


class TestsOneOfPair(Model):
    """The window is tested for one register's bytes."""

    def span(self, access):
        return access.width


class SaturatesPc(Model):
    """PC + 4 without wrapping, at the end as far as it goes."""

    def next_pc(self, pc):
        return min(pc + 4, SPACE - 4)


class BaseTaintOnly(Model):
    """The index's taint isn't tested."""

    def is_index_tainted(self, state, access):
        return False


class IndexTaintOnly(Model):
    def is_base_tainted(self, state, access):
        return False


class IndexTaintIfScaled(Model):
    """The index's taint is tested only where S is 1."""

    def is_refused(self, answer, state, word, family, f, access, address):
        if answer == 5 and access.index is not None and f['scaled'] == 0:
            access = access._replace(index=None)
        return super().is_refused(answer, state, word, family, f, access, address)


class IndexTaintIfShifted(Model):
    """The index's taint is tested only where it is shifted by more than nothing."""

    def is_index_tainted(self, state, access):
        return access.shift != 0 and super().is_index_tainted(state, access)


class TaintAfterWindow(Model):
    """5 after 7."""
    ORDER = (1, 2, 3, 4, STACK, 6, 7, 5, 8)


class TaintAfterReadOnly(Model):
    ORDER = (1, 2, 3, 4, STACK, 6, 7, 8, 5)


class TaintAfterBlock(Model):
    ORDER = (1, 2, 3, 4, STACK, 6, 5, 7, 8)


# Further slips.

class TaintBeforeUnpredictable(Model):
    ORDER = (1, 2, 3, 5, 4, STACK, 6, 7, 8)


class ReadOnlyBeforeWindow(Model):
    ORDER = (1, 2, 3, 4, 5, STACK, 6, 8, 7)


class ReadOnlyBeforeBlock(Model):
    ORDER = (1, 2, 3, 4, 5, STACK, 8, 6, 7)

    def is_read_only(self, state, access, address):
        return super().is_read_only(state, access, address) and not self.is_outside(state, access, address)


class UndefinedAsForeign(Model):
    def refusal(self, answer, state, address):
        return super().refusal(2 if answer == 3 else answer, state, address)


class NoRefusedAddress(Model):
    """No address beside 6, 7 and 8."""

    def refusal(self, answer, state, address):
        return super().refusal(answer, state, address)[0], 0, 0


class AddressOfTaint(Model):
    """The address beside 5: a tainted number would be shown."""

    def refusal(self, answer, state, address):
        return (5, 0, address) if answer == 5 else super().refusal(answer, state, address)


class TaintsPairTogether(Model):
    """Every byte of an access is marked where one is, those of both registers of a pair."""

    def load(self, state, access, address):
        taint = bytes(state.taint)
        at = address - state.origin
        if any(taint[at:at + access.length()]):
            state.taint[at:at + access.length()] = b'\1' * access.length()
        super().load(state, access, address)
        state.taint = bytearray(taint)


class TaintOnlyIfOne(Model):
    """Only a taint byte of 1 taints."""

    def read_marks(self, taint):
        return bytes(byte == 1 for byte in taint)


class StoresTaintOf255(Model):
    def stored_taint(self, access, taint, old):
        return bytes(255 * mark for mark in super().stored_taint(access, taint, old))


class KeepsLoadedTaint(Model):
    """A load of untainted bytes leaves the register's taint."""

    def loaded_taint(self, access, taint, old):
        return bytes(new | mark for new, mark in zip(super().loaded_taint(access, taint, old), old))


class BigEndian(Model):
    def extended(self, access, value, old):
        return super().extended(access, int.from_bytes(value.to_bytes(access.width, 'little'), 'big'), old)


class ZeroesAbove(Model):
    """Signed loads to 64 bits aren't signed."""

    def extended(self, access, value, old):
        return value if access.above == SIGNED_64 else super().extended(access, value, old)


class ChangedAccess(Model):
    """Something about what a word says is wrong."""

    def access_of(self, family, f):
        return self.changed(super().access_of(family, f), f)


class UnsignedOffsets(ChangedAccess):
    """imm9 isn't signed."""

    def changed(self, access, f):
        has_imm9 = access.family not in (PAIR, REGISTER, LITERAL, EXCLUSIVE)
        return access._replace(offset=f['imm']) if has_imm9 and access.offset < 0 else access


class UnscaledPairOffset(ChangedAccess):
    def changed(self, access, f):
        return access._replace(offset=access.offset // access.width) if access.family == PAIR else access


class PairOffsetByBoth(ChangedAccess):
    """imm7 is multiplied by the bytes of both registers."""

    def changed(self, access, f):
        return access._replace(offset=access.offset * 2) if access.family == PAIR else access


class LiteralFromNext(ChangedAccess):
    """A literal counts from the next word."""

    def changed(self, access, f):
        return access._replace(offset=access.offset + 4) if access.family == LITERAL else access


class UnscaledLiteral(ChangedAccess):
    def changed(self, access, f):
        return access._replace(offset=access.offset // 4) if access.family == LITERAL else access


class IndexUnshifted(ChangedAccess):
    def changed(self, access, f):
        return access._replace(shift=0)


class IndexAlwaysShifted(ChangedAccess):
    def changed(self, access, f):
        return access._replace(shift=f['size']) if access.family == REGISTER else access


class IndexNeverSigned(ChangedAccess):
    def changed(self, access, f):
        return access._replace(option=0b010) if access.option == 0b110 else access


class IndexAlwaysSigned(ChangedAccess):
    def changed(self, access, f):
        return access._replace(option=0b110) if access.option == 0b010 else access


class IndexSignedAs64(ChangedAccess):
    """Option 111 takes 32 bits."""

    def changed(self, access, f):
        return access._replace(option=0b110) if access.option == 0b111 else access


class NoWriteback(ChangedAccess):
    def changed(self, access, f):
        return access._replace(writeback=False)


class WritesBackPairOffset(ChangedAccess):
    """A pair with an offset writes back too."""

    def changed(self, access, f):
        return access._replace(writeback=True) if access.family == PAIR and f['mode'] == PAIR_OFFSET else access


class PrefetchLoads(ChangedAccess):
    def changed(self, access, f):
        return access._replace(prefetch=False, width=access.width or 8)


class PostAsPre(Model):
    def is_post(self, access, f):
        return False


class WritesBackLoaded(Model):
    """The base is moved after the load, from a register that the load may have changed: no case can tell."""

    def write_back(self, state, access, moved):
        self.set(state, access.base, self.moved_base(state, access), NONE)


class LiteralTaint(Model):
    """5 for a literal whose target is tainted."""

    def is_tainted(self, state, access, address):
        if access.family == LITERAL:
            return any(self.read_target(state, access, access.targets[0])[1])
        return super().is_tainted(state, access, address)


class PrefetchTaint(Model):
    """5 for a prefetch too."""

    def is_refused(self, answer, state, word, family, f, access, address):
        if answer == 5 and access.prefetch:
            return self.is_tainted(state, access, address)
        return super().is_refused(answer, state, word, family, f, access, address)


class PrefetchWindow(Model):
    """7 for a prefetch too."""

    def is_refused(self, answer, state, word, family, f, access, address):
        if answer == 7 and access.prefetch:
            return self.is_outside(state, access, address)
        return super().is_refused(answer, state, word, family, f, access, address)


class PrefetchAddress(Model):
    """A prefetch shows its address."""

    def done(self, state, access, address):
        answer, code, _, status = super().done(state, access, address)
        return answer, code, address, status


class UnpredictableDone(Model):
    def is_unpredictable(self, state, access, address):
        return False


class UnpredictableStackPointer(Model):
    """4 for SP with the zero register too."""

    def is_unpredictable(self, state, access, address):
        return access.writeback and access.base in access.targets or super().is_unpredictable(state, access, address)


class UnpredictableByRtOnly(Model):
    """Rt2 of a pair store isn't compared with the base."""

    def is_unpredictable(self, state, access, address):
        if access.family == PAIR and access.store:
            access = access._replace(targets=access.targets[:1])
        return super().is_unpredictable(state, access, address)


class UnpredictableButZero(Model):
    """A pair load of the zero register twice is done."""

    def is_unpredictable(self, state, access, address):
        return access.targets != (LAST, LAST) and super().is_unpredictable(state, access, address)


class UnpredictablePairStore(Model):
    """4 for a pair store of one register twice."""

    def is_unpredictable(self, state, access, address):
        return super().is_unpredictable(state, access._replace(store=False), address)


class AlignsOrdered(Model):
    """6 for each ordered access that isn't aligned to its size."""

    def is_misaligned(self, state, access, address):
        return access.family == ORDERED and address % access.width != 0 or super().is_misaligned(state, access, address)


class NeverMisaligned(Model):
    def is_misaligned(self, state, access, address):
        return False


class AlignsAll(Model):
    """6 for each access that crosses a block."""

    def is_misaligned(self, state, access, address):
        return address // 16 != (address + access.length() - 1) // 16


class StackUntested(Model):
    """SP's alignment isn't tested, as in 01 without CR 1."""

    def is_stack_misaligned(self, state, access, address):
        return False


class StackWithOffset(Model):
    """The address of an access by SP is tested, and not SP itself."""

    def is_stack_misaligned(self, state, access, address):
        return access.base == LAST and address % 16 != 0


class StackOf8(Model):
    """SP needs only be a multiple of 8."""

    def is_stack_misaligned(self, state, access, address):
        return access.base == LAST and state.registers[LAST] % 8 != 0


class StackByX30(Model):
    """A base of X30 is tested too."""

    def is_stack_misaligned(self, state, access, address):
        return access.base in (30, LAST) and state.registers[access.base] % 16 != 0


class StackOfLiteral(Model):
    """SP is tested where it is no base: of a literal."""

    def is_stack_misaligned(self, state, access, address):
        return access.base in (None, LAST) and state.registers[LAST] % 16 != 0


class StackOfPrefetch(Model):
    """SP is tested of a prefetch too."""

    def is_refused(self, answer, state, word, family, f, access, address):
        if answer == STACK:
            return self.is_stack_misaligned(state, access, address)
        return super().is_refused(answer, state, word, family, f, access, address)


class StackBeforeTaint(Model):
    ORDER = (1, 2, 3, 4, STACK, 5, 6, 7, 8)


class StackAfterBlock(Model):
    ORDER = (1, 2, 3, 4, 5, 6, STACK, 7, 8)


class StackAfterWindow(Model):
    ORDER = (1, 2, 3, 4, 5, 6, 7, STACK, 8)


class StackWithAddress(Model):
    """SP's refusal reports the address of the access."""

    def refusal(self, answer, state, address):
        return (6, 0, address) if answer == STACK else super().refusal(answer, state, address)


class StackWrittenBack(Model):
    """The base is written back before SP is tested."""

    def refusal(self, answer, state, address):
        if answer == STACK:
            self.set(state, LAST, address, NONE)
            return 6, 0, address
        return super().refusal(answer, state, address)


class LastByteAllowed(Model):
    """The end of the window is one too far."""

    def is_outside(self, state, access, address):
        return not (state.origin <= address and address + self.span(access) <= state.end() + 1)


class LastByteRefused(Model):
    def is_outside(self, state, access, address):
        return not (state.origin <= address and address + self.span(access) < state.end())


class FirstByteRefused(Model):
    def is_outside(self, state, access, address):
        return not (state.origin < address and address + self.span(access) <= state.end())


class NoOriginTest(Model):
    """An access below the window is taken if it ends inside."""

    def is_outside(self, state, access, address):
        return address + self.span(access) > state.end()


class WindowEnd(Model):
    """A window that ends at 2^64 is refused."""

    def is_bad_window(self, state):
        return state.end() >= SPACE or super().is_bad_window(state)


class WindowEndFree(Model):
    """A window may end one later."""

    def is_bad_window(self, state):
        return (state.end() > SPACE + 1 or state.readonly > len(state.memory) or len(state.taint) != len(state.memory)
                or state.pc % 4 != 0)


class ReadOnlyAllRefused(Model):
    """r equal to the length is refused."""

    def is_bad_window(self, state):
        return state.readonly >= len(state.memory) > 0 or super().is_bad_window(state)


class TaintMayBeLonger(Model):
    def is_bad_window(self, state):
        return (state.end() > SPACE or state.readonly > len(state.memory) or len(state.taint) < len(state.memory)
                or state.pc % 4 != 0)


class AnyPc(Model):
    def is_bad_window(self, state):
        return (state.end() > SPACE or state.readonly > len(state.memory) or len(state.taint) != len(state.memory))


class EvenPc(Model):
    """PC needs only be even."""

    def is_bad_window(self, state):
        return (state.end() > SPACE or state.readonly > len(state.memory) or len(state.taint) != len(state.memory)
                or state.pc % 2 != 0)


class ChangedRun(Model):
    def run(self, words, given, room, places):
        return self.changed(super().run(words, given, room, places), words, given)


class RefusalInTrace(ChangedRun):
    """The refused step is written to the trace."""

    def changed(self, outcome, words, given):
        trace = list(outcome.trace)
        if outcome.answer in range(2, 9):
            trace[2 * outcome.steps:2 * outcome.steps + 2] = outcome.code, outcome.address
        return outcome._replace(trace=trace)


class ClearsTrace(ChangedRun):
    """The rest of the trace becomes 0."""

    def changed(self, outcome, words, given):
        rest = len(outcome.trace) - 2 * outcome.steps
        return outcome._replace(trace=outcome.trace[:2 * outcome.steps] + [0] * rest)


class CountsRefusal(ChangedRun):
    """The refused step counts."""

    def changed(self, outcome, words, given):
        return outcome._replace(steps=outcome.steps + (outcome.answer in range(2, 9)))


class CountsWords(ChangedRun):
    def changed(self, outcome, words, given):
        return outcome._replace(steps=len(words))


class RoomByStep(Model):
    """The trace is tested as the steps are done, and not before."""

    def run(self, words, given, room, places):
        outcome = super().run(words, given, 2 * len(words), places)
        if outcome.answer in (1, 10) or 2 * outcome.steps <= room:
            trace = (outcome.trace[:2 * outcome.steps] + [UNTOUCHED] * room)[:room]
            return outcome._replace(trace=trace)
        return super().run(words, given, room, places)


class RoomFirst(Model):
    """10 before 1."""

    def run(self, words, given, room, places):
        if self.is_short(words, room, places):
            return self.not_begun(10, given, room, places)
        return super().run(words, given, room, places)


class RoomExact(Model):
    """A trace that is longer than two numbers a word is refused."""

    def is_short(self, words, room, places):
        return room > 2 * len(words) or super().is_short(words, room, places)


class OddRoom(Model):
    """A trace of an odd length is refused."""

    def is_short(self, words, room, places):
        return room % 2 != 0 or super().is_short(words, room, places)


WARNED = [
    KeepsUpperHalf, SignsUpperHalf, LoadsStackPointer, StoresStackPointer, IndexesStackPointer, WritesBackFirst,
    WritesBackBeforeReadOnly, WrapsEnd, WrapsBothEnds, TaintsByFirstByte, TaintsByLastByte, LeavesState, LeavesAllButPc,
    AlwaysRefuses, TaintsAll, TaintsLoadedAndStored, TaintsNoLoad, TaintsNoStore, KeepsStoredTaint, TaintsBase,
    SecondFirst, RefusesReadOnlyLoad, OneReadOnlyMore, OneReadOnlyLess, WindowBeforeBlock, CountsOneOfPair,
    TestsOneOfPair, SaturatesPc, BaseTaintOnly, IndexTaintOnly, IndexTaintIfScaled, IndexTaintIfShifted,
    TaintAfterWindow, TaintAfterReadOnly, TaintAfterBlock]
SLIPS = [
    TaintBeforeUnpredictable, ReadOnlyBeforeWindow, ReadOnlyBeforeBlock, UndefinedAsForeign, NoRefusedAddress,
    AddressOfTaint, TaintsPairTogether, TaintOnlyIfOne, StoresTaintOf255, KeepsLoadedTaint, BigEndian, ZeroesAbove,
    UnsignedOffsets, UnscaledPairOffset, PairOffsetByBoth, LiteralFromNext, UnscaledLiteral, IndexUnshifted,
    IndexAlwaysShifted, IndexNeverSigned, IndexAlwaysSigned, IndexSignedAs64, NoWriteback, WritesBackPairOffset,
    PrefetchLoads, PostAsPre, LiteralTaint, PrefetchTaint, PrefetchWindow, PrefetchAddress, UnpredictableDone,
    UnpredictableStackPointer, UnpredictableByRtOnly, UnpredictableButZero, UnpredictablePairStore, AlignsOrdered,
    NeverMisaligned, AlignsAll, LastByteAllowed, LastByteRefused, FirstByteRefused, NoOriginTest,
    WindowEnd, WindowEndFree, ReadOnlyAllRefused, TaintMayBeLonger, AnyPc, EvenPc, RefusalInTrace, ClearsTrace,
    CountsRefusal, CountsWords, RoomByStep, RoomFirst, RoomExact, OddRoom]
STACKS = [
    StackUntested, StackWithOffset, StackOf8, StackByX30, StackOfLiteral, StackOfPrefetch, StackBeforeTaint, StackAfterBlock,
    StackAfterWindow, StackWithAddress, StackWrittenBack]
# No input tells these from the right one: a step that writes back has a base without a mark, or it is 5, and loads into no
# register that is its base, or it is 4.
SAME = [KeepsBaseTaint, UnmarksOneByteOfBase, WritesBackLoaded]


# Wrong runs, which only more than one word can show.

class CopiesFirstStep(ChangedRun):
    """The first step is done, and its trace copied for the others."""

    def changed(self, outcome, words, given):
        first = Model().run(words[:1], given, 2, 1)
        if not outcome.steps:
            return outcome
        trace = first.trace * outcome.steps + outcome.trace[2 * outcome.steps:]
        return outcome._replace(state=first.state, trace=trace)


class GoesOn(Model):
    """A refused word is passed over."""

    def run(self, words, given, room, places):
        kept, state = [], given.copy()
        for word in words:
            if self.step(word, state)[0] == 0:
                kept.append(word)
        return super().run(kept or words, given, room, places)


class AnswersLastDone(ChangedRun):
    """Code and address of a run are those of the last step done."""

    def changed(self, outcome, words, given):
        if not outcome.steps:
            return outcome
        code, address = outcome.trace[2 * outcome.steps - 2:2 * outcome.steps]
        return outcome._replace(code=code, address=address)


class ForgetsAll(ChangedRun):
    """A refused run leaves everything as it was given."""

    def changed(self, outcome, words, given):
        return outcome._replace(state=given) if outcome.answer else outcome


class EmptyUntested(Model):
    """An empty list isn't refused."""

    def run(self, words, given, room, places):
        return super().run(words, given, room, places) if words else self.not_begun(0, given, room, places)


class PcOfFirst(Model):
    """Every literal counts from the first word's PC."""

    def run(self, words, given, room, places):
        self.first = given.pc
        return super().run(words, given, room, places)

    def base_of(self, state, access):
        return self.first if access.base is None else super().base_of(state, access)


RUNS = [CopiesFirstStep, GoesOn, AnswersLastDone, ForgetsAll, EmptyUntested, PcOfFirst]


# Right but at one value, or in one window.

class SignedLoad(Model):
    """The sign of a loaded value is taken from another number on, for one width of load and one kind."""
    width, above, first = None, None, None

    def extended(self, access, value, old):
        if (access.width, access.above) != (self.width, self.above):
            return super().extended(access, value, old)
        bits = 8 * self.width
        number = value - (1 << bits) if value >= self.first else value
        return number % (SPACE if self.above == SIGNED_64 else 1 << 32)


def signed_loads():
    """Each width and kind with the sign one too early, and one too late."""
    kinds = [(1, SIGNED_64, 'Byte64'), (1, SIGNED_32, 'Byte32'), (2, SIGNED_64, 'Half64'), (2, SIGNED_32, 'Half32'),
             (4, SIGNED_64, 'Word64')]
    for width, above, name in kinds:
        for move, how in ((-1, 'Early'), (1, 'Late')):
            fields = {'width': width, 'above': above, 'first': (1 << 8 * width - 1) + move}
            yield type(name + 'Signed' + how, (SignedLoad,), fields)


class UnsignedLoadSigned(Model):
    """A load with zeros above is signed at its highest value bit."""

    def extended(self, access, value, old):
        kind = SIGNED_64 if access.above == ZEROS and access.width < 8 else access.above
        return super().extended(access._replace(above=kind), value, old)


class SignedIndex(Model):
    """The sign of a 32-bit index is taken from another number on."""
    first = None

    def index_of(self, state, access):
        if access.option != 0b110:
            return super().index_of(state, access)
        value = self.read_index(state, access)[0] % (1 << 32)
        return (value - (1 << 32) if value >= self.first else value) << access.shift


class IndexSignedEarly(SignedIndex):
    first = (1 << 31) - 1


class IndexSignedLate(SignedIndex):
    first = (1 << 31) + 1


class IndexCutWhereSigned(Model):
    """A 32-bit index that is signed is cut to 32 bits again when it is shifted."""

    def index_of(self, state, access):
        index = super().index_of(state, access)
        return index % (1 << 32) if access.option == 0b110 and access.shift else index


class IndexShiftCut(Model):
    """A 32-bit index loses what is shifted out of 32 bits."""

    def index_of(self, state, access):
        index = super().index_of(state, access)
        return index % (1 << 32) if access.option == 0b010 else index


class OneReadOnlyIsNone(Model):
    """One read-only byte protects nothing."""

    def is_read_only(self, state, access, address):
        return state.readonly != 1 and super().is_read_only(state, access, address)


class FirstAddressInside(Model):
    """A window that begins at 1 is taken to begin at 0."""

    def is_outside(self, state, access, address):
        return (state.origin, address) != (1, 0) and super().is_outside(state, access, address)


class LastAddressInside(Model):
    """A window that ends one byte before 2^64 is taken to end there."""

    def is_outside(self, state, access, address):
        end = SPACE if state.end() == SPACE - 1 else state.end()
        return not (state.origin <= address and address + self.span(access) <= end)


class LastAddressOutside(Model):
    """The last byte of the address space is never inside."""

    def is_outside(self, state, access, address):
        return address + self.span(access) == SPACE or super().is_outside(state, access, address)


EDGES = [*signed_loads(), UnsignedLoadSigned, IndexSignedEarly, IndexSignedLate, IndexCutWhereSigned, IndexShiftCut,
         OneReadOnlyIsNone, FirstAddressInside, LastAddressInside, LastAddressOutside]
