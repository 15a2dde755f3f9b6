"""Wrong machines of vector registers (02, CR 12, with the marks of CR 13), each with one error.

The stored cases have to tell every one of them from the right machine, as those of machine_mutants.py. The last two lists are of
machines that mark too little or too much, which a pair of runs has to break with (mark_mutants.py).
"""
from machine_model import (
    LAST, LITERAL, NONE, ORDERED, PAIR, REGISTER, UNSCALED, UNSIGNED, VECTOR_ALL, VECTOR_NONE, Model, marks_of)


# Words.

class VectorsForeign(Model):
    """01 without CR 12: a word with bit 26 set isn't of the set."""

    def family_of(self, word):
        return None if word >> 26 & 1 else super().family_of(word)


class VectorsAsGeneral(Model):
    """Bit 26 isn't looked at."""

    def family_of(self, word):
        return super().family_of(word & ~(1 << 26))

    def step(self, word, state):
        return super().step(word & ~(1 << 26), state)


class OrderedVectors(Model):
    """Ordered words with bit 26 set are taken as those without."""

    def step(self, word, state):
        plain = word & ~(1 << 26)
        return super().step(plain if self.family_of(plain) == ORDERED else word, state)


class VectorRule(Model):
    """Something about which words of vectors are undefined is wrong."""

    def is_undefined_vector(self, family, f):
        return self.undefined(family, f, super().is_undefined_vector(family, f))


class UndefinedAsGeneral(VectorRule):
    """01's undefined words are taken in place of 02's, for pairs."""

    def undefined(self, family, f, right):
        return f['opc'] == 0b11 or f['opc'] == 0b01 and f['load'] == 0 if family == PAIR else right


class UndefinedLiteralDone(VectorRule):
    """Literal opc 11 is a load of 32 bytes."""

    def undefined(self, family, f, right):
        return family != LITERAL and right


class UndefinedPairDone(VectorRule):
    def undefined(self, family, f, right):
        return family != PAIR and right


class UndefinedOptionDone(VectorRule):
    """Register option bit 1 may be clear."""

    def undefined(self, family, f, right):
        return right and not (family == REGISTER and f['option'] & 0b010 == 0)

    def index_of(self, state, access):
        return super().index_of(state, access._replace(option=access.option | 0b010))


class QuadOfAnySize(VectorRule):
    """opc bit 1 gives 16 bytes whatever the size is."""

    def undefined(self, family, f, right):
        return right and not (family not in (LITERAL, PAIR) and f['opc'] & 0b10)


class QuadUndefined(VectorRule):
    """opc bit 1 is undefined, whatever the size is."""

    def undefined(self, family, f, right):
        return right or family not in (LITERAL, PAIR) and f['opc'] & 0b10 != 0


# What a word says.

class QuadAsByte(Model):
    """16 bytes are taken as the one that size gives."""

    def vector_scale(self, f):
        return f['size']


class ChangedVector(Model):
    """Something about what a word of vectors says is wrong."""

    def access_of(self, family, f):
        access = super().access_of(family, f)
        return self.changed(access, f) if access.vector else access


class QuadOffsetBy8(ChangedVector):
    """An offset of 16 bytes is scaled by 8."""

    def changed(self, access, f):
        return access._replace(offset=access.offset // 2) if access.width == 16 and access.family == UNSIGNED else access


class QuadPairOffsetBy8(ChangedVector):
    def changed(self, access, f):
        return access._replace(offset=access.offset // 2) if access.width == 16 and access.family == PAIR else access


class QuadIndexBy8(ChangedVector):
    """An index of 16 bytes is shifted by 3."""

    def changed(self, access, f):
        return access._replace(shift=min(access.shift, 3))


class QuadIndexBySize(ChangedVector):
    """An index is shifted by size, which is 0 for 16 bytes."""

    def changed(self, access, f):
        return access._replace(shift=f['size']) if access.shift == 4 else access


class UnscaledIsScaled(ChangedVector):
    def changed(self, access, f):
        return access._replace(offset=access.offset * access.width) if access.family == UNSCALED else access


class LiteralByWidth(ChangedVector):
    """imm19 is multiplied by the bytes of the access."""

    def changed(self, access, f):
        return access._replace(offset=access.offset // 4 * access.width) if access.family == LITERAL else access


class VectorNoWriteback(ChangedVector):
    def changed(self, access, f):
        return access._replace(writeback=False)


class PairOfOneWidth(ChangedVector):
    """A pair of opc 01 has the four bytes of general registers' one."""

    def changed(self, access, f):
        return access._replace(width=4, offset=access.offset // 2) if access.family == PAIR and access.width == 8 else access


class StoresByOpc(ChangedVector):
    """opc 10 loads, as it does for general registers."""

    def changed(self, access, f):
        return access._replace(store=False) if access.family != PAIR and access.width == 16 else access


# Registers.

class VectorZero(Model):
    """Register 31 of vectors reads zero."""

    def read_vector(self, state, number):
        return (0, VECTOR_NONE) if number == LAST else super().read_vector(state, number)


class VectorZeroDrops(Model):
    """What is loaded into register 31 of vectors is dropped."""

    def set_vector(self, state, number, value, taint):
        if number != LAST:
            super().set_vector(state, number, value, taint)


class VectorZeroTaint(Model):
    """Register 31 of vectors has its value, and no taint."""

    def read_vector(self, state, number):
        value, taint = super().read_vector(state, number)
        return value, VECTOR_NONE if number == LAST else taint


class LoadsKeepAbove(Model):
    """A load of one width leaves what is above it as it was."""
    width = None

    def extended(self, access, value, old):
        right = super().extended(access, value, old)
        kept = access.vector and access.width == self.width
        return right | old >> 8 * access.width << 8 * access.width if kept else right


class ByteKeepsAbove(LoadsKeepAbove):
    width = 1


class HalfKeepsAbove(LoadsKeepAbove):
    width = 2


class WordKeepsAbove(LoadsKeepAbove):
    width = 4


class DoubleKeepsAbove(LoadsKeepAbove):
    width = 8


class KeepsUpperHalf(Model):
    """A load of up to eight bytes clears the low half alone."""

    def extended(self, access, value, old):
        right = super().extended(access, value, old)
        return right | old >> 64 << 64 if access.vector and access.width <= 8 else right


class HalvesExchanged(Model):
    """A load of 16 bytes has its high half first in memory."""

    def extended(self, access, value, old):
        right = super().extended(access, value, old)
        return right >> 64 | right % (1 << 64) << 64 if access.width == 16 else right


class HalvesStoredExchanged(Model):
    def store(self, state, access, address):
        super().store(state, access, address)
        if access.width == 16:
            for at in range(address - state.origin, address - state.origin + access.length(), 16):
                state.memory[at:at + 16] = state.memory[at + 8:at + 16] + state.memory[at:at + 8]


class LowHalfTwice(Model):
    """The low half of 16 bytes is loaded into both."""

    def extended(self, access, value, old):
        right = super().extended(access, value, old)
        return right % (1 << 64) * ((1 << 64) + 1) if access.width == 16 else right


class SignsVector(Model):
    """A load of fewer than 16 bytes is signed to 128 bits."""

    def extended(self, access, value, old):
        right = super().extended(access, value, old)
        is_negative = access.vector and access.width < 16 and right >> 8 * access.width - 1
        return right + (1 << 128) - (1 << 8 * access.width) if is_negative else right


class PairBy8(Model):
    """A pair of 16 bytes has 8 between its registers."""

    def load(self, state, access, address):
        super().load(state, access, address)
        if access.family == PAIR and access.width == 16:
            super().load(state, access._replace(family=UNSCALED, targets=access.targets[1:]), address + 8)


class VectorSecondFirst(Model):
    """A pair of vectors has its second register at the lower address."""

    def part(self, access, k):
        return len(access.targets) - 1 - k if access.vector else k


class WritesGeneral(Model):
    """A load of a vector changes the general register of its number too."""

    def set_vector(self, state, number, value, taint):
        super().set_vector(state, number, value, taint)
        self.write(state, number, value % (1 << 64), taint[:8])


class StoresGeneral(Model):
    """A store takes the general register of its number where that has enough bytes."""

    def read_target(self, state, access, number):
        return super().read_target(state, access._replace(vector=access.vector and access.width > 8), number)


class NextVector(Model):
    """The second register of a pair is the one behind the first."""

    def access_of(self, family, f):
        access = super().access_of(family, f)
        if access.vector and family == PAIR:
            access = access._replace(targets=(access.targets[0], (access.targets[0] + 1) % 32))
        return access


class SixteenVectors(Model):
    """There are sixteen vector registers."""

    def set_vector(self, state, number, value, taint):
        super().set_vector(state, number % 16, value, taint)


# Tests.

class WritebackCollides(Model):
    """4 for writeback to a base of a vector register's number."""

    def is_unpredictable(self, state, access, address):
        return super().is_unpredictable(state, access._replace(vector=False), address)


class VectorPairTwice(Model):
    """A pair load into one vector register twice is done."""

    def is_unpredictable(self, state, access, address):
        return not access.vector and super().is_unpredictable(state, access, address)


class VectorPairTwiceBut31(Model):
    def is_unpredictable(self, state, access, address):
        is_last = access.vector and access.targets == (LAST, LAST)
        return not is_last and super().is_unpredictable(state, access, address)


class VectorPairStoreTwice(Model):
    """4 for a pair store of one vector register twice."""

    def is_unpredictable(self, state, access, address):
        return super().is_unpredictable(state, access._replace(store=access.store and not access.vector), address)


class BaseUntested(Model):
    """The marks of a base or index aren't tested where vectors are moved."""

    def is_tainted(self, state, access, address):
        return not access.vector and super().is_tainted(state, access, address)


class VectorTaintTested(Model):
    """5 where a vector register of the base's number is marked."""

    def is_base_tainted(self, state, access):
        return access.vector and any(state.vector_taints[access.base]) or super().is_base_tainted(state, access)


class TargetTaintTested(Model):
    """5 where the vector register that is moved is marked."""

    def is_tainted(self, state, access, address):
        moved = access.vector and any(any(state.vector_taints[number]) for number in access.targets)
        return moved or super().is_tainted(state, access, address)


class StackUntestedByVectors(Model):
    def is_stack_misaligned(self, state, access, address):
        return not access.vector and super().is_stack_misaligned(state, access, address)


class QuadAligned(Model):
    """6 for 16 bytes that aren't aligned."""

    def is_misaligned(self, state, access, address):
        return access.width == 16 and address % 16 != 0 or super().is_misaligned(state, access, address)


class VectorBlock(Model):
    """6 for a vector that isn't wholly inside a block of 16."""

    def is_misaligned(self, state, access, address):
        crosses = address // 16 != (address + access.length() - 1) // 16
        return access.vector and crosses or super().is_misaligned(state, access, address)


class WindowOf8(Model):
    """The window is tested for at most 8 bytes of each register."""

    def span(self, access):
        return min(access.width, 8) * len(access.targets)


class WindowOf16(Model):
    """The window is tested for at most 16 bytes in all."""

    def span(self, access):
        return min(access.length(), 16)


class ReadOnlyByVectors(Model):
    """The first r bytes may be written by vectors."""

    def is_read_only(self, state, access, address):
        return not access.vector and super().is_read_only(state, access, address)


class CodeOf8(Model):
    """The code counts at most 8 bytes of each register."""

    def code_of(self, access):
        return super().code_of(access._replace(width=min(access.width, 8)))


class CodeBelow32(Model):
    """The code of a pair of 16 bytes has lost its highest bit."""

    def code_of(self, access):
        return super().code_of(access) & ~32


class LoadsBeforeWindow(Model):
    """What is inside the window is loaded before the access is refused."""

    def is_outside(self, state, access, address):
        outside = super().is_outside(state, access, address)
        at = address - state.origin
        if outside and access.vector and not access.store and 0 <= at < len(state.memory):
            value = int.from_bytes(state.memory[at:at + access.width], 'little')
            self.set_vector(state, access.targets[0], value, VECTOR_NONE)
        return outside


class ClearsBeforeWindow(Model):
    """The target is cleared before the access is refused."""

    def is_outside(self, state, access, address):
        outside = super().is_outside(state, access, address)
        if outside and access.vector and not access.store:
            self.set_vector(state, access.targets[0], 0, VECTOR_NONE)
        return outside


class LeavesVectors(Model):
    """A load leaves the vector registers as they are."""

    def set_vector(self, state, number, value, taint):
        pass


class LeavesVectorTaints(Model):
    """A load leaves the marks of vector registers as they are."""

    def set_vector(self, state, number, value, taint):
        super().set_vector(state, number, value, state.vector_taints[number])


class StoreOpensMonitor(Model):
    """A store of a vector opens the monitor."""

    def store(self, state, access, address):
        super().store(state, access, address)
        if access.vector:
            self.open(state)


class LoadOpensMonitor(Model):
    def load(self, state, access, address):
        super().load(state, access, address)
        if access.vector:
            self.open(state)


class ForgetsVectors(Model):
    """A refused run leaves the vector registers as they were given."""

    def run(self, words, given, room, places):
        outcome = super().run(words, given, room, places)
        if outcome.answer:
            outcome.state.vectors, outcome.state.vector_taints = list(given.vectors), list(given.vector_taints)
        return outcome


class EachStepFromGiven(Model):
    """Each word of a run finds the vector registers as they were given."""

    def run(self, words, given, room, places):
        self.given = list(given.vectors)
        return super().run(words, given, room, places)

    def read_vector(self, state, number):
        return self.given[number], super().read_vector(state, number)[1]


WORDS = [
    VectorsForeign, VectorsAsGeneral, OrderedVectors, UndefinedAsGeneral, UndefinedLiteralDone, UndefinedPairDone,
    UndefinedOptionDone, QuadOfAnySize, QuadUndefined, QuadAsByte, QuadOffsetBy8, QuadPairOffsetBy8, QuadIndexBy8,
    QuadIndexBySize, UnscaledIsScaled, LiteralByWidth, VectorNoWriteback, PairOfOneWidth, StoresByOpc]
REGISTERS = [
    VectorZero, VectorZeroDrops, VectorZeroTaint, ByteKeepsAbove, HalfKeepsAbove, WordKeepsAbove, DoubleKeepsAbove,
    KeepsUpperHalf, HalvesExchanged, HalvesStoredExchanged, LowHalfTwice, SignsVector, PairBy8, VectorSecondFirst,
    WritesGeneral, StoresGeneral, NextVector, SixteenVectors]
TESTS = [
    WritebackCollides, VectorPairTwice, VectorPairTwiceBut31, VectorPairStoreTwice, BaseUntested, VectorTaintTested,
    TargetTaintTested, StackUntestedByVectors, QuadAligned, VectorBlock, WindowOf8, WindowOf16, ReadOnlyByVectors, CodeOf8,
    CodeBelow32, LoadsBeforeWindow, ClearsBeforeWindow, LeavesVectors, LeavesVectorTaints, StoreOpensMonitor,
    LoadOpensMonitor, ForgetsVectors, EachStepFromGiven]


# Too little is marked.

class LoadedMarks(Model):
    """The marks that a load of vectors leaves are wrong."""

    def loaded_taint(self, access, taint, old):
        right = super().loaded_taint(access, taint, old)
        return self.changed(access, right, old) if access.vector else right


class UpperHalfUnmarked(LoadedMarks):
    """A load marks the low half alone."""

    def changed(self, access, right, old):
        return right[:8] + VECTOR_NONE[8:]


class UpperHalfAsLower(LoadedMarks):
    """The upper half of 16 bytes has the marks of the low half."""

    def changed(self, access, right, old):
        return right[:8] * 2 if access.width == 16 else right


class MarksExchanged(LoadedMarks):
    """The marks of the halves are exchanged."""

    def changed(self, access, right, old):
        return right[8:] + right[:8] if access.width == 16 else right


class LastByteUnmarked(LoadedMarks):
    def changed(self, access, right, old):
        return right[:15] + b'\0'


class StoredMarks(Model):
    """The marks that a store of vectors leaves are wrong."""

    def stored_taint(self, access, taint, old):
        right = super().stored_taint(access, taint, old)
        return self.changed(access, right, taint) if access.vector else right


class UpperHalfStoredUnmarked(StoredMarks):
    def changed(self, access, right, taint):
        return right[:8] + bytes(access.width - 8) if access.width == 16 else right


class UpperHalfStoredAsLower(StoredMarks):
    def changed(self, access, right, taint):
        return right[:8] * 2 if access.width == 16 else right


class StoresUpperMarks(StoredMarks):
    """A store of up to eight bytes takes the marks of the upper half."""

    def changed(self, access, right, taint):
        return marks_of(taint[8:8 + access.width]) if access.width <= 8 else right


class StoresGeneralMarks(Model):
    """The marks of a store are those of the general register of its number, and none above eight bytes."""

    def read_target(self, state, access, number):
        value, taint = super().read_target(state, access, number)
        return value, self.read(state, number)[1] + NONE if access.vector else taint


class VectorsUnmarked(LoadedMarks):
    def changed(self, access, right, old):
        return VECTOR_NONE


# Too much is marked.

class KeepsUpperMarks(LoadedMarks):
    """A load of up to eight bytes leaves the marks of the upper half."""

    def changed(self, access, right, old):
        return right[:8] + old[8:] if access.width <= 8 else right


class KeepsMarksAboveWidth(LoadedMarks):
    def changed(self, access, right, old):
        return right[:access.width] + old[access.width:]


class MarksWholeVector(LoadedMarks):
    """A vector register is marked whole where one of its bytes is: CR 12 without CR 13."""

    def changed(self, access, right, old):
        return VECTOR_ALL if any(right) else VECTOR_NONE


class MarksHalfVector(LoadedMarks):
    """A half is marked whole where one of its bytes is."""

    def changed(self, access, right, old):
        return b''.join(bytes([any(half)]) * 8 for half in (right[:8], right[8:]))


class MarksZeros(LoadedMarks):
    """What a load clears has the mark of the top byte loaded."""

    def changed(self, access, right, old):
        return right[:access.width] + bytes([right[access.width - 1]]) * (16 - access.width)


class StoresWholeVector(StoredMarks):
    """Every byte stored is marked where one of the register's sixteen is."""

    def changed(self, access, right, taint):
        return bytes([any(taint)]) * access.width


class StoresHalfVector(StoredMarks):
    def changed(self, access, right, taint):
        return bytes(any(taint[:8] if i < 8 else taint[8:]) for i in range(access.width))


VECTOR_TOO_FEW = [
    UpperHalfUnmarked, UpperHalfAsLower, MarksExchanged, LastByteUnmarked, UpperHalfStoredUnmarked, UpperHalfStoredAsLower,
    StoresUpperMarks, StoresGeneralMarks, VectorsUnmarked]
VECTOR_TOO_MANY = [
    KeepsUpperMarks, KeepsMarksAboveWidth, MarksWholeVector, MarksHalfVector, MarksZeros, StoresWholeVector, StoresHalfVector]
