"""Wrong machines of marks by byte (02, CR 13), each with one error.

The stored cases have to tell every one of them from the right machine, as those of machine_mutants.py. The first two lists are
of machines that mark too little or too much: a pair of runs, from 0 and from 255 in every marked byte, has to break with each
of them (replay_pairs.py), though it knows nothing of the right marks. The third list is of the others.
"""
from machine_model import ALL, EXCLUSIVE, LITERAL, NONE, PAIR, SIGNED_32, SIGNED_64, ZEROS, Model, marks_of


# Loads: too little is marked.

class SignByFirstByte(Model):
    """Copies of the sign have the mark of the first byte loaded."""

    def sign_mark(self, loaded):
        return loaded[0]


class SignUnmarked(Model):
    def sign_mark(self, loaded):
        return 0


class SignEndsAtHalf(Model):
    """The copies of a sign to 64 bits are marked up to byte 3."""

    def loaded_taint(self, access, taint, old):
        right = super().loaded_taint(access, taint, old)
        return right[:4] + NONE[4:] if access.above == SIGNED_64 else right


class SecondAsFirst(Model):
    """The second register of a pair gets the marks of the first."""

    def load(self, state, access, address):
        super().load(state, access, address)
        if access.family == PAIR:
            (_, taint), (value, _) = (self.read_target(state, access, number) for number in access.targets)
            self.write_target(state, access, access.targets[1], value, taint)


class SecondStoredAsFirst(Model):
    """The bytes of a pair's second register get the marks of the first."""

    def store(self, state, access, address):
        super().store(state, access, address)
        if access.family == PAIR:
            at = address - state.origin
            state.taint[at + access.width:at + access.length()] = state.taint[at:at + access.width]


class BigEndianMarks(Model):
    """A load takes its marks in the other order."""

    def read_marks(self, taint):
        return super().read_marks(taint)[::-1]


class BigEndianStoredMarks(Model):
    def stored_taint(self, access, taint, old):
        return super().stored_taint(access, taint, old)[::-1]


class MemoryByLowestBit(Model):
    """Only an odd taint byte of memory is a mark."""

    def read_marks(self, taint):
        return bytes(byte & 1 for byte in taint)


class MemoryByHighestBit(Model):
    def read_marks(self, taint):
        return bytes(byte >> 7 for byte in taint)


class StoresOnlyOnes(Model):
    """Only a taint byte of 1 of a register is a mark to a store."""

    def stored_taint(self, access, taint, old):
        return bytes(byte == 1 for byte in taint[:access.width])


class StoresByLowestByte(Model):
    """Each byte stored is marked as the register's lowest one is."""

    def stored_taint(self, access, taint, old):
        return marks_of(taint[:1]) * access.width


class StoresHighMarks(Model):
    """A narrow store takes the marks of the register's highest bytes."""

    def stored_taint(self, access, taint, old):
        return marks_of(taint[-access.width:])


class MarksFirstStored(Model):
    """A store marks its first byte only."""

    def stored_taint(self, access, taint, old):
        right = super().stored_taint(access, taint, old)
        return right[:1] + bytes(access.width - 1)


class LiteralUnmarked(Model):
    def loaded_taint(self, access, taint, old):
        return bytes(access.capacity()) if access.family == LITERAL else super().loaded_taint(access, taint, old)


# Addresses: too little is tested.

class BaseByLowestByte(Model):
    def is_base_tainted(self, state, access):
        return state.taints[access.base][0] != 0


class BaseByLowHalf(Model):
    def is_base_tainted(self, state, access):
        return any(state.taints[access.base][:4])


class BaseOnlyIfWhole(Model):
    """A base is refused where all of its bytes are marked."""

    def is_base_tainted(self, state, access):
        return all(state.taints[access.base])


class BaseOnlyOnes(Model):
    """Only a taint byte of 1 counts."""

    def is_base_tainted(self, state, access):
        return 1 in state.taints[access.base]


class UsedIndex(Model):
    """Which bytes of an index count is wrong, under one option."""
    option, used = None, slice(None)

    def used_taint(self, access, taint):
        return taint[self.used] if access.option == self.option else super().used_taint(access, taint)


class LslByLowHalf(UsedIndex):
    option, used = 0b011, slice(4)


class SxtxByLowHalf(UsedIndex):
    option, used = 0b111, slice(4)


class UxtwByLowestByte(UsedIndex):
    option, used = 0b010, slice(1)


class SxtwBySignByte(UsedIndex):
    option, used = 0b110, slice(3, 4)


class SxtxBySevenBytes(UsedIndex):
    """As if what is shifted out were whole bytes."""
    option, used = 0b111, slice(7)


class LslByUpperSeven(UsedIndex):
    option, used = 0b011, slice(1, 8)


class ScaledByLowHalf(Model):
    """The upper half of an index that is taken whole counts only where it is not shifted."""

    def used_taint(self, access, taint):
        return taint[:4] if access.shift else super().used_taint(access, taint)


class UnscaledByLowHalf(Model):
    def used_taint(self, access, taint):
        return super().used_taint(access, taint) if access.shift else taint[:4]


class IndexOnlyOnes(Model):
    def used_taint(self, access, taint):
        return bytes(byte == 1 for byte in super().used_taint(access, taint))


# Too much is marked.

class SignByAnyByte(Model):
    def sign_mark(self, loaded):
        return int(any(loaded))


class SignAlwaysMarked(Model):
    def sign_mark(self, loaded):
        return 1


class ZerosMarked(Model):
    """Zeros above a load have the mark of the top byte loaded, as copies of a sign have."""

    def loaded_taint(self, access, taint, old):
        above = SIGNED_64 if access.above == ZEROS else access.above
        return super().loaded_taint(access._replace(above=above), taint, old)


class SignPastWord(Model):
    """The copies of a sign to 32 bits are marked up to byte 7."""

    def loaded_taint(self, access, taint, old):
        above = SIGNED_64 if access.above == SIGNED_32 else access.above
        return super().loaded_taint(access._replace(above=above), taint, old)


class KeepsMarksAbove(Model):
    """A load of one width and kind leaves the marks above its bytes."""
    width, kind, kept = None, None, None

    def loaded_taint(self, access, taint, old):
        right = super().loaded_taint(access, taint, old)
        return right[:self.kept] + old[self.kept:] if (access.width, access.above) == (self.width, self.kind) else right


class ByteKeepsMarks(KeepsMarksAbove):
    width, kind, kept = 1, ZEROS, 1


class HalfKeepsMarks(KeepsMarksAbove):
    width, kind, kept = 2, ZEROS, 2


class WordKeepsMarks(KeepsMarksAbove):
    width, kind, kept = 4, ZEROS, 4


class SignedByteKeepsMarks(KeepsMarksAbove):
    width, kind, kept = 1, SIGNED_32, 4


class SignedHalfKeepsMarks(KeepsMarksAbove):
    width, kind, kept = 2, SIGNED_32, 4


class MarksWholeRegister(Model):
    """A register is marked whole where one of its bytes is: 01 without CR 13."""

    def loaded_taint(self, access, taint, old):
        return bytes([any(taint)]) * access.capacity()


class MarksEachLoaded(Model):
    """Every byte loaded is marked where one is."""

    def read_marks(self, taint):
        return bytes([any(taint)]) * len(taint)


class ExclusiveMarksWhole(Model):
    """A load of the ninth family marks its register whole."""

    def loaded_taint(self, access, taint, old):
        return ALL if access.family == EXCLUSIVE and any(taint) else super().loaded_taint(access, taint, old)


class StoresByAnyByte(Model):
    """Every byte stored is marked where one of the register's eight is: 01 without CR 13."""

    def stored_taint(self, access, taint, old):
        return bytes([any(taint)]) * access.width


class StoresByAnyStored(Model):
    def stored_taint(self, access, taint, old):
        return bytes([any(taint[:access.width])]) * access.width


class ExclusiveStoresWhole(Model):
    """A store of the ninth family marks all of its bytes."""

    def stored_taint(self, access, taint, old):
        taint = ALL if access.family == EXCLUSIVE and any(taint) else taint
        return super().stored_taint(access, taint, old)


class KeepsMarkedBytes(Model):
    """A store leaves marks where they were."""

    def stored_taint(self, access, taint, old):
        return bytes(new or mark for new, mark in zip(super().stored_taint(access, taint, old), old))


class ZeroStoredAsStack(Model):
    """Zero is stored with the marks of SP."""

    def store(self, state, access, address):
        given, self.read = self.read, lambda state, number: (given(state, number)[0], state.taints[number])
        super().store(state, access, address)
        self.read = given


class StatusUnmarksOneByte(Model):
    """The status unmarks the lowest byte of its register alone."""

    def write_status(self, state, access, status):
        self.write(state, access.status, status, NONE[:1] + self.read(state, access.status)[1][1:])


class StatusUnmarksHalf(Model):
    def write_status(self, state, access, status):
        self.write(state, access.status, status, NONE[:4] + self.read(state, access.status)[1][4:])


# Others: the marks' numbers, and addresses of which too much is tested.

class StoresAsHandedIn(Model):
    """A store writes a mark as the register has it: 2 for 1."""

    def stored_taint(self, access, taint, old):
        return taint[:access.width]


class KeepsMarksNumber(Model):
    """A mark that is stored over a mark keeps its number."""

    def stored_taint(self, access, taint, old):
        return bytes(mark or 1 if new else 0 for new, mark in zip(super().stored_taint(access, taint, old), old))


class SxtwWhole(UsedIndex):
    """The upper half of sxtw's index counts."""
    option = 0b110


class UxtwWhole(UsedIndex):
    option = 0b010


class ScaledWhole(Model):
    """All of an index counts where it is shifted."""

    def used_taint(self, access, taint):
        return taint if access.shift else super().used_taint(access, taint)


class UnscaledWhole(Model):
    def used_taint(self, access, taint):
        return super().used_taint(access, taint) if access.shift else taint


class ZeroIndexAsStack(Model):
    """An index of zero counts as marked where SP is."""

    def is_index_tainted(self, state, access):
        return any(self.used_taint(access, state.taints[access.index]))


class LoadsAsStored(Model):
    """A load takes the taint bytes as they are, and only 1 is a mark to the next store."""

    def read_marks(self, taint):
        return bytes(taint)

    def stored_taint(self, access, taint, old):
        return bytes(byte == 1 for byte in taint[:access.width])


TOO_FEW = [
    SignByFirstByte, SignUnmarked, SignEndsAtHalf, SecondAsFirst, SecondStoredAsFirst, BigEndianMarks, BigEndianStoredMarks,
    MemoryByLowestBit, MemoryByHighestBit, StoresOnlyOnes, StoresByLowestByte, StoresHighMarks, MarksFirstStored,
    LiteralUnmarked, BaseByLowestByte, BaseByLowHalf, BaseOnlyIfWhole, BaseOnlyOnes, LslByLowHalf, SxtxByLowHalf,
    UxtwByLowestByte, SxtwBySignByte, SxtxBySevenBytes, LslByUpperSeven, ScaledByLowHalf, UnscaledByLowHalf, IndexOnlyOnes,
    LoadsAsStored]
TOO_MANY = [
    SignByAnyByte, SignAlwaysMarked, ZerosMarked, SignPastWord, ByteKeepsMarks, HalfKeepsMarks, WordKeepsMarks,
    SignedByteKeepsMarks, SignedHalfKeepsMarks, MarksWholeRegister, MarksEachLoaded, ExclusiveMarksWhole, StoresByAnyByte,
    StoresByAnyStored, ExclusiveStoresWhole, KeepsMarkedBytes, ZeroStoredAsStack, StatusUnmarksOneByte, StatusUnmarksHalf]
OTHERS = [
    StoresAsHandedIn, KeepsMarksNumber, SxtwWhole, UxtwWhole, ScaledWhole, UnscaledWhole, ZeroIndexAsStack]
