"""What Unicorn's processor does with the words of a case, held against the model step by step.

Unicorn is QEMU's emulator as a library, with code of its own for every instruction. It knows nothing of taints,
windows and answers: those are 01's, and the model's alone. For a step that is done, registers of both kinds, PC, all bytes of
the mapped pages, and the address, length and direction of the access have to be the same.

QEMU's monitor holds the address of a load-exclusive and the value that it loaded, and no size. A store-exclusive at another
address fails without an access. At the same address it reads its own bytes, stores if they are the low bytes of that
value, and has status 0 if they are all of it; either way its address becomes 2^64 - 1, which stands for an open one. So
it differs from 02 just where RULES says, and has to do then exactly what that gives. The monitor can't be set: where a
case begins with an armed one, the processor does a load-exclusive there first.

Of other things that 02 refuses, QEMU takes words whose unused registers aren't 31 as if they were, raises an exception
for an exclusive load that isn't aligned, and fails an exclusive store that isn't.

Made with unicorn 2.0.1, from Debian 12. Its "max" processor is the one that has the ordered instructions
(FEAT_LRCPC2). Page tables are off, so that every address is there. QEMU tests no alignment of SP, whatever
the system's switch for it says: that test is the model's alone.
"""
import struct

from unicorn import UC_ARCH_ARM64, UC_HOOK_MEM_READ, UC_HOOK_MEM_WRITE, UC_MEM_WRITE, UC_MODE_ARM, Uc, UcError
from unicorn.arm64_const import (
    UC_ARM64_REG_PC, UC_ARM64_REG_Q0, UC_ARM64_REG_SP, UC_ARM64_REG_X0, UC_ARM64_REG_X29, UC_ARM64_REG_X30,
    UC_CPU_ARM64_MAX)

from machine_model import EXCLUSIVE, LAST, SPACE, fields_of, word_of

PAGE, OWN_PAGE = 4096, 1024
NUMBERS = [UC_ARM64_REG_X0 + i for i in range(29)] + [UC_ARM64_REG_X29, UC_ARM64_REG_X30, UC_ARM64_REG_SP]
VECTORS = [UC_ARM64_REG_Q0 + i for i in range(32)]
# What the mapped bytes outside the window hold.
FILLING = b'\xa5'

NO_STEP = 'no step is done'
CODE_IN_WINDOW = 'the window lies over the words, which Unicorn has in memory'
# Where a store-exclusive of Unicorn's differs from 02's.
VALUE, SIZE, LAST_ADDRESS = RULES = (
    '02 stores, and Unicorn fails: the bytes are not those that the load-exclusive read',
    '02 fails, and Unicorn stores, with either status: the monitor is armed there with another size',
    '02 fails, and Unicorn stores: its open monitor has the address 2^64 - 1')
NO_RULE = 'no rule'


class Emulated:
    """A processor with a window in its memory, and the words at its PC."""

    def __init__(self, words, state, reached=()):
        """There is memory at the addresses reached, too."""
        self.uc = Uc(UC_ARCH_ARM64, UC_MODE_ARM)
        self.uc.ctl_set_cpu_model(UC_CPU_ARM64_MAX)
        # All that should be in memory, by page.
        self.pages = {}
        self.put(state.origin, state.memory)
        for k, word in enumerate(words):
            self.put((state.pc + 4 * k) % SPACE, struct.pack('<I', word))
        # Unicorn looks at the place behind the last word, too.
        for address in ((state.pc + 4 * len(words)) % SPACE, *reached):
            self.page_of(address)
        for page, content in self.pages.items():
            self.uc.mem_map(page, PAGE)
            self.uc.mem_write(page, bytes(content))
        for number, value in zip(NUMBERS + VECTORS, state.registers + state.vectors):
            self.uc.reg_write(number, value)
        self.uc.reg_write(UC_ARM64_REG_PC, state.pc)
        # The address of QEMU's monitor, or None if it is open, and its value.
        self.monitor = None, 0
        self.accesses = []
        self.uc.hook_add(UC_HOOK_MEM_READ | UC_HOOK_MEM_WRITE, self.note)

    def note(self, uc, kind, address, length, value, data):
        self.accesses.append((address % SPACE, length, kind == UC_MEM_WRITE))

    def page_of(self, address):
        return self.pages.setdefault(address // PAGE * PAGE, bytearray(FILLING * PAGE))

    def put(self, address, content):
        for i, byte in enumerate(content):
            self.page_of(address + i)[(address + i) % PAGE] = byte

    def step(self):
        """Whether the processor takes the word at PC.

        The place to stop at is one that isn't reached, and the count alone stops it: Unicorn 2.0.1 keeps the stop at
        address 0 for later, and would not go on from there.
        """
        self.accesses.clear()
        pc = self.uc.reg_read(UC_ARM64_REG_PC)
        try:
            self.uc.emu_start(pc, (pc - 4) % SPACE, count=1)
        except UcError:
            return False
        return True

    def arm(self, address, size):
        """Has the processor do a load-exclusive, from a page that is used for nothing else."""
        page = next(page for page in range(1 << 40, 1 << 41, PAGE) if page not in self.pages)
        load = word_of(EXCLUSIVE, size=size.bit_length() - 1, load=1, rs=LAST, rt2=LAST, rn=0, rt=LAST)
        self.uc.mem_map(page, PAGE)
        self.uc.mem_write(page, struct.pack('<I', load))
        given = [(number, self.uc.reg_read(number)) for number in (NUMBERS[0], UC_ARM64_REG_PC)]
        self.uc.reg_write(NUMBERS[0], address)
        self.uc.reg_write(UC_ARM64_REG_PC, page)
        assert self.step()
        for number, value in given:
            self.uc.reg_write(number, value)
        self.monitor = address, int.from_bytes(self.uc.mem_read(address, size), 'little')

    def store_exclusive(self, before, after, access, address, status):
        """After a store-exclusive: what QEMU's monitor gives, its accesses, and the rule by which that differs from 02."""
        expected, at = after.copy(), address - before.origin
        held, value = self.monitor
        self.monitor = None, value
        if (SPACE - 1 if held is None else held) != address:
            stores, found, accesses = False, 1, []
        else:
            old = int.from_bytes(before.memory[at:at + access.width], 'little')
            stores, found = old == value % (1 << 8 * access.width), int(old != value)
            accesses = [(address, access.width, False), (address, access.width, True)]
        if (stores, found) == (status == 0, status):
            return expected, accesses, None
        if access.status != LAST:
            expected.registers[access.status] = found
        kept = before.memory[at:at + access.width]
        data = 0 if access.targets[0] == LAST else before.registers[access.targets[0]] % (1 << 8 * access.width)
        expected.memory[at:at + access.width] = data.to_bytes(access.width, 'little') if stores else kept
        at_place, same_size = before.monitor[0] == address, before.monitor[1] == access.width
        if status == 0:
            rule = VALUE if held == address and at_place and same_size else NO_RULE
        elif held is None:
            rule = LAST_ADDRESS
        else:
            rule = SIZE if at_place and not same_size else NO_RULE
        return expected, accesses, rule

    def mend(self, state, access, address):
        """Goes on from a state behind a store-exclusive that Unicorn does otherwise."""
        if access.status != LAST:
            self.uc.reg_write(NUMBERS[access.status], state.registers[access.status])
        at = address - state.origin
        self.uc.mem_write(address, bytes(state.memory[at:at + access.width]))
        self.put(state.origin, state.memory)

    def difference(self, state, code, address, accesses=None):
        """What is otherwise than a state after a step of this code and address; None if nothing is.

        The accesses are those of a store-exclusive.
        """
        registers = [self.uc.reg_read(number) for number in NUMBERS]
        if registers != state.registers:
            return 'registers %s' % ['x%d: %x' % (i, value) for i, value in enumerate(registers)
                                     if value != state.registers[i]]
        vectors = [self.uc.reg_read(number) for number in VECTORS]
        if vectors != state.vectors:
            return 'vectors %s' % ['q%d: %x' % (i, value) for i, value in enumerate(vectors) if value != state.vectors[i]]
        if self.uc.reg_read(UC_ARM64_REG_PC) != state.pc:
            return 'pc %x' % self.uc.reg_read(UC_ARM64_REG_PC)
        self.put(state.origin, state.memory)
        if any(self.uc.mem_read(page, PAGE) != content for page, content in self.pages.items()):
            return 'memory'
        if accesses is not None:
            return None if self.accesses == accesses else 'accesses %s' % self.accesses
        accesses = self.asked_for()
        # A pair is two accesses, one behind the other, and so are the halves of 16 bytes.
        first = min((at for at, _, _ in accesses), default=0)
        length = sum(length for _, length, _ in accesses)
        if (first, length) != (address, code % 64) or any(stores != (code >= 64) for _, _, stores in accesses):
            return 'accesses %s' % self.accesses
        return None

    def asked_for(self):
        """The accesses that the instruction asked for.

        Unicorn's own pages have 1,024 bytes. It makes a load across their border of two aligned loads, and notes those
        too, behind the one asked for. The bytes are right, so that only the notes have to be dropped.
        """
        asked, noted = [], iter(self.accesses)
        for address, length, stores in noted:
            asked.append((address, length, stores))
            if not stores and address // OWN_PAGE != (address + length - 1) // OWN_PAGE:
                next(noted), next(noted)
        return asked


def words_in_window(words, state):
    """Whether some byte of the window is also one of a word, and another one."""
    code = b''.join(struct.pack('<I', word) for word in words)
    for i, byte in enumerate(code):
        at = (state.pc + i) % SPACE - state.origin
        if 0 <= at < len(state.memory) and state.memory[at] != byte:
            return True
    return False


def emulated_from(model, case):
    """Unicorn at the start of a case, armed if the case has words for that and its monitor is one that a step can leave."""
    address, size = case.state.monitor
    exclusive = any(model.family_of(word) == EXCLUSIVE for word in case.words)
    if not exclusive or size not in (1, 2, 4, 8) or address % size:
        return Emulated(case.words, case.state)
    emulated = Emulated(case.words, case.state, (address,))
    emulated.arm(address, size)
    return emulated


def compare(model, case, steps, counts):
    """Counts the steps done in a case that Unicorn confirms, by kind; why there are none, if so."""
    if not steps:
        return NO_STEP
    if words_in_window(case.words, case.state):
        return CODE_IN_WINDOW
    state, emulated = case.state.copy(), emulated_from(model, case)
    for word in case.words[:steps]:
        before = state.copy()
        _, code, address, status = model.step(word, state)
        family = model.family_of(word)
        access = model.access_of(family, fields_of(family, word))
        taken, expected, accesses, rule = emulated.step(), state, None, None
        if access.status is not None:
            expected, accesses, rule = emulated.store_exclusive(before, state, access, address, status)
        difference = emulated.difference(expected, code, address, accesses) if taken else 'refused'
        if difference or rule == NO_RULE:
            raise SystemExit('no rule for %08x in %s: Unicorn has %s' % (word, case.group, difference))
        if rule:
            emulated.mend(state, access, address)
        elif access.exclusive and not access.store:
            at = address - before.origin
            emulated.monitor = address, int.from_bytes(before.memory[at:at + access.width], 'little')
        counts[rule or kind_of(access, status)] += 1
    return None


def kind_of(access, status):
    if access.status is not None:
        return 'store-exclusives that fail' if status else 'store-exclusives that store'
    if access.family == EXCLUSIVE:
        return 'load-exclusives' if access.exclusive else 'ldar and stlr'
    if access.vector:
        return 'stores of vectors' if access.store else 'loads of vectors'
    return 'prefetches' if access.prefetch else 'loads and stores'


def refuses_undefined(word, state):
    """Whether Unicorn, too, has no instruction for a word."""
    return not Emulated([word], state).step()


def ignores_unused(word, state):
    """Whether Unicorn does a word of the ninth family as if the registers that it doesn't use were 31."""
    fields = fields_of(EXCLUSIVE, word)
    status = {} if (fields['o2'], fields['load']) == (0, 0) else {'rs': LAST}
    left = []
    for each in (word, word_of(EXCLUSIVE, **{**fields, 'rt2': LAST, **status})):
        emulated = Emulated([each], state)
        taken = emulated.step()
        left.append((taken, emulated.accesses, [emulated.uc.reg_read(number) for number in NUMBERS]))
    return left[0] == left[1]


def reaches(word, state, access, address):
    """Whether an access that the window refuses would be at this address if there were memory."""
    # The longest access, a pair of vectors, may go on at address 0.
    emulated = Emulated([word], state, (address, (address + 31) % SPACE))
    if access.exclusive and address % access.width:
        # A load raises an exception once it has asked for its bytes, and a store fails.
        asked = [] if access.store else [(address, access.width, False)]
        return emulated.step() == access.store and emulated.accesses == asked
    if access.status is not None:
        emulated.arm(address, access.width)
    return emulated.step() and emulated.asked_for()[0][0] == address
