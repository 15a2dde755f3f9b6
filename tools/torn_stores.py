#!/usr/bin/env python3
"""Shows what stores across the end of memory leave behind, by the library and by Unicorn: each is refused by both.

    apt-get install gcc python3-unicorn
    bash tools/library.sh
    /usr/bin/python3 tools/torn_stores.py

Memory is one page, and half of each store lies inside it. The library answers with 7, and memory, taints, registers and pc are as they
were. Unicorn stops with an error too, and has then written the half that lies inside: a host that lets a plugin go on, or looks at
memory after a fault, sees a store that was never done. It exits with 1 where the library changes anything, or where Unicorn leaves a
store whole or undone, so that what the README says of it no longer holds.
"""
import ctypes
import pathlib
import struct
import subprocess
import sys
import tempfile

try:
    from unicorn import UC_ARCH_ARM64, UC_MODE_ARM, Uc, UcError
    from unicorn.arm64_const import UC_ARM64_REG_PC, UC_ARM64_REG_Q0, UC_ARM64_REG_X0, UC_CPU_ARM64_MAX
except ImportError:
    sys.exit("Unicorn isn't there. As root: apt-get install python3-unicorn; and then by /usr/bin/python3")

TOP = pathlib.Path(__file__).resolve().parent.parent
ARCHIVE = TOP / 'target/staticlib/libmilestarling.a'
PAGE, ORIGIN, CODE = 4096, 0x10000, 0x40000
END = ORIGIN + PAGE
FILLING = 0x77
# x1 and x2, and q1 and q2; x0 is the base.
VALUES = {1: 0x1111111111111111, 2: 0x2222222222222222}
# A line, the bytes that it stores, and how far its address lies above its base.
STORES = [
    ('stp x1, x2, [x0]', 16, 0), ('stp x1, x2, [x0, #-16]!', 16, -16), ('stp x1, x2, [x0], #16', 16, 0),
    ('stp w1, w2, [x0]', 8, 0), ('stnp x1, x2, [x0]', 16, 0), ('stp q1, q2, [x0]', 32, 0), ('stp d1, d2, [x0]', 16, 0),
    ('str x1, [x0]', 8, 0), ('str w1, [x0]', 4, 0), ('strh w1, [x0]', 2, 0), ('str q1, [x0]', 16, 0)]

NUMBER = ctypes.c_uint64


class Session(ctypes.Structure):
    _fields_ = [('value', NUMBER * 32), ('taint', NUMBER * 32), ('pc', NUMBER), ('monitor', NUMBER * 2)]


class StepReply(ctypes.Structure):
    _fields_ = [('answer', NUMBER), ('code', NUMBER), ('address', NUMBER), ('status', NUMBER)]


class WordReply(ctypes.Structure):
    _fields_ = [('answer', NUMBER), ('word', NUMBER)]


def load(room):
    """The library as a shared object, which Python can call."""
    if not ARCHIVE.exists():
        sys.exit("%s isn't there: make it by `bash tools/library.sh`" % ARCHIVE)
    shared = room + '/libmilestarling.so'
    subprocess.run(['gcc', '-shared', '-o', shared, '-Wl,--whole-archive', ARCHIVE, '-Wl,--no-whole-archive'], check=True)
    library = ctypes.CDLL(shared)
    library.milestarling_step.restype = StepReply
    library.milestarling_word.restype = WordReply
    return library


def stepped(library, word, base):
    """The answer, and how many bytes the library has changed, of all that it was lent."""
    session, values, taints = Session(pc=CODE), (NUMBER * 64)(), (NUMBER * 64)()
    memory, taint = (ctypes.c_uint8 * PAGE)(*[FILLING] * PAGE), (ctypes.c_uint8 * PAGE)()
    session.value[0] = base
    for number, value in VALUES.items():
        session.value[number] = values[2 * number] = values[2 * number + 1] = value
    lent = session, values, taints, memory, taint
    before = b''.join(map(bytes, lent))
    reply = library.milestarling_step(
        ctypes.c_uint32(word), ctypes.byref(session), values, taints, NUMBER(ORIGIN), NUMBER(0),
        memory, ctypes.c_size_t(PAGE), taint, ctypes.c_size_t(PAGE))
    return reply.answer, sum(a != b for a, b in zip(before, b''.join(map(bytes, lent))))


def emulated(word, base):
    """What Unicorn says, how many bytes of memory it has changed, and whether its registers are as they were."""
    uc = Uc(UC_ARCH_ARM64, UC_MODE_ARM)
    uc.ctl_set_cpu_model(UC_CPU_ARM64_MAX)
    for page in (ORIGIN, CODE):
        uc.mem_map(page, PAGE)
    uc.mem_write(ORIGIN, bytes([FILLING]) * PAGE)
    uc.mem_write(CODE, struct.pack('<I', word))
    registers = {UC_ARM64_REG_X0: base, UC_ARM64_REG_PC: CODE}
    for number, value in VALUES.items():
        registers[UC_ARM64_REG_X0 + number] = value
        registers[UC_ARM64_REG_Q0 + number] = value << 64 | value
    for register, value in registers.items():
        uc.reg_write(register, value)
    try:
        uc.emu_start(CODE, CODE + 4, count=1)
        said = 'done'
    except UcError as error:
        said = str(error)
    kept = all(uc.reg_read(register) == value for register, value in registers.items())
    return said, sum(byte != FILLING for byte in uc.mem_read(ORIGIN, PAGE)), kept


def main():
    wrong = 0
    print('%-24s bytes inside; Milestarling: answer, bytes changed; Unicorn: what it says, bytes changed' % '')
    with tempfile.TemporaryDirectory() as room:
        library = load(room)
        for line, length, above in STORES:
            text = line.encode()
            read = library.milestarling_word(text, ctypes.c_size_t(len(text)))
            assert read.answer == 0, line
            base = END - length // 2 - above
            answer, changed = stepped(library, read.word, base)
            said, written, kept = emulated(read.word, base)
            print('%-24s %2d; %d, %d; %s, %d' % (line, length // 2, answer, changed, said, written))
            wrong += (answer, changed) != (7, 0) or said == 'done' or written != length // 2 or not kept
    print('of %d of %d stores across the end of memory the library changed nothing, and Unicorn had written the half inside'
          % (len(STORES) - wrong, len(STORES)))
    return wrong != 0


if __name__ == '__main__':
    sys.exit(main())
