#!/usr/bin/env python3
"""Writes examples/login.cases and login.words: what examples/demo.sh hands to the programs `replay` and `list`. Beside them it
writes what must come, login.outcomes by the model of the machine, and login.lines.

    python3 tools/login_cases.py && target/bin/replay < examples/login.cases

Three cases, which docs/SECRECY.md and the README show.

Memory is 32 bytes from address 4096. It holds a password, whose bytes are tainted, and room for a copy at 4112.

0. A plugin loads the password's length from address 4128, where there is no memory.
1. A plugin loads the first byte of the password, copies it, and takes it as an index.
2. The same with another password.
"""
import os
import struct

from machine_model import NONE, Model, State
from replay_format import Case, case_bytes, case_lines, outcome_of

ORIGIN, COPY = 4096, 4112
LINES = {
    0xf9401003: 'ldr x3, [x0, #32]',
    0x39400002: 'ldrb w2, [x0]',
    0x39000022: 'strb w2, [x1]',
    0x386268a4: 'ldrb w4, [x5, x2]',
}
LOAD_LENGTH, LOAD, STORE, USE = LINES


def state(password):
    memory = bytearray(32)
    memory[:len(password)] = password
    taint = bytearray(32)
    taint[:len(password)] = bytes([1]) * len(password)
    registers = [0] * 32
    registers[0], registers[1], registers[3], registers[5] = ORIGIN, COPY, 0x5555, ORIGIN
    return State(ORIGIN, 0, 0x10000, registers, [NONE] * 32, memory, taint)


def main():
    cases = [
        Case('length', (LOAD_LENGTH,), state(b'sesame42'), 2, 1),
        Case('secret', (LOAD, STORE, USE), state(b'sesame42'), 6, 3),
        Case('secret', (LOAD, STORE, USE), state(b'open1234'), 6, 3),
    ]
    model = Model()
    write('login.cases', b''.join(case_bytes(case) for case in cases))
    write('login.outcomes', ''.join(case_lines(number, outcome_of(model, case)) for number, case in enumerate(cases)).encode())
    write('login.words', b''.join(struct.pack('<I', word) for word in LINES))
    write('login.lines', ''.join('%08x\t%s\t0\n' % line for line in LINES.items()).encode())


def write(name, content):
    folder = os.path.join(os.path.dirname(os.path.dirname(os.path.abspath(__file__))), 'examples')
    with open(os.path.join(folder, name), 'wb') as file:
        file.write(content)


if __name__ == '__main__':
    main()
