"""Runs LLVM's and GNU's assemblers and disassemblers on words and texts.

Needs the Debian packages llvm-19 and binutils-aarch64-linux-gnu.
"""
import os
import re
import struct
import subprocess
import tempfile
from typing import NamedTuple, Optional

LLVM = ['llvm-mc-19', '--triple=aarch64', '-mattr=+all', '--show-encoding']
GNU = 'aarch64-linux-gnu-'

# Where objdump is told that the words lie: far enough up that no literal's address falls below 0.
ORIGIN = 1 << 32


class Said(NamedTuple):
    """A disassembler's answer: no text where it knows no instruction."""
    text: Optional[str]
    warned: bool = False


class Made(NamedTuple):
    """An assembler's answer: no word where it refuses the text."""
    word: Optional[int]
    warned: bool = False


def run(commands, name, content):
    """Runs commands one after the other in a folder that holds a file with this content.

    A tool that fails because an input is no instruction is no error.
    """
    with tempfile.TemporaryDirectory() as folder:
        with open(os.path.join(folder, name), 'wb') as file:
            file.write(content)
        return [subprocess.run(command, cwd=folder, capture_output=True, text=True) for command in commands]


def llvm_disassembly(words):
    """What llvm-mc says of each word. It prints the known ones in order, and names the others by their lines."""
    lines = [','.join('0x%02x' % byte for byte in struct.pack('<I', word)) for word in words]
    done, = run([LLVM + ['--disassemble', 'words.txt']], 'words.txt', '\n'.join(lines).encode() + b'\n')
    unknown, warned = set(), set()
    for found in re.finditer(r'words\.txt:(\d+):\d+: warning: (\w+)', done.stderr):
        {'invalid': unknown, 'potentially': warned}[found[2]].add(int(found[1]) - 1)
    texts = iter(line.strip() for line in done.stdout.splitlines() if 'encoding: [' in line)
    said = [Said(None) if i in unknown else Said(next(texts), i in warned) for i in range(len(words))]
    if next(texts, None) is not None:
        raise SystemExit('llvm-mc printed more texts than it was given words')
    return said


def gnu_disassembly(words):
    """What objdump says of each word."""
    content = b''.join(struct.pack('<I', word) for word in words)
    done, = run([[GNU + 'objdump', '-D', '-z', '-b', 'binary', '-m', 'aarch64', '--adjust-vma=%d' % ORIGIN,
                  'words.bin']], 'words.bin', content)
    said = [Said(None)] * len(words)
    for found in re.finditer(r'^\s*([0-9a-f]+):\t([0-9a-f]{8}) \t(.*)$', done.stdout, re.M):
        at = (int(found[1], 16) - ORIGIN) // 4
        if int(found[2], 16) != words[at]:
            raise SystemExit('objdump shows another word than it was given')
        if not found[3].startswith('.inst'):
            said[at] = Said(found[3])
    return said


def llvm_assembly(texts):
    """What llvm-mc makes of each text. Labels tell the texts apart."""
    source = ''.join('case%d:\n\t%s\n' % numbered for numbered in enumerate(texts))
    done, = run([LLVM + ['texts.s']], 'texts.s', source.encode())
    made = [Made(None)] * len(texts)
    at = None
    for line in done.stdout.splitlines():
        label = re.match(r'case(\d+):', line)
        if label:
            at = int(label[1])
        if 'encoding: [' in line:
            made[at] = Made(encoding_in(line))
    return made


def encoding_in(text):
    """The word that llvm-mc shows beside its text; none where bits of it are left to the linker."""
    found = re.search(r'encoding: \[([^\]]*)\]', text)
    shown = found[1].split(',')
    if not all(byte.startswith('0x') for byte in shown):
        return None
    return struct.unpack('<I', bytes(int(byte, 16) for byte in shown))[0]


def gnu_source(texts):
    return '.arch armv8.4-a\n' + ''.join(text + '\n' for text in texts)


def gnu_attempts(texts):
    """What GNU's assembler makes of texts that it may refuse.

    Those of which it complains are left out the next time, until it has no complaint: it finds some only once it is
    through with the others. Where it says that it assumes something, that counts as a refusal too.
    """
    taken = list(range(len(texts)))
    refused = None
    while refused != set():
        source = gnu_source(texts[i] for i in taken)
        done, = run([[GNU + 'as', '-o', 'texts.o', 'texts.s']], 'texts.s', source.encode())
        complaints = re.finditer(r'texts\.s:(\d+): (?!Warning: unpredictable)\w+: ', done.stderr)
        refused = {int(found[1]) - 2 for found in complaints}
        taken = [i for at, i in enumerate(taken) if at not in refused]
    made = [Made(None)] * len(texts)
    for i, again in zip(taken, gnu_assembly([texts[i] for i in taken])):
        made[i] = again
    return made


def gnu_assembly(texts):
    """What GNU's assembler makes of each text. It gives no word at all if it refuses one."""
    source = gnu_source(texts)
    done, _, shown = run([[GNU + 'as', '-o', 'texts.o', 'texts.s'],
                          [GNU + 'objcopy', '-O', 'binary', 'texts.o', 'texts.bin'],
                          ['od', '-An', '-v', '-tx4', '--endian=little', 'texts.bin']], 'texts.s', source.encode())
    warned = set()
    for found in re.finditer(r'texts\.s:(\d+): (\w+): (\w+)', done.stderr):
        if (found[2], found[3]) != ('Warning', 'unpredictable'):
            raise SystemExit('the GNU assembler says ' + found[0])
        warned.add(int(found[1]) - 2)
    words = [int(word, 16) for word in shown.stdout.split()]
    if len(words) != len(texts):
        raise SystemExit('the GNU assembler gives another number of words than it was given texts')
    return [Made(word, i in warned) for i, word in enumerate(words)]
