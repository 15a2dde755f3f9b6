#!/usr/bin/env python3
"""Stores of which kinds loads and stores are that aren't taken, by the names that LLVM and GNU give them.

    apt-get install llvm-19 binutils-aarch64-linux-gnu
    python3 tools/kinds.py

It makes words of Arm's loads and stores that are in no row of 01's or 02's table, hands them to llvm-mc and objdump, and
writes each with its kind and the name to bindings/rust/tests/kinds.txt, which the Rust package's tests hold the reasons of
`milestarling check` against. tools/coverage.py does so with the words of real files.
"""
import collections
import os
import random
import re

from aarch64_rules import line_of
from aarch64_tools import gnu_disassembly, llvm_assembly, llvm_disassembly

STORED = os.path.join(os.path.dirname(os.path.dirname(os.path.abspath(__file__))), 'bindings', 'rust', 'tests', 'kinds.txt')

UNKNOWN = 'no known load or store'

# The names of each kind, by what a reason begins with.
ORDER, SIZE = '(a|l|al)?', '[bh]?'
KINDS = [(kind, re.compile(names)) for kind, names in (
    ('atomic', '(ld|st)(add|clr|eor|set|[su]max|[su]min)%s%s|swp%s%s|(ldclr|ldset|swp)p%s' % (ORDER, SIZE, ORDER, SIZE, ORDER)),
    ('by an authenticated pointer', 'ldra[ab]'),
    ('64-byte block', 'ld64b|st64b(v|v0)?'),
    ('compare and swap', 'cas%s%s|casp%s' % (ORDER, SIZE, ORDER)),
    ('memory copy or set', 'cpy\\w+|set[gpme]\\w*'),
    ('exclusive pair', 'lda?xp|stl?xp'),
    ('to a guarded control stack', 'gcsstt?r'),
    ('limited ordering', '(ldlar|stllr)%s' % SIZE),
    ('RCpc ordering', 'ldapr%s|ldiapp|stilp|ldap1|stl1|ldapur|stlur|stlr' % SIZE),
    ('read-check-write', 'rcws?(cas|clr|swp|set)p?%s' % ORDER),
    ('vector structure', '(ld|st)[1-4]|ld[1-4]r'),
    ('memory tag', 'ldg|stz?2?g|ldgm|stz?gm'),
    ('unprivileged', 'ldtrs?[bhw]?|sttr[bh]?'),
    ('cache block', 'dc'),
)]

# Where kinds differ by more than the bits that tell rows apart: bits 29 to 27, 26, 24, 23, 21 and 11 to 10.
ROWS = [(high, vector, low, writes, apart, last)
        for high in (0b001, 0b011, 0b111) for vector in (0, 1) for low in (0, 1) for writes in (0, 1)
        for apart in (0, 1) for last in range(4)]
WORDS_PER_ROW = 400
# How many words of each kind are stored.
KEPT = 120

# Those that chance finds seldom.
TEXTS = [
    'gcsstr x0, [x1]', 'gcssttr x30, [sp]', 'ldap1 {v0.d}[1], [x1]', 'stl1 {v31.d}[0], [sp]', 'ld64b x0, [x1]', 'st64b x2, [sp]',
    'st64bv x5, x0, [x1]', 'st64bv0 x5, x22, [x30]', 'ldapr x0, [x1]', 'ldaprb w0, [sp]', 'ldiapp x0, x1, [x2], #16',
    'ldiapp w0, w1, [sp]', 'stilp x0, x1, [x2, #-16]!', 'ldapr x0, [x1], #8', 'stlr w0, [x1, #-4]!', 'ldapur q0, [x1, #-9]',
    'rcwscaspal x0, x1, x2, x3, [x4]', 'rcwcas x0, x1, [x2]', 'rcwclrp x0, x1, [x2]', 'swpp x0, x1, [x2]', 'ldclrpal x0, x1, [x2]',
    'ldsetpl x0, x1, [sp]', 'casp x0, x1, x2, x3, [x4]', 'caspal w30, wzr, w2, w3, [sp]', 'stzgm x0, [x1]', 'ldgm x0, [x1]',
    'stgm x0, [x1]', 'cpyfp [x0]!, [x1]!, x2!', 'setgetn [x0]!, x1!, x2', 'dc zva, x0', 'dc gva, x30', 'dc gzva, x1',
]


def kind_of(text):
    """The kind of what a disassembler calls so."""
    if text is None:
        return UNKNOWN
    found = [kind for kind, names in KINDS if names.fullmatch(text.split()[0])]
    if len(found) != 1:
        raise SystemExit('%s is of %d kinds' % (text, len(found)))
    return found[0]


def words_of(rng, row):
    """Words of a row, half of them with fields that are often all zeros or all ones."""
    high, vector, low, writes, apart, last = row
    fixed = high << 27 | vector << 26 | low << 24 | writes << 23 | apart << 21 | last << 10
    free = ~(7 << 27 | 1 << 26 | 3 << 24 | 1 << 23 | 1 << 21 | 3 << 10) & 0xffffffff
    for at in range(WORDS_PER_ROW):
        word = rng.getrandbits(32)
        if at % 2:
            for low, width in ((30, 2), (12, 4), (16, 5), (12, 3), (0, 1), (16, 1)):
                ones = (1 << width) - 1 << low
                word = rng.choice((word, word & ~ones, word | ones))
        yield fixed | word & free


def known(word, llvm, gnu):
    """What is said of a word by whoever knows it: where both do, the kinds have to be one."""
    if llvm.text and gnu.text and kind_of(llvm.text) != kind_of(gnu.text):
        raise SystemExit('%08x: %s, %s' % (word, llvm.text, gnu.text))
    return llvm.text or gnu.text


def main():
    rng = random.Random(35)
    words = [made.word for made in llvm_assembly(TEXTS)]
    chosen = [word for row in ROWS for word in words_of(rng, row) if line_of(word) is None]
    rng.shuffle(chosen)
    words += chosen
    counts = collections.Counter()
    lines = set()
    for word, llvm, gnu in zip(words, llvm_disassembly(words), gnu_disassembly(words)):
        text = known(word, llvm, gnu)
        kind = kind_of(text)
        if counts[kind] < KEPT * (1 if text else 5):
            counts[kind] += 1
            lines.add('%08x\t%s\t%s\n' % (word, kind, text.split()[0] if text else '-'))
    with open(STORED, 'w') as file:
        file.writelines(sorted(lines))
    for kind, count in sorted(counts.items()):
        print('%6d %s' % (count, kind))


if __name__ == '__main__':
    main()
