#!/usr/bin/env python3
"""Writes crates/assemble/stdin and crates/assemble/stdout: lines of text, and the word and answer for each.

    apt-get install llvm-19 binutils-aarch64-linux-gnu
    python3 tools/list_corpus.py
    python3 tools/assemble_corpus.py

The lines are texts of crates/list/stdout, and texts that were damaged. The words and answers come from the
strict reader in aarch64_reader.py, never from this project's code. Both assemblers have to make the same word of
each line that is taken, and the disassemblers the line of the word; only, llvm-mc refuses some of answer 4. What
an assembler makes of a line that is not taken, if anything, has to be a word whose own line is another. Made with
llvm 19.1.7 and binutils 2.40. The output is the same each time.
"""
import collections
import itertools
import os
import random
import re

from aarch64_reader import read_line, record_of
from aarch64_rules import agreed, is_unpredictable, judged_words, path_of, range_of, scale_of, show, write
from aarch64_text import (
    EXCLUSIVE, LITERAL, LITERAL_NAMES, ORDERED, PAIR, PAIR_NAMES, POST, PRE, PREFETCH, REGISTER, SIZED_NAMES, UNSCALED, UNSIGNED,
    Record, text_of)
from aarch64_tools import gnu_attempts, llvm_assembly
from text_damage import BYTE_KINDS, KINDS, damaged_texts, odd_lines

SEED = 3
# How many of the list's texts are taken, how many of them at least of each instruction, and how many of its first
# are 01's.
TAKEN_FROM_LIST = 22000
OF_EACH = 40
OF_THE_RULES = 13
# How many lines have each kind of damage.
EACH_KIND = 330
EACH_BYTE_KIND = 900

# What an assembler takes as one instruction or refuses: no comment, label (a number before b or f names one too),
# directive or end of a statement. Nor a number that ends in its sign: binutils 2.40 stops at some with an internal error.
PLAIN = re.compile(rb'(?!.*\d[bf]|.*[+-]\])[ \t]*[A-Za-z][A-Za-z0-9 \t,\[\]#!+-]{0,98}')


# Lines.

def listed_texts():
    """The texts of the list corpus, each with its word."""
    texts = {}
    with open(path_of('list', 'stdout')) as file:
        for line in file:
            word, text, _ = line.split('\t')
            if text != '-':
                texts[text.encode()] = int(word, 16)
    return texts


def sample(rng, texts):
    """The first, which are 01's; offsets at their edges; and others, one of each instruction and hint at least."""
    chosen = texts[:OF_THE_RULES]
    groups = collections.defaultdict(list)
    for text in texts:
        record = record_of(text)
        low, high = range_of(record.family, record.operation)
        scale = scale_of(record.family, record.operation)
        edges = (low, low + scale, -scale, 0, scale, high - scale, high)
        if record.family not in (REGISTER, EXCLUSIVE) and record.offset in edges:
            chosen.append(text)
        hint = record.target if text.startswith(b'prf') else None
        groups[record.family, record.operation, record.mode, record.scaled, hint].append(text)
    for group in groups.values():
        chosen += rng.sample(group, min(len(group), OF_EACH))
    chosen = list(dict.fromkeys(chosen))
    print('%d texts at edges or for the %d instructions and hints' % (len(chosen), len(groups)))
    others = sorted(set(texts) - set(chosen))
    return chosen + rng.sample(others, TAKEN_FROM_LIST - len(chosen))


def outside_texts():
    """Offsets past each end, between two multiples and far off, for each instruction with an offset."""
    for record in instructions():
        low, high = range_of(record.family, record.operation)
        scale = scale_of(record.family, record.operation)
        for offset in (low, high, low - scale, high + scale, low - 1, high + 1, scale // 2, 1, -1, scale + 1, 2 * high,
                       -(1 << 31), 1 << 31, 1 << 32, -(1 << 63), (1 << 63) - 1, 1 << 63, 1 << 64):
            yield text_of(record._replace(offset=offset))


def instructions():
    """Each family with an offset, operation and mode, and what no word has: prefetch with writeback, ldnpsw, ordered vectors."""
    for operation in LITERAL_NAMES:
        yield Record(LITERAL, operation, 7)
    for operation, mode in itertools.product(PAIR_NAMES, range(4)):
        yield Record(PAIR, operation, 2, 3, 4, mode)
    for family, operation in itertools.product((ORDERED, UNSCALED, POST, PRE, UNSIGNED), SIZED_NAMES):
        if (family, operation) != (ORDERED, PREFETCH):
            yield Record(family, operation, 2, 3)


# What the assemblers say.

def assembled(lines):
    """What both assemblers make of each line. GNU's takes a literal's offset only behind the word's own place."""
    def for_gnu(text):
        return re.sub(r'^(\w+ [^,\[]+, )#(-?\d+)$', r'\1.+\2', text)

    texts = [line.decode() for line in lines]
    return list(zip(llvm_assembly(texts), gnu_attempts([for_gnu(text) for text in texts])))


def lines_of(words):
    """The line of each word, by the disassemblers; none where it isn't allocated."""
    words = sorted(words)
    judgements = judged_words(words, collections.Counter())
    return {word: text_of(record).encode() if answer in (0, 4) else None
            for word, (answer, record) in zip(words, judgements)}


def confirm(lines, results):
    """Holds what the assemblers make of the lines against the results, and counts it."""
    taken, refused = collections.Counter(), collections.Counter()
    plain = [line for line in lines if PLAIN.fullmatch(line)]
    for line in set(lines) - set(plain):
        agreed(results[line][1] == 9, results[line][0], line)
        refused['not shown to an assembler'] += 1
    made = list(zip(plain, assembled(plain)))
    own_line = lines_of({again.word for _, both in made for again in both} - {None})
    for line, (by_llvm, by_gnu) in made:
        word, answer = results[line]
        if answer == 9:
            others = {by_llvm.word, by_gnu.word} - {None}
            agreed(all(own_line[other] != line for other in others), word, line, others)
            refused['assembled to a word with another line' if others else 'refused by both assemblers too'] += 1
            continue
        agreed(by_gnu.word == word and own_line[word] == line, word, line, by_gnu)
        taken['by the GNU assembler and both disassemblers'] += 1
        agreed(by_llvm.word == word or by_llvm.word is None and is_unpredictable(record_of(line)), word, line, by_llvm)
        taken['by llvm-mc as assembler' if by_llvm.word else 'refused by llvm-mc as unpredictable'] += 1
    return taken, refused


# The two files.

def main():
    rng = random.Random(SEED)
    listed = listed_texts()
    good = sample(rng, list(listed))
    texts = [text.decode() for text in good]
    damaged = {**damaged_texts(rng, texts, BYTE_KINDS, EACH_BYTE_KIND), **damaged_texts(rng, texts, KINDS, EACH_KIND)}
    bad = [text.encode('latin-1') for found in damaged.values() for text in found]
    bad += [text.encode() for text in outside_texts()] + odd_lines()
    results = {line: read_line(line) for line in good + bad}
    for text in good:
        agreed(results[text] == (listed[text], 0), listed[text], text)
    taken, refused = confirm(list(results), results)
    # Good and damaged lines alternate, so that nothing left from one can help or harm the next; 01's come first.
    mixed = good[OF_THE_RULES:] + bad
    rng.shuffle(mixed)
    lines = good[:OF_THE_RULES] + mixed + [b'', good[0]]
    os.makedirs(path_of('assemble', ''), exist_ok=True)
    # The last line has no newline.
    write('assemble', 'stdin', b'\n'.join(lines))
    write('assemble', 'stdout', b''.join(b'%08x\t%d\n' % results[line] for line in lines))
    show('lines by answer', collections.Counter(results[line][1] for line in lines))
    show('damaged lines by answer', collections.Counter(results[line][1] for line in bad))
    show('different lines that are taken, confirmed', taken)
    show('different lines that are not taken', refused)
    print('damage: lines, and how many of them are lines of words again')
    for name, found in damaged.items():
        print('%7d %5d  %s' % (len(found), sum(results[text.encode('latin-1')][1] == 0 for text in found), name))


if __name__ == '__main__':
    main()
