#!/usr/bin/env python3
"""Writes crates/plays/stdin and crates/plays/stdout: two plugins that take turns, and what must become of them.

    python3 tools/turns_cases.py                    plays by hand, at the edges of ranges, at random, and twins
    python3 tools/turns_cases.py --self-check       counts the plays that tell each wrong machine from the right one, and the
                                                    twins that it breaks

What must come is the model's, which is written from 01, 02 and its readings alone (machine_model.py, turns_model.py). The words
of a turn are done by the model of `replay`, which Unicorn confirms there. None of it comes from this project's code. The
output is the same each time.

A play, numbers little-endian: eighteen 64-bit numbers, which are L bytes of memory, K bytes of taint, E and F registers of the
first and of the second plugin, N turns, origin, address and length of the shared range, of the first plugin's and of the
second's, and PC, the monitor's address and its size of the first plugin and of the second. E + F entries of five numbers each: a
register's number, from 32 on that of a vector register and 32, its value, the low half first, and its taints, likewise. All
other registers are 0 and not tainted. L bytes; K bytes. N turns: four numbers, which are 0 for the first plugin or 1 for the
second, W words, T numbers of trace, S statuses; W words of 4 bytes. The trace starts with 2^64 - 1 in every place, and the list
of statuses with 255.

The lines of a turn, fields parted by tabs:

    case, the number of the play from 0, the plugin, steps, answer, code, address, PC
    registers, of each that isn't 0 or is tainted its number and 16 hex digits, followed by * and eight digits where tainted
    vectors, likewise with 32 hex digits and sixteen
    memory, taint, trace, monitor and statuses as in replay_format.py

A play over the limits gives the one line `case`, number, `too large`, and input that ends inside a play the one line `case`,
number, `cut short`, behind the turns that were whole; nothing comes after either.
"""
import argparse
import collections
import os
import random
import struct

from machine_model import marks_of
from replay_format import bad_ending, shown_taint
from turns_hand import all_by_hand
from turns_model import TurnModel
from turns_mutants import ANSWERS, RANGES, REACHES, SEQUENCES
from turns_plays import EMPTY, LAYOUTS, bad_windows, edge_plays, outside, random_plays, refused_ranges, shared_bytes
from turns_twins import all_twins, keeps_isolation, keeps_secrets

HAND_SEED, RANGES_SEED, EDGES_SEED, RANDOM_SEED, TWINS_SEED = 11, 12, 13, 14, 15
MODEL = TurnModel()
MOST_BYTES, MOST_ENTRIES, MOST_WORDS, MOST_TRACE, MOST_STATUSES = 256, 32, 16, 40, 20


def path_of(name):
    return os.path.join(os.path.dirname(os.path.dirname(os.path.abspath(__file__))), 'crates', 'plays', name)


# The format.

def held(plugin):
    """The registers that aren't 0 or are tainted: number, value and taints."""
    files = ((0, plugin.registers, plugin.taints), (32, plugin.vectors, plugin.vector_taints))
    return [(first + n, value, taint) for first, values, taints in files
            for n, (value, taint) in enumerate(zip(values, taints)) if value or any(taint)]


def entry_bytes(number, value, taint):
    return struct.pack('<Q', number) + value.to_bytes(16, 'little') + taint.ljust(16, b'\0')


def turn_bytes(turn):
    assert len(turn.words) <= MOST_WORDS and turn.room <= MOST_TRACE and turn.places <= MOST_STATUSES
    return struct.pack('<4Q%dI' % len(turn.words), turn.who, len(turn.words), turn.room, turn.places, *turn.words)


def play_bytes(play):
    entries = [[entry_bytes(*one) for one in held(plugin)] for plugin in play.plugins]
    assert max(map(len, entries)) <= MOST_ENTRIES and max(len(play.memory), len(play.taint)) <= MOST_BYTES
    ranges = [number for one in (play.shared, *play.private) for number in one]
    starts = [number for plugin in play.plugins for number in (plugin.pc, *plugin.monitor)]
    sizes = len(play.memory), len(play.taint), *map(len, entries), len(play.turns)
    head = struct.pack('<18Q', *sizes, play.origin, *ranges, *starts)
    return b''.join((head, *entries[0], *entries[1], play.memory, play.taint, *map(turn_bytes, play.turns)))


def register_fields(values, taints, digits):
    return [field for n, (value, taint) in enumerate(zip(values, taints)) if value or any(taint)
            for field in (str(n), '%0*x%s' % (digits, value, shown_taint(taint)))]


def turn_lines(number, turn, outcome):
    state = outcome.state
    numbers = number, turn.who, outcome.steps, outcome.answer, outcome.code, outcome.address, state.pc
    lines = [['case', *map(str, numbers)], ['registers', *register_fields(state.registers, state.taints, 16)],
             ['vectors', *register_fields(state.vectors, state.vector_taints, 32)], ['memory', state.memory.hex()],
             ['taint', state.taint.hex()], ['trace', *map(str, outcome.trace)], ['monitor', *map(str, state.monitor)],
             ['statuses', outcome.statuses.hex()]]
    return ''.join('\t'.join(fields) + '\n' for fields in lines)


def write(plays, outcomes):
    # The last play is cut: the last byte of its last turn's words is missing.
    last = next(play for play in plays if play.turns[-1].words)
    given = b''.join(map(play_bytes, plays)) + play_bytes(last)[:-1]
    lines = [turn_lines(number, turn, outcome) for number, (play, done) in enumerate(zip(plays, outcomes))
             for turn, outcome in zip(play.turns, done)]
    lines += [turn_lines(len(plays), turn, outcome) for turn, outcome in [*zip(last.turns, MODEL.play(last))][:-1]]
    expected = ''.join(lines) + bad_ending(len(plays), 'cut short')
    os.makedirs(path_of(''), exist_ok=True)
    for name, content in (('stdin', given), ('stdout', expected.encode())):
        with open(path_of(name), 'wb') as file:
            file.write(content)
        print('%s: %d bytes' % (name, len(content)))


# The plays.

def all_plays():
    """Those alone, and the twins of isolation and of demand 3."""
    rng = random.Random(RANGES_SEED)
    plays = all_by_hand(random.Random(HAND_SEED))
    plays += [*refused_ranges(rng, 'share a byte', shared_bytes()), *refused_ranges(rng, 'outside', outside()), *bad_windows(rng)]
    rng = random.Random(EDGES_SEED)
    plays += [play for layout in LAYOUTS for play in edge_plays(rng, 'edges', layout, 5)]
    plays += [play for layout in EMPTY for play in edge_plays(rng, 'empty', layout, 10)]
    plays += random_plays(random.Random(RANDOM_SEED), 'random', 100)
    rng = random.Random(TWINS_SEED)
    return plays, [*all_twins(rng, 36, 'twins', False)], [*all_twins(rng, 36, 'twins with secrets', True)]


def comparable(outcomes):
    return [(one.steps, one.answer, one.code, one.address, one.trace, one.statuses, one.state.memory, one.state.taint,
             one.state.plugin()._replace(taints=tuple(map(marks_of, one.state.taints)),
                                         vector_taints=tuple(map(marks_of, one.state.vector_taints)))) for one in outcomes]


def differing(mutant, plays, right):
    """How many plays a wrong machine gets wrong; one that it fails on is one of them."""
    count = 0
    for play, expected in zip(plays, right):
        try:
            count += comparable(mutant.play(play)) != expected
        except (IndexError, KeyError, ValueError):
            count += 1
    return count


def broken(mutant, twins, keeps):
    count = 0
    for twin in twins:
        try:
            count += not keeps(mutant, *twin)
        except (IndexError, KeyError, ValueError):
            count += 1
    return count


def self_check(plays, outcomes, twins, secrets):
    right, unseen = [comparable(done) for done in outcomes], []
    for title, mutants in (('what is reached', REACHES), ('answers', ANSWERS), ('ranges', RANGES), ('sequences', SEQUENCES)):
        print('%s: plays that tell it, and twins and twins with secrets that it breaks' % title)
        for mutant in mutants:
            count = differing(mutant(), plays, right)
            print('%7d %5d %5d  %s' % (count, broken(mutant(), twins, keeps_isolation), broken(mutant(), secrets, keeps_secrets),
                                       mutant.__name__))
            unseen += [] if count >= 2 else [mutant.__name__]
    print('%d wrong machines' % sum(map(len, (REACHES, ANSWERS, RANGES, SEQUENCES))))
    if unseen:
        raise SystemExit('not seen by two plays: %s' % unseen)


def show(title, counts):
    print(title)
    for name, count in sorted(counts.items(), key=lambda item: str(item[0]).rjust(2)):
        print('%7d  %s' % (count, name))


def main():
    parser = argparse.ArgumentParser()
    parser.add_argument('--self-check', action='store_true')
    options = parser.parse_args()
    alone, twins, secrets = all_plays()
    assert all(keeps_isolation(MODEL, *twin) for twin in twins) and all(keeps_secrets(MODEL, *twin) for twin in secrets)
    plays = alone + [play for *two, _ in twins + secrets for play in two]
    outcomes = [MODEL.play(play) for play in plays]
    if options.self_check:
        return self_check(plays, outcomes, twins, secrets)
    write(plays, outcomes)
    show('turns by answer', collections.Counter(one.answer for done in outcomes for one in done))
    show('plays by group', collections.Counter(play.group for play in plays))
    print('%d twins show the same, and %d with other secrets' % (len(twins), len(secrets)))
    print('%d plays, %d turns, %d steps done' % (
        len(plays), sum(map(len, outcomes)), sum(one.steps for done in outcomes for one in done)))


if __name__ == '__main__':
    main()
