#!/usr/bin/env python3
"""Writes crates/replay/stdin and crates/replay/stdout: machines and words, and what must become of them.

    apt-get install python3-unicorn
    python3 tools/replay_cases.py                   runs of one word, and of many behind them
    python3 tools/replay_cases.py --endings DIR     writes small inputs that end in each way, and what must come
    python3 tools/replay_cases.py --self-check      counts the cases that tell each wrong machine from the right one, and
                                                    holds them all against demand 3 and its other half

What must come is the model's, which is written from 01 and 02 alone (machine_model.py). Every step that is done, prefetches
too, is also done by Unicorn, and registers of both kinds, memory, PC, address and length of the access have to be the same:
the script stops at any difference but those of its monitor, which machine_unicorn.py has a rule for. Unicorn also has to refuse
the words of answer 3 but for the ninth family's, and to reach for the address that answers 6 to 8 give. It has no test of the
stack pointer's alignment: where that is what refuses, it has to make the access, at the address that the model gives it.
Which words are 2, 3 and 4 is also held against crates/list/stdout, which LLVM and binutils have made. The other answers,
windows, taints, the trace and the statuses' list are the model's alone. None of it comes from this project's code.

replay_format.py has the format. The stored input ends inside a case, and the option --endings makes the other endings.
Made with unicorn 2.0.1 from Debian 12, in less than a minute. The output is the same each time.
"""
import argparse
import collections
import itertools
import os
import random

from exclusive_mutants import EXCLUSIVES
from machine_model import EXCLUSIVE, FAMILIES, Model, fields_of, marks_of
from machine_mutants import EDGES, RUNS, SAME, SLIPS, STACKS, WARNED
from mark_mutants import OTHERS, TOO_FEW, TOO_MANY
from replay_edges import all_edges
from replay_exclusives import all_exclusives
from replay_format import bad_ending, case_bytes, case_lines, outcome_of, write_endings
from replay_marks import all_marks
from replay_pairs import all_pairs, keeps_halves
from replay_runs import all_runs, largest_case
from replay_states import WITH_VECTORS, access_of, is_unpredictable, registers_of, with_any_marks
from replay_steps import all_steps, flaws_of, with_longer_lists
from replay_vectors import all_vector_marks, all_vectors
from vector_mutants import REGISTERS, TESTS, VECTOR_TOO_FEW, VECTOR_TOO_MANY, WORDS

STEPS_SEED, RUNS_SEED, EDGES_SEED, EXCLUSIVES_SEED, MARKS_SEED, PAIRS_SEED, VECTORS_SEED = 3, 4, 5, 6, 7, 8, 9
MODEL = Model()


def path_of(crate, name):
    return os.path.join(os.path.dirname(os.path.dirname(os.path.abspath(__file__))), 'crates', crate, name)


def show(title, counts):
    print(title)
    for name, count in sorted(counts.items(), key=lambda item: str(item[0]).rjust(2)):
        print('%7d  %s' % (count, name))


def write(cases, outcomes):
    # The last case is cut: its last byte of taint is missing.
    ending = case_bytes(next(case for case in cases if case.state.taint))[:-1]
    given = b''.join(case_bytes(case) for case in cases) + ending
    expected = ''.join(case_lines(number, outcome) for number, outcome in enumerate(outcomes))
    expected += bad_ending(len(cases), 'cut short')
    os.makedirs(path_of('replay', ''), exist_ok=True)
    for name, content in (('stdin', given), ('stdout', expected.encode())):
        with open(path_of('replay', name), 'wb') as file:
            file.write(content)
        print('%s: %d bytes' % (name, len(content)))


def agreed(holds, case, outcome):
    if not holds:
        raise SystemExit('no rule for %08x of answer %d in %s' % (
            case.words[outcome.steps], outcome.answer, case.group))


def confirm(cases, outcomes):
    """Holds every done step against Unicorn."""
    from machine_unicorn import RULES, compare, ignores_unused, reaches, refuses_undefined
    counts, skipped, refusals = collections.Counter(), collections.Counter(), collections.Counter()
    for case, outcome in zip(cases, outcomes):
        why = compare(MODEL, case, outcome.steps, counts)
        if why:
            skipped[why] += 1
        if outcome.answer == 3:
            ninth = MODEL.family_of(case.words[outcome.steps]) == EXCLUSIVE
            test = ignores_unused if ninth else refuses_undefined
            agreed(test(case.words[outcome.steps], outcome.state), case, outcome)
            refusals['words that it does as with 31 in unused registers' if ninth else 'undefined words'] += 1
        if outcome.answer in (6, 7, 8):
            word, state = case.words[outcome.steps], outcome.state
            access = access_of(word)
            address = MODEL.address_of(state, access, fields_of(access.family, word))
            agreed(reaches(word, state, access, address), case, outcome)
            by_stack = MODEL.is_stack_misaligned(state, access, address)
            apart = access.exclusive and MODEL.is_misaligned(state, access, address)
            refusals['exclusives that are not aligned' if apart else 'accesses by an SP that is not aligned' if by_stack
                     else 'addresses of answers 6 to 8'] += 1
    show('steps that Unicorn does by a rule of its own', {rule: counts.pop(rule) for rule in RULES})
    show('steps that Unicorn confirms', counts)
    show('refusals of which it confirms', refusals)
    show('cases with no steps for it', skipped)
    if counts['loads and stores'] < 5000 or min(counts.values()) < 400:
        raise SystemExit('too few')


def sorted_as_listed():
    """Holds the model's sorting of words against the stored listing, which is LLVM's and GNU's: how many words."""
    with open(path_of('list', 'stdout')) as file:
        lines = [line.rstrip('\n').split('\t') for line in file]
    words = [(int(word, 16), int(answer)) for word, _, answer in lines if word != 'short']
    for word, answer in words:
        access = access_of(word)
        if access is None:
            found = 2 if MODEL.family_of(word) is None else 3
        else:
            found = 4 if is_unpredictable(word) else 0
        if found != answer:
            raise SystemExit('no rule for %08x, which the listing has as %d' % (word, answer))
    return len(words)


def show_coverage(cases, outcomes):
    """What the least frequent choice, and the least frequent register in some place, have in done steps."""
    kinds = [*itertools.product(FAMILIES, [0]), *itertools.product(WITH_VECTORS, [1])]
    chosen, placed = ({kind: collections.Counter() for kind in kinds} for _ in range(2))
    for case, outcome in zip(cases, outcomes):
        for word in case.words[:outcome.steps]:
            family = MODEL.family_of(word)
            fields, places = fields_of(family, word), registers_of(family)
            kind = family, fields.get('vector', 0)
            chosen[kind][tuple(value for name, value in fields.items() if name not in places + ['imm'])] += 1
            placed[kind].update((name, fields[name]) for name in places)
    for kind in kinds:
        family, vector = kind
        assert len(placed[kind]) == 32 * len(registers_of(family))
        print('%s%s: %d choices, the least done %d times; each register in each place at least %d times' % (
            family, ' of vectors' * vector, len(chosen[kind]), min(chosen[kind].values()), min(placed[kind].values())))


def show_flaws(cases):
    """How many cases have each two flaws, the first of which has to be answered."""
    pairs = collections.Counter()
    for case in cases:
        flaws = flaws_of(case) if len(case.words) == 1 else []
        # 10 comes straight after 1.
        order = sorted(flaws, key=lambda answer: 1.5 if answer == 10 else answer)
        pairs.update('%d before %d' % (order[0], later) for later in order[1:])
    show('cases of one word with several flaws', pairs)


def comparable(outcome):
    state = outcome.state
    return (outcome.steps, outcome.answer, outcome.code, outcome.address, state.pc, state.registers,
            [marks_of(taint) for taint in state.taints], state.vectors, [marks_of(taint) for taint in state.vector_taints],
            state.memory, state.taint, state.monitor, outcome.trace, outcome.statuses)


def differing(mutant, cases, right):
    """How many cases a wrong machine gets wrong; one that it fails on is one of them."""
    count = 0
    for case, expected in zip(cases, right):
        try:
            count += comparable(outcome_of(mutant, case)) != expected
        except (IndexError, KeyError, TypeError):
            count += 1
    return count


def check_halves(cases, marked):
    """Demand 3's two halves of every case, and that wrong marks break them in those that are made for marks."""
    assert all(keeps_halves(MODEL, case) for case in cases)
    print('%7d  cases that end from 0 and from 255 as demand 3 and its other half say' % len(cases))
    for title, mutants in (('too few marks, and cases that show it from 0 and 255', TOO_FEW + VECTOR_TOO_FEW),
                           ('too many marks, likewise', TOO_MANY + VECTOR_TOO_MANY)):
        print(title)
        for mutant in mutants:
            count = sum(not keeps_halves(mutant(), case) for case in marked)
            print('%7d  %s' % (count, mutant.__name__))
            if not count:
                raise SystemExit('%s keeps both halves' % mutant.__name__)


def self_check(cases, outcomes, marked):
    right = [comparable(outcome) for outcome in outcomes]
    lists = [('warned of', WARNED), ('further', SLIPS), ('stack pointer', STACKS), ('exclusives', EXCLUSIVES),
             ('edges', EDGES), ('runs', RUNS), ('marks', TOO_FEW + TOO_MANY + OTHERS),
             ('words of vectors', WORDS), ('vector registers', REGISTERS), ('tests of vectors', TESTS),
             ('marks of vectors', VECTOR_TOO_FEW + VECTOR_TOO_MANY)]
    unseen = []
    for title, mutants in lists:
        print(title)
        for mutant in mutants:
            count = differing(mutant(), cases, right)
            print('%7d  %s' % (count, mutant.__name__))
            unseen += [] if count else [mutant.__name__]
    for mutant in SAME:
        assert differing(mutant(), cases, right) == 0
        print('      -  %s, which no input can show' % mutant.__name__)
    if unseen:
        raise SystemExit('not seen: %s' % unseen)
    check_halves(cases, marked)


def main():
    parser = argparse.ArgumentParser()
    parser.add_argument('--endings', metavar='DIR')
    parser.add_argument('--self-check', action='store_true')
    options = parser.parse_args()
    cases = all_steps(random.Random(STEPS_SEED)) + all_edges(random.Random(EDGES_SEED))
    if options.endings:
        return write_endings(options.endings, MODEL, cases[0], largest_case(random.Random(RUNS_SEED)))
    cases = with_longer_lists(cases + all_runs(random.Random(RUNS_SEED))) + all_exclusives(random.Random(EXCLUSIVES_SEED))
    vectors = random.Random(VECTORS_SEED)
    cases += all_vectors(vectors)
    marked = all_marks(random.Random(MARKS_SEED)) + all_vector_marks(vectors) + all_pairs(random.Random(PAIRS_SEED))
    cases = [with_any_marks(number, case) for number, case in enumerate(cases + marked)]
    outcomes = [outcome_of(MODEL, case) for case in cases]
    if options.self_check:
        return self_check(cases, outcomes, cases[-len(marked):])
    print('%7d  words that the model sorts as the stored listing does' % sorted_as_listed())
    confirm(cases, outcomes)
    write(cases, outcomes)
    show('cases by answer', collections.Counter(outcome.answer for outcome in outcomes))
    show('cases by group', collections.Counter(case.group for case in cases))
    show_flaws(cases)
    show_coverage(cases, outcomes)
    print('%d cases, %d of them of one word, %d steps done' % (
        len(cases), sum(len(case.words) == 1 for case in cases), sum(outcome.steps for outcome in outcomes)))


if __name__ == '__main__':
    main()
