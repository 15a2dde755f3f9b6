#!/usr/bin/env python3
"""Writes crates/trails/stdin and crates/trails/stdout: runs with questions why bytes are tainted, and what must come.

    python3 tools/why_cases.py
    python3 tools/why_cases.py --self-check      counts the questions that tell each wrong library from the right one

What must come is from why_model.py, and why_runs.py has the format. Which places are tainted before each step of a good run, and
what was copied, is held against machine_model.py too. The output is the same each time.
"""
import argparse
import collections
import random

from aarch64_rules import write
from machine_model import EXCLUSIVE, FAMILIES, LAST, LITERAL, ORDERED, PAIR, SPACE, UNSCALED, UNSIGNED, word_of
from replay_states import WITH_VECTORS, access_of, any_immediate, exclusive_choice, is_unpredictable, registers_of
from why_model import GENERAL, MEMORY, VECTOR, Question, Why
from why_mutants import WRONG
from why_runs import (
    FAR, RIGHT, Case, about, any_question, any_run, case_bytes, case_text, every, held, kinds, stepped, window, with_step)

SEED = 8


def drawn_cases(rng):
    for _ in range(90):
        run = any_run(rng, rng.choice((1, 3, 8, 16, 30, 60, 120)))
        yield held(rng, 'drawn runs', run, (any_question(rng, run) for _ in range(20)))


def kind_cases(rng):
    """Each kind of word, eight to a run, all tainted at the start. Each has registers and bytes of its own, so that the step
    before it doesn't show."""
    found = [(family, kind) for family in FAMILIES for kind in kinds(family)]
    for first in range(0, len(found), 8):
        run, questions = every(window(4096, 8 * 48)), []
        for i, (family, kind) in enumerate(found[first:first + 8]):
            registers = dict(zip(('rt', 'rt2', 'rn', 'rs', 'rm'), (i, 8 + i, 16 + i, 24 + i % 6, 30)))
            if i % 4 == 3:
                registers['rn'] = LAST
            fields = {name: registers[name] for name in registers_of(family)}
            word = word_of(family, **{**fields, **any_immediate(rng, family), **kind})
            run = stepped(run, word, 4096 + 48 * i + 8 * (i % 2))
            questions += kind_questions(run, access_of(word))
        yield held(rng, 'each kind of word', run, questions)


def kind_questions(run, access):
    """About each byte that the last step may write, those next to them, and the base."""
    address, places = run.trace[-1], []
    places += [(VECTOR if access.vector else GENERAL, 16 * number + byte)
               for number in access.targets for byte in range(access.capacity() if not access.store else 1)]
    places += [(MEMORY, address + i) for i in (range(-1, access.length() + 1) if access.store else (0,))]
    places += [(GENERAL, 16 * number + 7) for number in (access.base, access.status) if number is not None]
    return [about(run.steps, place, 7) for place in places]


def thirty_one_cases(rng):
    """Register 31 in each place of each family: zero as data and status, SP as the base, and a vector like any other."""
    for vector in range(2):
        run, questions = every(window(4096, 16 * 48)), []
        for family in FAMILIES:
            if vector and family not in WITH_VECTORS:
                continue
            for name in registers_of(family):
                kind = rng.choice([kind for kind in kinds(family) if kind.get('vector', 0) == vector and name not in kind])
                fields = {other: 1 + 2 * i for i, other in enumerate(registers_of(family))}
                word = word_of(family, **{**fields, **any_immediate(rng, family), name: LAST, **kind})
                if is_unpredictable(word):
                    continue
                run = stepped(run, word, 4096 + 48 * rng.randrange(16))
                questions += [about(run.steps, place, 9) for place in (
                    (GENERAL, 16 * LAST), (GENERAL, 16 * LAST + 7), (VECTOR, 16 * LAST), (VECTOR, 16 * LAST + 15),
                    (MEMORY, run.trace[-1]))]
        yield held(rng, 'register 31', run, questions)


def exclusive_cases(rng):
    """Stores that are done and that fail, with each register 31 too; and a status of 1 where there is none."""
    for size in range(4):
        run, questions = every(window(4096, 512)), []
        for o2, load, o0 in ((0, 0, 0), (0, 0, 1), (1, 0, 1), (0, 1, 0), (1, 1, 1)):
            for rs, rt, rn in ((3, 1, 2), (LAST, 1, 2), (3, LAST, 2), (3, 1, LAST), (LAST, 1, LAST)):
                if (o2, load) != (0, 0) and rs != LAST:
                    continue
                for status in range(2):
                    # Tainted again, but for the zero register.
                    run = stepped(run, word_of(LITERAL, opc=1, rt=3), 4096)
                    word = word_of(EXCLUSIVE, **exclusive_choice(size, o2, load, o0) | {'rs': rs}, rt=rt, rn=rn)
                    address = 4096 + 8 * (1 + run.steps % 60)
                    run = stepped(run, word, address, status)
                    questions += [about(run.steps, place, 9) for place in (
                        (GENERAL, 16 * 3), (GENERAL, 16 * 3 + 7), (GENERAL, 16 * LAST), (MEMORY, address),
                        (MEMORY, address + (1 << size) - 1), (MEMORY, address + (1 << size)))]
        yield held(rng, 'exclusives', run, questions)


# Kinds of words of the long trails, of 8 bytes and of 16.
STORE, LOAD = {'size': 3, 'opc': 0}, {'size': 3, 'opc': 1}
STORE_Q, LOAD_Q = {'vector': 1, 'size': 0, 'opc': 2}, {'vector': 1, 'size': 0, 'opc': 3}
LENGTHS = 254, 255, 256, 257, 511, 512, 513


def chain(steps, store, load, marks, idle=0):
    """A byte that goes from a register into memory and back, at each step once, with so many steps between that leave it."""
    run = window(4096, 256)._replace(taint=marks, register_taint=(b'\1' * 8,) + (bytes(8),) * 31)
    prefetch = word_of(UNSCALED, size=3, opc=2, rn=9)
    for i in range(steps):
        word = word_of(UNSCALED, rn=5, rt=i // 2 % 4 if i % 2 == 0 else (i // 2 + 1) % 4, **(store if i % 2 == 0 else load))
        run = stepped(run, word, 4096 + 16 * (i // 2 % 15))
        for _ in range(idle):
            run = stepped(run, prefetch, 0)
    return run


def long_cases(rng):
    """Trails about as long as 255 calls and twice as many, the same for bytes that aren't tainted, and a byte that stays."""
    run = chain(520, STORE, LOAD, bytes(256))
    questions = [question for links in LENGTHS for question in chain_questions(run, links, GENERAL)]
    yield held(rng, 'long trails', run, questions)
    clean = run._replace(register_taint=(bytes(8),) * 32)
    yield held(rng, 'long ways to nothing', clean, [
        question._replace(room=room) for question in questions[::4] for room in (0, 3)])
    vectors = chain(520, STORE_Q, LOAD_Q, bytes(256))._replace(
        register_taint=(bytes(8),) * 32, vector_taint=(bytes(15) + b'\1',) + (bytes(16),) * 31)
    yield held(rng, 'long trails of vectors', vectors, [
        question for links in (256, 513) for question in chain_questions(vectors, links, VECTOR)])
    slow = chain(330, STORE, LOAD, bytes(256), idle=2)
    yield held(rng, 'long trails with rests', slow, [
        question._replace(step=question.step + 2) for links in (86, 171, 255, 256, 257)
        for question in chain_questions(slow, links, GENERAL, 3)])
    still = chain(340, STORE, LOAD, b'\1' * 256, idle=2)
    yield held(rng, 'bytes that stay', still, [
        about(step, place, 3) for step in (0, 1, 255, 256, 257, 800, 1020)
        for place in ((MEMORY, 4096 + 250), (GENERAL, 16 * 7), (VECTOR, 16 * 7 + 9))])


def chain_questions(run, links, kind, every_step=1):
    """About the end of a trail of so many links: with room for it, for one number more and one less, and none."""
    i = links - 2
    byte = 15 if kind == VECTOR else 3
    place = (MEMORY, 4096 + 16 * (i // 2 % 15) + byte) if i % 2 == 0 else (kind, 16 * ((i // 2 + 1) % 4) + byte)
    for room in (3 * links, 3 * links + 1, 3 * links - 1, 0):
        yield about((links - 2) * every_step + 1, place, room)


def place_questions(run, step):
    """About places at every edge, and past it."""
    for number in (0, 1, 30, LAST, 32, 33, 255, 1 << 32, 1 << 60, (1 << 60) + 1, FAR):
        for byte in (0, 7):
            yield Question(step, GENERAL, number, byte, 6)
        for byte in (0, 15):
            yield Question(step, VECTOR, number, byte, 6)
    for byte in (8, 9, 15, 16, 256, 1 << 32, FAR):
        yield Question(step, GENERAL, 1, byte, 6)
    for byte in (8, 16, 17, 256, 1 << 32, FAR):
        yield Question(step, VECTOR, 1, byte, 6)
    for kind in (3, 4, 255, 256, 1 << 32, FAR):
        yield Question(step, kind, 0, 0, 6)
        yield Question(step, kind, run.origin, 0, 6)
    for number in (run.origin - 1, run.origin, run.origin + 1, run.end() - 1, run.end(), run.end() + 1, 0, FAR):
        yield Question(step, MEMORY, number % SPACE, 0, 6)
        yield Question(step, MEMORY, number % SPACE, FAR, 6)


def three_steps(run):
    """A load, a store and a prefetch, wherever the window is."""
    run = stepped(run, word_of(UNSIGNED, size=0, opc=1, rt=1, rn=2), run.origin)
    run = stepped(run, word_of(UNSIGNED, size=0, opc=0, rt=1, rn=2), run.end() - 1)
    return stepped(run, word_of(UNSIGNED, size=3, opc=2, rt=1, rn=2), 0)


def window_cases(rng):
    """Both ends of the address space, no memory, no steps, and nothing but read-only bytes."""
    windows = [window(0, 16), window(SPACE - 16, 16), window(SPACE - 1, 1), window(0, 1), window(4096, 32, 31)]
    for run in windows:
        run = three_steps(every(run))
        yield held(rng, 'windows', run, [question for step in (0, run.steps) for question in place_questions(run, step)])
    empty = [window(0, 0), window(FAR, 0), window(4096, 8, 8), window(FAR, 1), window(SPACE - 16, 16)]
    for run in map(every, empty):
        yield held(rng, 'no steps', run, [
            *place_questions(run, 0), Question(1, GENERAL, 0, 0, 6), Question(FAR, VECTOR, 0, 0, 6)])
    run = every(window(4096, 16, 16))
    run = stepped(run, word_of(UNSIGNED, size=3, opc=1, rt=1, rn=2), 4096)
    yield held(rng, 'read-only memory', run, [about(1, place, 6) for place in ((GENERAL, 16), (GENERAL, 23), (MEMORY, 4096))])


def few_questions(run):
    """About a place of each kind: at the start, at the end, and after it; and of none."""
    for step in (0, run.steps, run.steps + 1):
        yield Question(step, GENERAL, 1, 0, 12)
        yield Question(step, MEMORY, run.origin, 0, 12)
        yield Question(step, VECTOR, 1, 0, 12)
    yield Question(0, GENERAL, 32, 0, 12)
    yield Question(0, MEMORY, (run.end() + 1) % SPACE, 0, 12)


def bad_window_cases(rng):
    """Each of the three reasons of 1, and next to it."""
    good = every(window(4096, 16, 4))
    for run in (window(SPACE - 16, 17), window(SPACE - 15, 16), window(FAR, 2), window(1, 16)._replace(length=FAR),
                good._replace(readonly=16), good._replace(readonly=17), good._replace(readonly=FAR),
                good._replace(taint=bytes(15)), good._replace(taint=bytes(17)), good._replace(taint=b''),
                good._replace(length=15), good._replace(length=17), good._replace(origin=FAR, length=FAR),
                window(0, 0)._replace(readonly=1), window(0, 0)._replace(taint=b'\1'), window(FAR, 1, 1), window(FAR, 1, 2)):
        yield Case('windows that are refused', run, tuple(few_questions(run)))


# Words of the run that is damaged, with what they are done at.
ORDERED_LOAD = word_of(ORDERED, size=1, opc=1, rt=1, rn=LAST)
STORE_EXCLUSIVE = word_of(EXCLUSIVE, **exclusive_choice(2, 0, 0, 0), rs=3, rt=1, rn=LAST)
LOAD_ACQUIRE = word_of(EXCLUSIVE, **exclusive_choice(1, 1, 1, 1), rt=1, rn=2)
STORE_PAIR = word_of(PAIR, opc=2, mode=2, load=0, vector=1, rt=1, rt2=1, rn=LAST)
LITERAL_LOAD = word_of(LITERAL, opc=1, rt=1)
PREFETCH = word_of(UNSIGNED, size=3, opc=2, rt=1, rn=LAST)
PLAIN_STORE = word_of(UNSIGNED, size=3, opc=0, rt=1, rn=LAST)


def whole_run():
    """A step of each kind that a reason of 17 is about, in a window of 48 bytes of which 8 are read-only."""
    run = every(window(4096, 48, 8))
    for word, address, status in ((ORDERED_LOAD, 4110, 0), (STORE_EXCLUSIVE, 4104, 1), (STORE_EXCLUSIVE, 4140, 0),
                                  (LOAD_ACQUIRE, 4096, 0), (STORE_PAIR, 4112, 0), (LITERAL_LOAD, 4097, 0), (PREFETCH, 0, 0),
                                  (PLAIN_STORE, 4104, 0)):
        run = stepped(run, word, address, status)
    return run


def step_damages(run):
    """Each step with another status, code, address or word: most are refused, and the edges are done."""
    for step, word in enumerate(run.words):
        access, code = access_of(word), run.trace[2 * step]
        for status in (0, 1, 2, 3, 128, 255):
            yield with_step(run, step, status=status)
        for other in (code - 1, code + 1, code ^ 64, code + 128, code + (1 << 32), 64 if code == 0 else 0):
            yield with_step(run, step, code=other)
        if access.prefetch:
            addresses = 1, 4096, 4104, FAR
        else:
            last = run.end() - access.length()
            addresses = 4095, 4096, 4097, 4103, 4104, 4105, 4111, last - 1, last, last + 1, FAR, SPACE - access.length()
        for address in addresses:
            yield with_step(run, step, address=address)
    # Not of the set, undefined, and unpredictable in each way; and unpredictable but for base 31.
    for word, code, address in (
            (0x91000000, 8, 4104), (0x91000000, 0, 0), (0, 0, 0), (0x08df7c20, 1, 4104), (0xb8c00020, 4, 4104),
            (0x38e00862, 1, 4104), (0xa9400020, 16, 4104), (0xa9400420, 16, 4104), (0xf8408421, 8, 4104), (0xf84087ff, 8, 4104),
            (0xa8c10821, 16, 4104), (0xa8c10441, 16, 4104), (0x88007c20, 68, 4104), (0x88027c41, 68, 4104),
            (0x881f7fe0, 68, 4104),
            (0x6d400020, 16, 4104), (0x6d400000, 16, 4104), (0xad400000, 32, 4104), (0xfd408421, 8, 4104), (0x08007c20, 65, 4104),
            (0x887f7c20, 4, 4104), (0x885f7c20, 4, 4104), (0x885f0020, 4, 4104), (0x88417c20, 4, 4104)):
        yield with_step(run, 3, word=word, code=code, address=address, status=0)


def damaged_questions(run):
    """At the start, at the end, and after it, with a list that is too short too."""
    yield Question(0, GENERAL, 1, 0, 12)
    yield Question(run.steps, MEMORY, run.origin + 8, 0, 12)
    yield Question(run.steps + 1, VECTOR, 1, 0, 0)


def damaged_cases(rng):
    run = whole_run()
    yield held(rng, 'whole', run, [*few_questions(run), *damaged_questions(run), *place_questions(run, run.steps)])
    for damaged in step_damages(run):
        yield Case('damaged steps', damaged, tuple(damaged_questions(run)))
    bare = three_steps(every(window(4096, 32)))
    for other in (bare._replace(words=bare.words[:-1]), bare._replace(statuses=bare.statuses[:-1]),
                  bare._replace(trace=bare.trace[:-1]), bare._replace(trace=bare.trace[:-2]), bare._replace(trace=bare.trace[:3]),
                  bare._replace(words=bare.words + (0,)), bare._replace(statuses=bare.statuses + b'\2'),
                  bare._replace(trace=bare.trace + (FAR,)), bare._replace(trace=bare.trace + (FAR, FAR)),
                  bare._replace(words=()), bare._replace(statuses=b''), bare._replace(trace=()),
                  bare._replace(steps=2), bare._replace(steps=0), bare._replace(steps=4), bare._replace(steps=FAR),
                  bare._replace(steps=1 << 63), bare._replace(steps=(1 << 63) + 1), bare._replace(steps=1 << 62)):
        asked = [Question(step, GENERAL, 1, 0, room) for step in (2, 3, 4, FAR) for room in (0, 6)]
        yield Case('lists of other lengths', other, (*few_questions(bare), *asked))


def order_cases(rng):
    """Every two faults at once, and each alone: which of them is answered?"""
    good = three_steps(every(window(4096, 32)))
    windows = (good, good._replace(readonly=33), good._replace(taint=good.taint[1:]))
    traces = ({}, {'steps': 4}, {'trace': (*good.trace[:-1], 5)}, {'statuses': b'\0\0\2'})
    places = ((GENERAL, 1, 0), (MEMORY, 4096 + 31, 0), (MEMORY, 4096 + 32, 0), (GENERAL, 32, 0), (GENERAL, 1, 8), (VECTOR, 1, 16),
              (3, 4095, 16))
    questions = tuple(Question(step, *place, room)
                      for place in places for step in (good.steps, good.steps + 2) for room in (0, 5, 9))
    for run in windows:
        for damage in traces:
            yield Case('two faults', run._replace(**damage), questions)


def room_cases(rng):
    """Trails of each length up to nine, with each room about what they need."""
    run = chain(9, STORE, LOAD, bytes(256))
    questions = []
    for links in range(2, 10):
        question = next(chain_questions(run, links, GENERAL))
        rooms = {0, links, 2 * links, *(3 * links + more for more in (-3, -2, -1, 0, 1, 4))}
        questions += [question._replace(room=room) for room in sorted(rooms)]
    yield held(rng, 'rooms', run, questions)


def all_cases():
    rng = random.Random(SEED)
    makers = (kind_cases, thirty_one_cases, exclusive_cases, window_cases, bad_window_cases, damaged_cases, order_cases,
              room_cases, long_cases, drawn_cases)
    return [case for maker in makers for case in maker(rng)]


def self_check(cases):
    right, unseen = [case_text(Why(), 0, case).splitlines() for case in cases], []
    for wrong in WRONG:
        library = wrong()
        count = sum(line != other for case, lines in zip(cases, right)
                    for line, other in zip(lines, case_text(library, 0, case).splitlines()))
        print('%7d  %s' % (count, wrong.__doc__), flush=True)
        unseen += [] if count else [wrong.__doc__]
    if unseen:
        raise SystemExit('not seen: %s' % unseen)


def store(cases):
    # The last case is cut inside its last question.
    ending = case_bytes(cases[0])[:-1]
    expected = ''.join(case_text(RIGHT, number, case) for number, case in enumerate(cases))
    cut = case_text(RIGHT, len(cases), cases[0]._replace(questions=cases[0].questions[:-1]))
    expected += cut + 'case\t%d\tcut short\n' % len(cases)
    given = b''.join(map(case_bytes, cases)) + ending
    write('trails', 'stdin', given)
    write('trails', 'stdout', expected.encode())
    counts = collections.Counter()
    for case in cases:
        counts[case.group] += len(case.questions)
    for group, count in counts.items():
        print('%7d  %s' % (count, group))
    print('%d runs, %d questions, %d bytes in and %d out' % (len(cases), sum(counts.values()), len(given), len(expected)))


def main():
    parser = argparse.ArgumentParser()
    parser.add_argument('--self-check', action='store_true')
    cases = all_cases()
    self_check(cases) if parser.parse_args().self_check else store(cases)


if __name__ == '__main__':
    main()
