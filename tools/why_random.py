#!/usr/bin/env python3
"""Holds the program `trails` against why_model.py on other questions than the stored ones.

    bash tools/programs.sh trails && python3 tools/why_random.py 100000 target/bin/trails [SEED]

Some runs are damaged, and some questions. It stops at the first answer that differs.
"""
import collections
import itertools
import random
import subprocess
import sys

from machine_model import SPACE
from why_model import Why
from why_runs import Case, any_question, any_run, case_bytes, case_text, hold, with_step


def damaged_at_random(rng, run):
    """A run with something changed that may or may not matter."""
    if not run.steps:
        return run
    step = rng.randrange(run.steps)
    kind = rng.randrange(9)
    if kind == 0:
        return with_step(run, step, word=run.words[step] ^ 1 << rng.randrange(32))
    if kind == 1:
        return with_step(run, step, code=run.trace[2 * step] + rng.choice((-1, 1, 64, -64, 16)))
    if kind in (2, 3):
        moved = rng.choice((-32, -16, -2, -1, 1, 2, 8, 16, 40))
        return with_step(run, step, address=run.trace[2 * step + 1] + moved)
    if kind == 4:
        return with_step(run, step, status=rng.choice((0, 1, 2, 255)))
    if kind == 5:
        return run._replace(steps=rng.choice((run.steps - 1, run.steps + 1)))
    if kind == 6:
        return run._replace(readonly=min(run.length + 1, run.readonly + rng.choice((1, 4, 16))))
    if kind == 7:
        return run._replace(**rng.choice(({'words': run.words[:-1]}, {'trace': run.trace[:-1]}, {'statuses': run.statuses[:-1]})))
    return run._replace(**rng.choice(({'length': run.length - 1}, {'length': run.length + 1}, {'taint': run.taint[1:]})))


def wild(rng, question):
    """The question with a number of it changed."""
    name = rng.choice(('step', 'kind', 'number', 'byte', 'room'))
    value = getattr(question, name)
    value = rng.choice((value + 1, max(value - 1, 0), rng.getrandbits(64) if name != 'room' else value + 7, value + 16))
    return question._replace(**{name: value % SPACE})


def random_case(rng, questions):
    run = any_run(rng, rng.choice((0, 1, 3, 8, 20, 40, 80, 160)))
    hold(rng, run)
    asked = tuple(any_question(rng, run) for _ in range(questions))
    asked = tuple(wild(rng, question) if rng.randrange(12) == 0 else question for question in asked)
    return Case('random', damaged_at_random(rng, run) if rng.randrange(6) == 0 else run, asked)


def compare(count, program, seed):
    """In parts of some thousand questions."""
    rng, done, answers = random.Random(seed), 0, collections.Counter()
    while done < count:
        cases = [random_case(rng, 25) for _ in range(100)]
        expected = ''.join(case_text(Why(), number, case) for number, case in enumerate(cases)).splitlines()
        given = b''.join(map(case_bytes, cases))
        lines = subprocess.run([program], input=given, stdout=subprocess.PIPE, check=True).stdout.decode().splitlines()
        for line, other in itertools.zip_longest(expected, lines):
            if line != other:
                raise SystemExit('after %d questions, %s and not %s' % (done, other, line))
        asked = [line for line in expected if line.startswith('why')]
        done += len(asked)
        answers.update(map(shown_answer, asked))
    for answer, times in sorted(answers.items()):
        print('%7d  %s' % (times, answer))
    print('%d questions, all alike' % done)


def shown_answer(line):
    answer, links = line.split('\t')[1:3]
    return 'answer %2s' % answer if answer != '0' else 'tainted' if links != '0' else 'not tainted'


if __name__ == '__main__':
    if len(sys.argv) not in (3, 4):
        sys.exit(__doc__)
    compare(int(sys.argv[1]), sys.argv[2], int((sys.argv[3:] or ['0'])[0]))
