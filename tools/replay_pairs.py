"""Runs two and two, for the program `replay`: demand 3, and its other half (02, CR 13).

Two runs that differ in marked bytes only have to be alike in all that may be seen. Where every marked byte is 0 at the start
of one and 255 at the start of the other, each byte that is marked at the end has to differ: no mark is there for nothing.
"""
from machine_model import marks_of
from replay_format import outcome_of
from replay_runs import any_run
from replay_states import MODEL


def blended(taint, value, other):
    """Bytes: the other's where the taint marks one."""
    return bytes(there if mark else here for mark, here, there in zip(taint, value, other))


def blended_registers(taints, values, others):
    """The same for registers, general or vectors, whose numbers have as many bytes as their taints."""
    return [int.from_bytes(blended(taint, *(number.to_bytes(len(taint), 'little') for number in both)), 'little')
            for taint, *both in zip(taints, values, others)]


def with_secrets(given, registers, vectors, memory):
    """The same state but for its marked bytes, which are those of these."""
    state = given.copy()
    state.registers = blended_registers(given.taints, given.registers, registers)
    state.vectors = blended_registers(given.vector_taints, given.vectors, vectors)
    # A window of answer 1 may have taint of another length, and what lies past it is not marked.
    state.memory[:len(given.taint)] = blended(given.taint, given.memory, memory)
    return state


def with_other_secrets(rng, case):
    state = case.state
    registers = [rng.choice((rng.getrandbits(64), state.origin)) for _ in range(32)]
    memory, vectors = [rng.getrandbits(8) for _ in state.memory], [rng.getrandbits(128) for _ in range(32)]
    return case._replace(state=with_secrets(state, registers, vectors, memory))


def filled(case, byte):
    """The same case with every marked byte this one."""
    registers, vectors = ([int.from_bytes(bytes([byte]) * width, 'little')] * 32 for width in (8, 16))
    return case._replace(state=with_secrets(case.state, registers, vectors, bytes([byte]) * len(case.state.memory)))


def bytes_of(state):
    """Each byte of registers and memory, with its taint."""
    for value, taint in zip(state.registers, state.taints):
        yield from zip(value.to_bytes(8, 'little'), taint)
    for value, taint in zip(state.vectors, state.vector_taints):
        yield from zip(value.to_bytes(16, 'little'), taint)
    yield from zip(state.memory, state.taint)


def seen(outcome):
    """What two runs that differ in marked bytes only must have in common."""
    state = outcome.state
    return (outcome.steps, outcome.answer, outcome.code, outcome.address, state.pc, state.taint,
            [marks_of(taint) for taint in state.taints + state.vector_taints], outcome.trace, outcome.statuses, state.monitor,
            [byte for byte, taint in bytes_of(state) if not taint])


def keeps_halves(model, case):
    """Whether the runs from 0 and from 255 are alike in what is seen, and differ in every byte marked at the end."""
    low, high = (outcome_of(model, filled(case, byte)) for byte in (0, 255))
    ends = zip(bytes_of(low.state), bytes_of(high.state))
    return seen(low) == seen(high) and all(one != other for (one, taint), (other, _) in ends if taint)


def secret_run(rng, group, number, **how):
    refused = 5 if number % 4 == 0 else rng.choice((None, None, 7))
    return any_run(rng, group, rng.randrange(2, 14), refused, more=rng.randrange(2), secret=True, **how)


def other_secrets(rng, group, count, **how):
    for number in range(count):
        case = secret_run(rng, group, number, **how)
        twin = with_other_secrets(rng, case)
        assert seen(outcome_of(MODEL, case)) == seen(outcome_of(MODEL, twin))
        yield from (case, twin)


def opposed_secrets(rng, group, count, **how):
    for number in range(count):
        case = secret_run(rng, group, number, **how)
        assert keeps_halves(MODEL, case)
        yield from (filled(case, 0), filled(case, 255))


def all_pairs(rng):
    return [*other_secrets(rng, 'pair of runs', 110), *opposed_secrets(rng, 'pair of 0 and 255', 110),
            *other_secrets(rng, 'pair of runs, vectors', 40, vectors=True),
            *opposed_secrets(rng, 'pair of 0 and 255, vectors', 40, vectors=True)]
