"""Cases of one word each, for the program `replay`.

Every case is built the same way: a word, registers that lead its access to a chosen address, and a small window about
that address. The edges then change one thing, or several at once where the order of the answers is to be seen.
"""
import itertools

from machine_model import (
    ALL, EXCLUSIVE, FAMILIES, LAST, LAYOUTS, LITERAL, NO_ALLOCATE, NONE, ORDERED, PAIR, PAIR_POST, PAIR_PRE, POST, PRE,
    REGISTER, SPACE, UNSCALED, UNSIGNED, State, fields_of, word_of)
from replay_format import MOST_STATUSES, Case, outcome_of
from replay_states import (
    EXCLUSIVES, MODEL, SIZED, TAINTS, WITH_PREFETCH, access_of, any_address, any_immediate, any_word, choices,
    equal_registers, exclusive_choice, immediates, is_unpredictable, prefetch_word, registers_of, sized_choices,
    state_for, whole)

# Done cases for each choice of an instruction. The runs add more of each, so that every register stands in every place.
EACH = {LITERAL: 16, PAIR: 12, REGISTER: 4, EXCLUSIVE: 10, **{family: 10 for family in SIZED}}


def step(group, word, state, room=2, places=1):
    return Case(group, (word,), state, room, places)


# 01's examples, with the values that it gives.
EXAMPLES = 'examples of 01'


def example_state(origin=4096, length=16, readonly=4, x1=4101, sp=0, bytes_at={4100: 128}):
    memory = bytearray(length)
    for address, byte in bytes_at.items():
        memory[address - origin] = byte
    # A register that a step should not touch shows if it does.
    registers = [100 + i for i in range(31)] + [sp]
    registers[1] = x1
    return State(origin, readonly, 65536, registers, [NONE] * 32, memory, bytes(length))


def examples():
    """Cases and, for each, the answer, code, address and changed register of 01."""
    ldrb, ldr, strb = (word_of(UNSIGNED, size=size, opc=opc, rn=1, rt=0) for size, opc in ((0, 1), (3, 1), (0, 0)))
    ldapurh, ldapurh_back = (word_of(ORDERED, size=1, opc=1, imm=imm, rn=1, rt=0) for imm in (0, -1))
    ldurh_back = word_of(UNSCALED, size=1, opc=1, imm=-1, rn=1, rt=0)
    top = dict(origin=SPACE - 16, x1=0, bytes_at={SPACE - 1: 7})
    none = dict(length=0, readonly=0, bytes_at={})
    plain = [
        (0x385ff020, {}, (0, 1, 4100), {0: 128}),
        (0x38dff020, {}, (0, 1, 4100), {0: 4294967168}),
        (0x389ff020, {}, (0, 1, 4100), {0: SPACE - 128}),
        (0x390003ff, dict(sp=4096, readonly=0), (0, 65, 4096), {}),
        (0x390003ff, dict(sp=4100), (6, 0, 4100), {}),
        (ldr, dict(x1=4104), (0, 8, 4104), {0: 0}),
        (ldr, dict(x1=4105), (7, 0, 4105), {}),
        (strb, dict(x1=4099), (8, 0, 4099), {}),
        (strb, dict(x1=4100), (0, 65, 4100), {}),
        (ldapurh, dict(length=32, x1=4111), (6, 0, 4111), {}),
        (ldapurh, dict(length=32, x1=4097), (0, 2, 4097), {0: 0}),
        (0x385ff020, top, (0, 1, SPACE - 1), {0: 7}),
        (ldurh_back, top, (7, 0, SPACE - 1), {}),
        (ldapurh_back, top, (6, 0, SPACE - 1), {}),
        (ldrb, none, (7, 0, 4101), {}),
        (ldapurh, dict(none, x1=4111), (6, 0, 4111), {}),
        (0xb8c00020, {}, (3, 0, 0), {}),
        (0x38e00862, {}, (3, 0, 0), {}),
        (0xa9400020, {}, (4, 0, 0), {}),
        (0x91000000, {}, (2, 0, 0), {}),
        (0xf8408421, {}, (4, 0, 0), {}),
        (0xf8800020, {}, (0, 0, 0), {}),
        (0xf9400420, dict(x1=4096), (0, 8, 4104), {0: 0}),
        (0xf84107e0, dict(sp=4096), (0, 8, 4096), {0: 128 << 32, 31: 4112}),
        (0xf84107e0, dict(sp=4100), (6, 0, 4100), {}),
        (0xa9bf7bfd, dict(readonly=0, sp=4112), (0, 80, 4096), {31: 4096}),
    ]
    for word, changed, expected, registers in plain:
        yield step(EXAMPLES, word, example_state(**changed)), expected, registers


def example_cases():
    for case, expected, changed in examples():
        outcome = outcome_of(MODEL, case)
        registers = list(case.state.registers)
        for number, value in changed.items():
            registers[number] = value
        assert (outcome.answer, outcome.code, outcome.address) == expected, hex(case.words[0])
        assert outcome.state.registers == registers, hex(case.words[0])
        yield case


# Steps that are done.

def done_cases(rng):
    """Every choice with every immediate at its edges, every register, and registers that are equal."""
    for family in FAMILIES:
        for choice in choices(family):
            yield from done_with(rng, family, choice)


def done_with(rng, family, choice):
    names = registers_of(family)
    orders = {name: rng.sample(range(32), 32) for name in names}
    equal = list(equal_registers(rng, family))
    edges = immediates(family)
    made = 0
    for i in itertools.count():
        if made == EACH[family]:
            return
        fields = {name: order[i % 32] for name, order in orders.items()}
        if i < len(equal):
            fields.update(equal[i])
        imm = {'imm': edges[i % len(edges)]} if edges and i < 2 * len(edges) else any_immediate(rng, family)
        word = word_of(family, **{**fields, **imm, **choice})
        if is_unpredictable(word):
            continue
        case = step('done: ' + family, word, state_for(rng, word))
        # A base that is its own index leads anywhere, now and then across the end of the address space.
        if outcome_of(MODEL, case).answer == 0:
            made += 1
            yield case


# Edges of each answer. A word beside each flaw that would be done without it, or refused later.

def some_words(rng):
    """A word for each family, loads and stores in turn, and a prefetch."""
    for family in FAMILIES:
        yield any_word(rng, family)
    yield any_word(rng, PAIR, rng.choice([choice for choice in choices(PAIR) if not choice['load']]))
    yield any_word(rng, UNSIGNED, {'size': rng.randrange(4), 'opc': 0})
    yield prefetch_word(rng, rng.choice(WITH_PREFETCH))


def bad_windows():
    """What makes a state one of answer 1, by name."""
    def end_above(state):
        state.origin = SPACE - len(state.memory) + 1

    def end_far_above(state):
        state.origin = SPACE - 1
        state.memory, state.taint = bytearray(9), bytearray(9)

    def readonly_above(state):
        state.readonly = len(state.memory) + 1

    def readonly_far_above(state):
        state.readonly = SPACE - 1

    def taint_shorter(state):
        state.taint = state.taint[:-1]

    def taint_longer(state):
        state.taint.append(0)

    def no_taint(state):
        state.taint = bytearray()

    def no_memory(state):
        state.memory = bytearray()

    def pc_odd(state):
        state.pc += 1

    def pc_half(state):
        state.pc += 2

    def pc_behind(state):
        state.pc += 3
    return [end_above, end_far_above, readonly_above, readonly_far_above, taint_shorter, taint_longer, no_taint,
            no_memory, pc_odd, pc_half, pc_behind]


def spoiled(state, spoil):
    """A state with such a flaw. It gets two bytes of memory first, or some of them would be none."""
    if len(state.memory) < 2:
        state.memory, state.taint = bytearray(2), bytearray(2)
    spoil(state)
    return state


def bad_window_cases(rng):
    for spoil in bad_windows():
        words = [word for word in some_words(rng)]
        for word in rng.sample(words, 6):
            yield step('answer 1', word, spoiled(state_for(rng, word), spoil))
        for word in (0x91000000, 0xb8c00020, 0xa9400020):
            yield step('answer 1 before 2, 3 and 4', word, spoiled(state_for(rng, 0x385ff020), spoil))
        yield step('answer 1 before 10', words[-1], spoiled(state_for(rng, words[-1]), spoil), rng.getrandbits(1))
    # The last origin, the largest r and the last PC that are good.
    for word in some_words(rng):
        access = access_of(word)
        if access.family != LITERAL:
            yield step('edge of 1', word, state_for(rng, word, SPACE - max(1, access.length()), after=0, pc=SPACE - 4))
        if not access.store:
            state = state_for(rng, word)
            state.readonly = len(state.memory)
            yield step('edge of 1', word, state)


def foreign_words(rng):
    """Words next to the set, and some of each form that is left out."""
    for family in FAMILIES:
        mask, value, _ = LAYOUTS[family]
        for bit in range(32):
            if mask >> bit & 1:
                yield (rng.getrandbits(32) & ~mask | value if bit % 2 else any_word(rng, family)) ^ 1 << bit
    yield from (0, 0xffffffff, 0x91000000, 0xd503201f, 0xd65f03c0, 0x14000000)
    # ldtr, ldxp, stxp, ldlar, stllr, casp, ldadd, swp, ldapr, ldraa, cas, stg, ldr q, stp q, ld1, ldr of a vector literal.
    yield from (0xf8400820, 0xc87f0820, 0xc8230820, 0xc8df7c20, 0x089f7c20, 0x48207c82, 0xf8200020, 0xf8208020, 0xf8bfc020,
                0xf8200420, 0xc8a07c20, 0xd9200820, 0x3dc00020, 0xad000420, 0x4c407020, 0x1c000020)
    for size, load in itertools.product(range(4), range(2)):
        yield word_of(EXCLUSIVE, size=size, o2=1, load=load, rs=rng.choice((LAST, rng.getrandbits(5))), rt2=LAST,
                      rn=0, rt=rng.getrandbits(5))


def foreign_cases(rng):
    for word in foreign_words(rng):
        if MODEL.family_of(word) is None:
            yield step('answer 2', word, state_for(rng, 0xf9400020, before=rng.randrange(3)))


def undefined_words(rng):
    for family in (*SIZED, REGISTER):
        option = {'option': rng.choice((2, 3, 6, 7)), 'scaled': rng.getrandbits(1)} if family == REGISTER else {}
        kinds = [(2, 3), (3, 3)] + [(3, 2)] * (family in (ORDERED, POST, PRE))
        for size, opc in kinds:
            yield any_word(rng, family, {'size': size, 'opc': opc, **option})
    for size, opc, option in itertools.product(range(4), range(4), (0, 1, 4, 5)):
        yield any_word(rng, REGISTER, {'size': size, 'opc': opc, 'option': option, 'scaled': rng.getrandbits(1)})
    for mode, load in itertools.product(range(4), range(2)):
        yield any_word(rng, PAIR, {'opc': 3, 'mode': mode, 'load': load})
        if load == 0 or mode == NO_ALLOCATE:
            yield any_word(rng, PAIR, {'opc': 1, 'mode': mode, 'load': load})
    yield from undefined_exclusives(rng)


def undefined_exclusives(rng):
    """An unused register that isn't 31: one of its bits, or all, are 0. Of answer 4 too, which comes later."""
    for choice in choices(EXCLUSIVE):
        unused = [name for name in ('rt2', 'rs') if name in choice]
        fields = {**{name: rng.getrandbits(5) for name in ('rt', 'rn', 'rs')}, **choice}
        for name in unused:
            yield word_of(EXCLUSIVE, **{**fields, name: rng.choice((0, LAST ^ 1 << rng.randrange(5)))})
        if 'rs' not in choice:
            yield word_of(EXCLUSIVE, **{**fields, 'rt2': 30, 'rs': fields['rt']})


def undefined_cases(rng):
    for word in undefined_words(rng):
        # Its registers lead into the window, so that it would be done by who takes it for an instruction.
        fields = fields_of(MODEL.family_of(word), word)
        near = word_of(UNSIGNED, size=3, opc=1, rn=fields['rn'], rt=fields['rt'])
        state = state_for(rng, near, before=2, after=2)
        state.readonly = 0
        if 'rm' in fields:
            state.registers[fields['rm']] = rng.randrange(2)
        yield step('answer 3', word, state)


def unpredictable_words(rng):
    for family, choice in itertools.product((POST, PRE), sized_choices()):
        same = rng.randrange(31)
        yield word_of(family, rt=same, rn=same, **any_immediate(rng, family), **choice)
    for choice in choices(PAIR):
        same, other = rng.sample(range(31), 2)
        imm = any_immediate(rng, PAIR)
        if choice['mode'] in (PAIR_POST, PAIR_PRE):
            yield word_of(PAIR, rt=same, rt2=other, rn=same, **imm, **choice)
            yield word_of(PAIR, rt=other, rt2=same, rn=same, **imm, **choice)
        if choice['load']:
            yield word_of(PAIR, rt=same, rt2=same, rn=other, **imm, **choice)
            yield word_of(PAIR, rt=LAST, rt2=LAST, rn=rng.choice((other, LAST)), **imm, **choice)
    yield from unpredictable_exclusives(rng)


def unpredictable_exclusives(rng):
    for choice in choices(EXCLUSIVE):
        if 'rs' in choice:
            continue
        same, other = rng.sample(range(31), 2)
        for rs, rt, rn in ((same, same, other), (same, other, same), (same, same, same), (LAST, LAST, other),
                           (LAST, LAST, LAST), (same, same, LAST), (same, LAST, same)):
            yield word_of(EXCLUSIVE, rs=rs, rt=rt, rn=rn, **choice)


def unpredictable_cases(rng):
    for word in unpredictable_words(rng):
        yield step('answer 4', word, state_for(rng, word))


def tainted_cases(rng):
    for family in (PAIR, *SIZED, EXCLUSIVE):
        for choice in choices(family)[::2 if family != PAIR else 1]:
            word = any_word(rng, family, choice)
            yield step('answer 5, base', word, with_taint(state_for(rng, word), access_of(word).base))
        word = any_word(rng, family, rn=LAST)
        yield step('answer 5, SP', word, with_taint(state_for(rng, word), LAST))
    for choice in choices(REGISTER)[::3] + choices(REGISTER)[1::4]:
        word = any_word(rng, REGISTER, choice, rm=rng.randrange(31))
        access = access_of(word)
        for number in rng.sample((access.base, access.index), 1 if rng.getrandbits(2) else 2):
            yield step('answer 5, base or index', word, with_taint(state_for(rng, word), number))
    for choice in choices(REGISTER)[::5]:
        # Index 31 is the zero register, and never tainted.
        word = any_word(rng, REGISTER, choice, rm=LAST, rn=rng.randrange(31))
        yield step('edge of 5', word, with_taint(state_for(rng, word), LAST))


def with_taint(state, number):
    state.taints[number] = ALL
    return state


def prefetch_cases(rng):
    """Done, whatever base, index and window are."""
    for family in (LITERAL, *WITH_PREFETCH):
        for i in range(14):
            # With an index, every option and S, tainted and not.
            index = {'option': (2, 3, 6, 7)[i // 2 % 4], 'scaled': (i + i // 8) % 2} if family == REGISTER else {}
            word = prefetch_word(rng, family, **index, **({'rt': LAST} if i == 0 else {}))
            state = state_for(rng, word, readonly=0, pc=SPACE - 4 if i == 1 else None)
            if i % 2:
                state.taints = [whole(rng.getrandbits(2) > 0) for _ in range(32)]
                for number in (access_of(word).base, access_of(word).index):
                    if number is not None:
                        state.taints[number] = ALL
            if i in (2, 3, 4):
                state.memory, state.taint = bytearray(), bytearray()
            if i in (5, 6):
                state.origin = (state.origin + (1 << 40)) % (1 << 63)
            if family == LITERAL:
                state.pc -= state.pc % 4
            yield step('prefetch', word, state)


def ordered_cases(rng):
    """The first and last places in a block of 16, and those that cross its end."""
    both = [(ORDERED, choice) for choice in choices(ORDERED)]
    both += [(EXCLUSIVE, choice) for choice in choices(EXCLUSIVE) if choice['o2'] == 1]
    for family, choice in both:
        width = 1 << choice['size']
        places = {0, 16 - width, 17 - width, 15} if width > 1 else {0, 15}
        for place in sorted(places):
            word = any_word(rng, family, choice)
            block = any_address(rng, 'small', 16) // 16 * 16
            yield step('block of 6', word, state_for(rng, word, block + place))
        if width == 1:
            continue
        # 6 comes before 7 and 8, and the end of the address space is one of a block.
        word = any_word(rng, family, choice)
        state = state_for(rng, word, block + 17 - width)
        state.origin += 4096
        yield step('6 before 7', word, state)
        state = state_for(rng, word, block + 17 - width)
        state.readonly = len(state.memory)
        yield step('6 before 8', word, state)
        yield step('6 at the end of addresses', word, state_for(rng, word, SPACE - width + 1, before=3))


# SP's alignment: 02, CR 1.

def on_stack(rng, word, sp):
    """A state with this SP as the base of an access, which lies inside the window, and two bytes about it."""
    state, access = state_for(rng, word), access_of(word)
    state.registers[LAST] = sp
    if access.index not in (None, LAST):
        state.registers[access.index] = rng.randrange(64)
    address = MODEL.address_of(state, access, fields_of(access.family, word))
    return sized(rng, state, address - 2, access.length() + 4)


def stack_word(rng, family, sp, aligned):
    """A word by SP whose offset makes the address a multiple of 16 or not; any word where none was found that does."""
    for _ in range(80):
        word = any_word(rng, family, rn=LAST)
        access = access_of(word)
        if access.index is None and ((sp + access.offset) % 16 == 0) == aligned:
            break
    return word


def stack_cases(rng):
    """SP at each place in a block of 16, in every family; tainted, outside the window and read-only; and no base."""
    for family in (PAIR, *SIZED, REGISTER, EXCLUSIVE):
        for residue in range(16):
            sp = 65536 + 16 * rng.randrange(1000) + residue
            for aligned in (True, False):
                word = stack_word(rng, family, sp, aligned)
                yield step('SP as the base', word, on_stack(rng, word, sp))
            word = stack_word(rng, family, sp, False)
            kind = residue % 3
            state = on_stack(rng, word, sp)
            if kind == 0:
                state.taints[LAST] = ALL
            elif kind == 1:
                state.origin += 4096
            else:
                state.readonly = len(state.memory)
            yield step(('SP tainted', 'SP outside the window', 'SP read-only')[kind], word, state)
    # 6 either way, with different addresses: an ordered access across a block, by an SP that isn't aligned.
    for size, residue in itertools.product(range(1, 4), (1, 4, 8, 15)):
        word = any_word(rng, ORDERED, {'size': size, 'opc': rng.randrange(2)}, rn=LAST, imm=31 - residue)
        yield step('SP and a block', word, on_stack(rng, word, 65536 + residue))
    for family in (LITERAL, *WITH_PREFETCH):
        for residue in range(1, 16, 2):
            word = prefetch_word(rng, family, **({'rn': LAST} if family != LITERAL else {}))
            state = state_for(rng, word)
            state.registers[LAST] = 65536 + residue
            yield step('SP of a prefetch', word, state)
    for residue in range(1, 16, 2):
        # Neither a literal nor another base is tested.
        for word in (any_word(rng, LITERAL), any_word(rng, UNSCALED, rn=30)):
            state = state_for(rng, word, 65536 + 4 * residue)
            state.registers[LAST] = 65536 + residue
            yield step('SP is no base', word, state)


def accesses_by_length(rng):
    """A load and a store of each length and kind that the window is tested for."""
    for size in range(4):
        for family in rng.sample((UNSCALED, POST, PRE, REGISTER, UNSIGNED), 3):
            option = {'option': rng.choice((2, 3, 6, 7)), 'scaled': 0} if family == REGISTER else {}
            for opc in range(2):
                yield any_word(rng, family, {'size': size, 'opc': opc, **option}, **distinct(rng, family))
    for choice in choices(PAIR):
        yield any_word(rng, PAIR, choice)
    for choice in choices(EXCLUSIVE):
        # Those that may be anywhere in a block; replay_exclusives.py has the others.
        if choice['o2'] == 1:
            yield any_word(rng, EXCLUSIVE, choice)
    yield any_word(rng, LITERAL)


def distinct(rng, family):
    """Registers that differ, and a base that isn't SP, so that it can be led anywhere."""
    rn = rng.randrange(31)
    others = rng.sample([number for number in range(32) if number != rn], 3)
    return {**dict(zip([name for name in registers_of(family) if name != 'rn'], others)), **({'rn': rn} if family != LITERAL else {})}


def outside_cases(rng):
    for word in accesses_by_length(rng):
        access = access_of(word)
        length, at = access.length(), 4096 + 4 * rng.randrange(1000)
        for before, after in ((rng.randrange(3), -1), (-1, rng.randrange(3))):
            if rng.getrandbits(1):
                yield step('one byte outside', word, state_for(rng, word, at, before, after, 0))
        if access.width < length:
            yield step('a pair half outside', word, state_for(rng, word, at, 2, -access.width, 0))
        # All of the access but its first or last byte, or all, lies past the end of the address space or before 0.
        past = SPACE - (4 if access.family == LITERAL else max(1, length - rng.randrange(1, length + 1)))
        if length > 1:
            for origin, size in ((0, length + 3), (SPACE - length, length)):
                state = sized(rng, state_for(rng, word, past, 0, 0, 0), origin, size)
                yield step('across the end of addresses', word, state)
        if rng.getrandbits(1):
            state = sized(rng, state_for(rng, word, SPACE - 4, 0, 0, 0), 0, length + rng.randrange(9))
            yield step('last bytes, first window', word, state)
        if rng.getrandbits(1):
            yield step('no memory', word, sized(rng, state_for(rng, word, at), at, 0))
        if rng.getrandbits(1):
            far = sized(rng, state_for(rng, word, at), rng.getrandbits(63), 4)
            yield step('far outside', word, far)


def sized(rng, state, origin, length):
    """With another window, all of it writable."""
    state.origin, state.readonly = origin, 0
    state.memory = bytearray(rng.getrandbits(8) for _ in range(length))
    state.taint = bytearray(rng.choice(TAINTS) if rng.getrandbits(2) == 0 else 0 for _ in range(length))
    return state


def read_only_cases(rng):
    """r just before, in and behind an access, for stores and for the loads beside them."""
    for word in accesses_by_length(rng):
        access = access_of(word)
        length, at = access.length(), 4096 + 4 * rng.randrange(1000)
        edges = {2, 3, 2 + access.width, 1 + length, 2 + length}
        for readonly in sorted(edges) if access.store else [2 + length]:
            state = state_for(rng, word, at, 2, rng.randrange(3), readonly)
            yield step('edge of 8', word, state)
        if access.store:
            state = state_for(rng, word, at, 2, 2)
            state.readonly = len(state.memory)
            yield step('all read-only', word, state)


def pc_cases(rng):
    """PC next to 2^64, and literals across it in both directions."""
    for word in some_words(rng):
        if access_of(word).family != LITERAL:
            yield step('last PC', word, state_for(rng, word, pc=SPACE - 4))
            yield step('PC near the end', word, state_for(rng, word, pc=SPACE - 4 * rng.randrange(2, 9)))
    for opc, imm in itertools.product(range(4), (2, 3, 100, -1, -2, -100, (1 << 18) - 1, -(1 << 18))):
        word = any_word(rng, LITERAL, {'opc': opc}, imm=imm)
        pc = SPACE - 4 if imm > 0 else rng.randrange(0, 2) * 4
        address = (pc + imm * 4) % SPACE
        yield step('literal across the end', word, state_for(rng, word, address))
    for opc in range(3):
        word = any_word(rng, LITERAL, {'opc': opc}, imm=-1)
        yield step('literal at the top', word, state_for(rng, word, SPACE - 8, after=0))


def trace_cases(rng):
    """Traces and lists of statuses that are too short, just long enough, and longer; odd ones too."""
    for room, places in ((0, 1), (1, 1), (2, 0), (5, 0), (1, 0)):
        for word in some_words(rng):
            yield step('answer 10', word, state_for(rng, word), room, places)
        for word in (0x91000000, 0xb8c00020, 0xa9400020):
            yield step('answer 10 before 2, 3 and 4', word, state_for(rng, 0x385ff020), room, places)
    for room in (3, 4, 5, 7):
        for word in rng.sample(list(some_words(rng)), 4):
            yield step('longer trace', word, state_for(rng, word), room, room % 3 + 1)
        word = any_word(rng, PAIR)
        yield step('longer trace', word, sized(rng, state_for(rng, word), 0, 3), room, room % 3 + 1)


# Several flaws at once.

def flaws_of(case):
    """The answers that a step could get for each of its flaws alone."""
    state, word = case.state, case.words[0]
    flaws = [1] if MODEL.is_bad_window(state) else []
    family = MODEL.family_of(word)
    access = access_of(word)
    if access is None:
        flaws.append(2 if family is None else 3)
    elif not access.prefetch:
        address = MODEL.address_of(state, access, fields_of(family, word))
        tests = ((4, MODEL.is_unpredictable), (5, MODEL.is_tainted), (6, MODEL.is_stack_misaligned),
                 (6, MODEL.is_misaligned), (7, MODEL.is_outside))
        flaws += [answer for answer, test in tests if test(state, access, address)]
        first = max(address, state.origin)
        if access.store and first < min(address + access.length(), state.origin + state.readonly):
            flaws.append(8)
    return flaws + [10] * MODEL.is_short(case.words, case.room, case.places)


def flawed_word(rng, flaws):
    """An allocated word that can have these flaws among 4 and 6."""
    if 4 in flaws:
        return rng.choice(list(unpredictable_exclusives(rng) if 6 in flaws else unpredictable_words(rng)))
    if 6 in flaws:
        # Stores.
        size = rng.randrange(1, 4)
        choice = exclusive_choice(size, *rng.choice(EXCLUSIVES[:2] + EXCLUSIVES[4:5]))
        return rng.choice((any_word(rng, ORDERED, {'size': size, 'opc': 0}), any_word(rng, EXCLUSIVE, choice)))
    return any_word(rng, rng.choice((PAIR, UNSCALED, POST, PRE, REGISTER, UNSIGNED, EXCLUSIVE)))


def flawed_case(rng, flaws):
    word = flawed_word(rng, flaws)
    access = access_of(word)
    at = 4096 + 16 * rng.randrange(300) + (17 - access.length() if 6 in flaws else 0)
    inside = 7 not in flaws
    state = state_for(rng, word, at, 2 if inside else rng.choice((-1, 2)), 2 if inside else -1, 0)
    if 8 in flaws:
        state.readonly = len(state.memory)
    if 5 in flaws:
        state.taints[access.base if access.index in (None, LAST) else rng.choice((access.base, access.index))] = ALL
    if 2 in flaws or 3 in flaws:
        word = 0x91000000 if 2 in flaws else 0xb8c00020 | rng.getrandbits(10)
    if 1 in flaws:
        spoiled(state, rng.choice(bad_windows()))
    room, places = rng.choice(((0, 1), (1, 1), (2, 0), (0, 0))) if 10 in flaws else (2, 1)
    return step('several flaws', word, state, room, places)


def flawed_cases(rng, each=3):
    """For each two answers that one step may fail both of, so many cases, and more with three or four."""
    for pair in itertools.combinations((1, 2, 3, 4, 5, 6, 7, 8, 10), 2):
        # A word that isn't allocated has no access.
        if pair == (2, 3) or set(pair) & {2, 3} and not set(pair) & {1, 10}:
            continue
        made = 0
        while made < each:
            case = flawed_case(rng, set(pair))
            if set(pair) <= set(flaws_of(case)):
                made += 1
                yield case
    for _ in range(30):
        yield flawed_case(rng, set(rng.sample((1, 4, 5, 6, 7, 8, 10), rng.randrange(2, 5))))


def random_cases(rng):
    """Any word of the set on a state that isn't made for it."""
    for _ in range(40):
        mask, value, _ = LAYOUTS[rng.choice(FAMILIES)]
        word = rng.getrandbits(32) & ~mask | value
        state = state_for(rng, 0xf9400020, before=rng.randrange(8), after=rng.randrange(8))
        for number in rng.sample(range(32), 20):
            state.registers[number] = (state.origin + rng.randrange(-2, 10)) % SPACE
        yield step('any word and state', word, state)


def with_longer_lists(cases):
    """Every third list of statuses that is just long enough gets a few places more."""
    return [case._replace(places=case.places + 1 + i % 4)
            if i % 3 == 0 and case.places == len(case.words) <= MOST_STATUSES - 4 else case
            for i, case in enumerate(cases)]


def all_steps(rng):
    cases = list(example_cases())
    for group in (done_cases, bad_window_cases, foreign_cases, undefined_cases, unpredictable_cases, tainted_cases,
                  prefetch_cases, ordered_cases, stack_cases, outside_cases, read_only_cases, pc_cases, trace_cases,
                  flawed_cases, random_cases):
        cases += group(rng)
    return cases
