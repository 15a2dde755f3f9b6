"""Words of 02's ninth family, and words in its place that are not of it, for the corpora of words."""
import itertools

from aarch64_rules import RS, RT2, fixed_bits, packed
from aarch64_text import EXCLUSIVE, EXCLUSIVES, Record, has_status

# ldapr, an atomic addition, a swap, and 64-byte forms, beside those that share the family's fixed bits.
ELSEWHERE = (0x38bfc000, 0xf8200000, 0xf8208000, 0xf83f9000, 0xf83fd000)
# One bit or all of a field of ones are 0.
NOT_ALL_ONES = (0, 15, 23, 27, 29, 30)


def operations():
    return [size * 8 + code for size in range(4) for code in EXCLUSIVES]


def any_record(rng, operation, **fixed):
    fields = {name: rng.getrandbits(5) for name in register_names(operation)}
    return Record(EXCLUSIVE, operation, **{**fields, **fixed})


def register_names(operation):
    return ('target', 'base', 'second') if has_status(operation) else ('target', 'base')


def allocated_records(rng, rounds):
    """For each operation registers at their edges, each two equal, and every number in each place so many times."""
    for operation in operations():
        names = register_names(operation)
        for numbers in itertools.product((0, 30, 31), repeat=len(names)):
            yield Record(EXCLUSIVE, operation, **dict(zip(names, numbers)))
        for pair in itertools.combinations(names, 2):
            same = rng.getrandbits(5)
            yield any_record(rng, operation, **{name: same for name in pair})
        for _, name, number in itertools.product(range(rounds), names, range(32)):
            yield any_record(rng, operation, **{name: number})


def undefined_words(rng):
    """Unused fields of registers that are not all ones, each alone and both, answer 4 or not."""
    for operation in operations():
        places = (RT2,) if has_status(operation) else (RT2, RS)
        for (_, low), bits in itertools.product(places, NOT_ALL_ONES):
            yield packed(any_record(rng, operation)) & ~(31 << low) | bits << low
        unused = sum(31 << low for _, low in places)
        for _ in range(4):
            yield packed(any_record(rng, operation)) & ~unused | rng.getrandbits(25) & unused
        if has_status(operation):
            yield packed(any_record(rng, operation, target=7, second=7)) & ~(1 << RT2[1])


def other_words(rng, each):
    """ldlar and stllr, those with bit 21 set (pairs and compare-and-swap), and one fixed bit otherwise."""
    for size, load in itertools.product(range(4), range(2)):
        head = fixed_bits(EXCLUSIVE) | size << 30 | 1 << 23 | load << 22
        yield head | 0x1f7c00 | rng.getrandbits(10)
        for _ in range(each):
            yield head | rng.getrandbits(21) & ~(1 << 15)
    for size, kind, _ in itertools.product(range(4), range(4), range(each)):
        yield fixed_bits(EXCLUSIVE) | size << 30 | kind << 22 | 1 << 21 | rng.getrandbits(21)
        yield fixed_bits(EXCLUSIVE) | size << 30 | kind << 22 | 1 << 21 | 31 << RT2[1] | rng.getrandbits(21)
    for bit, _ in itertools.product(range(24, 30), range(each)):
        yield packed(any_record(rng, rng.choice(operations()))) ^ 1 << bit
    for head, _ in itertools.product(ELSEWHERE, range(each)):
        yield head | rng.getrandbits(10)


def exclusive_words(rng, rounds, each):
    words = [packed(record) for record in allocated_records(rng, rounds)]
    return words + list(undefined_words(rng)) + list(other_words(rng, each))
