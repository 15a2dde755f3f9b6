"""Plays in the making, for the program `plays`: ranges in a window, and words that lead to a place in it."""
from typing import NamedTuple

from machine_model import (
    EXCLUSIVE, FAMILIES, LAST, LITERAL, NONE, OPEN, PAIR, PAIR_POST, PAIR_PRE, POST, PRE, REGISTER, SPACE, UNSCALED, UNSIGNED,
    VECTOR_NONE, signed, word_of)
from replay_states import (
    WITH_VECTORS, access_of, choices, prefetch_word, some_bytes, some_vector_bytes, vector_choices)
from turns_model import Play, Plugin, Range, Turn, TurnModel

MODEL = TurnModel()
# Registers that are loaded and stored, X0 to X5 and the zero register; V0, V1 and V31. Those from X8 on are bases and indexes.
TARGETS, VECTOR_TARGETS = (0, 1, 2, 3, 4, 5, LAST), (0, 1, 31)
FIRST_BASE, ANCHOR = 8, 30


class Layout(NamedTuple):
    """A window and the three ranges in it, their addresses counted from its origin."""
    origin: int
    length: int
    shared: tuple
    first: tuple
    second: tuple

    def range(self, which):
        at, length = self[2 + which]
        return Range((self.origin + at) % SPACE, length)


def forms():
    """Each family, of general or of vector registers, with its choices, by whether it stores and its bytes."""
    found = {}
    kinds = [(family, 0, choices(family)) for family in FAMILIES] + [
        (family, 1, vector_choices(family)) for family in WITH_VECTORS]
    for family, vector, every in kinds:
        for choice in every:
            access = access_of(word_of(family, **choice))
            found.setdefault((access.store, access.length()), {}).setdefault((family, vector), []).append(choice)
    return found


FORMS = forms()


class Scene:
    """Two plugins, and the turns that they have taken so far. Bases are given values as words need them."""

    def __init__(self, rng, group, layout):
        self.rng, self.group, self.layout = rng, group, layout
        self.plugins = [self.any_plugin() for _ in range(2)]
        self.memory = bytearray(rng.getrandbits(8) for _ in range(layout.length))
        self.taint = bytearray(rng.choice((1, 2, 128, 255)) if rng.randrange(4) == 0 else 0 for _ in range(layout.length))
        self.turns = []

    def any_plugin(self):
        rng, plugin = self.rng, {'registers': [0] * 32, 'taints': [NONE] * 32, 'vectors': [0] * 32}
        plugin['vector_taints'] = [VECTOR_NONE] * 32
        plugin['pc'], plugin['monitor'] = self.layout.origin // 4 * 4 + 4 * rng.randrange(-4, 20), OPEN
        plugin['pc'] %= SPACE
        for number in rng.sample(TARGETS[:-1], 3):
            plugin['registers'][number] = rng.getrandbits(64)
            plugin['taints'][number] = rng.choice((NONE, some_bytes(rng)))
        number = rng.choice(VECTOR_TARGETS)
        plugin['vectors'][number] = rng.getrandbits(128)
        plugin['vector_taints'][number] = rng.choice((VECTOR_NONE, some_vector_bytes(rng)))
        middle = (self.layout.origin + self.layout.length // 2) % SPACE
        plugin['registers'][ANCHOR] = middle
        if rng.randrange(3) == 0:
            # A stack pointer that isn't a multiple of 16 is refused with 6.
            plugin['registers'][LAST] = middle // 16 * 16 + (8 if rng.randrange(4) == 0 else 0)
        return plugin

    def range(self, which):
        return self.layout.range(which)

    def base(self, who, value, fresh=False):
        """A register that holds this, which no word sets; None if there is none left."""
        registers, value = self.plugins[who]['registers'], value % SPACE
        kept = [number for number in range(FIRST_BASE, ANCHOR + 1) if registers[number] == value and value != 0]
        if kept and not fresh and not any(number in self.moved(who) for number in kept):
            return kept[0]
        free = [number for number in range(FIRST_BASE, ANCHOR) if registers[number] == 0 and number not in self.moved(who)]
        if not free:
            return None
        registers[free[0]] = value
        if fresh or value == 0:
            self.moved(who).add(free[0])
        return free[0]

    def moved(self, who):
        """Bases that a word has for itself, since it writes them back or since they hold 0."""
        return self.plugins[who].setdefault('moved', set())

    def pc(self, who, words):
        """Where a word behind these of the next turn stands."""
        before = [outcome.state.pc for turn, outcome in zip(self.turns, MODEL.play(self.play())) if turn.who == who]
        return ((before or [self.plugins[who]['pc']])[-1] + 4 * len(words)) % SPACE

    def word(self, who, words, store, length, address, family=None, vector=None, choice=None):
        """A word of an access of so many bytes at an address, behind these words of the next turn."""
        forms_of = FORMS[bool(store), length]
        kinds = [kind for kind in forms_of if family in (None, kind[0]) and vector in (None, kind[1])]
        for _ in range(12):
            kind = self.rng.choice(kinds)
            fields = self.fields(who, words, address, kind, choice or self.rng.choice(forms_of[kind]))
            if fields is not None:
                return word_of(kind[0], **fields)
        assert family is None, (family, length, address)
        return self.word(who, words, store, length, address, *((PAIR, 1) if length == 32 else (UNSCALED, int(length == 16))))

    def fields(self, who, words, address, kind, choice):
        """The fields of a word; None if it can't lead there."""
        family, vector = kind
        rt, rt2 = self.rng.sample(VECTOR_TARGETS if vector else TARGETS, 2)
        fields = {**choice, 'rt': rt}
        width = access_of(word_of(family, **choice)).width
        if family == LITERAL:
            offset = signed((address - self.pc(who, words)) % SPACE, 64)
            return {**fields, 'imm': offset // 4} if offset % 4 == 0 and abs(offset) < 1 << 20 else None
        if family == PAIR:
            fields['rt2'] = rt2
        if family == EXCLUSIVE and choice.get('rs') is None:
            fields['rs'] = self.rng.choice([n for n in TARGETS if n != rt])
        placed = self.placed(who, address, family, width, fields)
        return None if placed is None or placed['rn'] is None else placed

    def placed(self, who, address, family, width, fields):
        """With the base, and the offset or the index."""
        rng, anchor = self.rng, self.plugins[who]['registers'][ANCHOR]
        far = signed((address - anchor) % SPACE, 64)
        if family == EXCLUSIVE:
            return {**fields, 'rn': self.base(who, address)}
        if family == PAIR:
            imm, moving = rng.randrange(-2, 3), fields['mode'] in (PAIR_POST, PAIR_PRE)
            start = address if fields['mode'] == PAIR_POST else address - imm * width
            return {**fields, 'imm': imm, 'rn': self.base(who, start, fresh=moving)}
        if family in (POST, PRE):
            imm = rng.randrange(-256, 256)
            return {**fields, 'imm': imm, 'rn': self.base(who, address - (imm if family == PRE else 0), fresh=True)}
        if family == REGISTER:
            return self.indexed(who, address, width, fields, far)
        if family == UNSIGNED:
            imm = rng.choice((0, 1, 2, 4095))
            if far >= 0 and far % width == 0 and rng.getrandbits(1):
                return {**fields, 'imm': far // width, 'rn': ANCHOR}
            return {**fields, 'imm': imm, 'rn': self.base(who, address - imm * width)}
        stack = self.plugins[who]['registers'][LAST]
        number = LAST if stack and rng.randrange(3) == 0 else ANCHOR
        far = signed((address - self.plugins[who]['registers'][number]) % SPACE, 64)
        if abs(far) < 256:
            return {**fields, 'imm': far, 'rn': number}
        return {**fields, 'imm': 0, 'rn': self.base(who, address)}

    def indexed(self, who, address, width, fields, far):
        by = width if fields['scaled'] else 1
        if far % by or fields['option'] == 0b010 and far < 0:
            return None
        index = self.base(who, far // by % (1 << (32 if fields['option'] in (0b010, 0b110) else 64)))
        return None if index is None else {**fields, 'rm': index, 'rn': ANCHOR}

    def prefetch(self, who, address):
        """By a base at an address."""
        base = self.base(who, address)
        return prefetch_word(self.rng, UNSCALED, rn=ANCHOR if base is None else base, imm=0)

    def turn(self, who, words, room=None, places=None):
        words = tuple(words)
        more = self.rng.randrange(2)
        self.turns.append(Turn(who, words, 2 * len(words) + more if room is None else room,
                               len(words) + more if places is None else places))

    def access(self, who, *accesses, **how):
        """A turn of accesses, each given as whether it stores, its bytes and its address."""
        words = []
        for one in accesses:
            words.append(self.word(who, words, *one, **how))
        self.turn(who, words)

    def play(self):
        names = Plugin._fields
        plugins = tuple(Plugin(**{name: tuple(plugin[name]) if name != 'pc' else plugin[name] for name in names})
                        for plugin in self.plugins)
        return Play(self.group, self.layout.origin, bytes(self.memory), bytes(self.taint), self.range(0),
                    (self.range(1), self.range(2)), plugins, tuple(self.turns))
