"""Plays two and two, for the program `plays`: 02's isolation, and demand 3 for each plugin.

A twin has another plugin in the place of the other one: other words, registers of both kinds, taints, program counter, monitor,
room, and private bytes with their taints. All that this plugin shows has to be the same. In a twin of demand 3 this plugin's
own tainted bytes are others too, those of the shared range included, and what 01 compares has to be the same after each turn.
"""
from machine_model import marks_of
from replay_pairs import blended, blended_registers
from turns_model import shown
from turns_plays import EMPTY, FAIR, LAYOUTS, any_order, any_scene

# In the last two ranges overlap: each turn is refused, and "the other's private bytes" are those neither shared nor own.
STAGES = LAYOUTS + LAYOUTS + EMPTY[:10] + (FAIR._replace(second=(39, 16)), FAIR._replace(first=(23, 16)))


def places(play, one):
    """Where a range stands in memory."""
    return range(max(one.address - play.origin, 0), min(one.end() - play.origin, len(play.memory)))


def visible(play, who):
    """Places of memory that a plugin may read."""
    return {at for one in (play.shared, play.private[who]) for at in places(play, one)}


def with_other(play, who, stranger):
    """The same play with the stranger's plugin in the place of the other one, and its private bytes."""
    memory, taint = bytearray(play.memory), bytearray(play.taint)
    for at in set(places(play, play.private[1 - who])) - visible(play, who):
        memory[at], taint[at] = stranger.memory[at], stranger.taint[at]
    plugins = tuple((play if one == who else stranger).plugins[one] for one in range(2))
    turns = tuple(own if own.who == who else other for own, other in zip(play.turns, stranger.turns))
    return play._replace(memory=bytes(memory), taint=bytes(taint), plugins=plugins, turns=turns)


def with_secrets(rng, play, who):
    """The same play with other tainted bytes where this plugin may read, and in its registers."""
    plugin = play.plugins[who]
    registers, vectors = ([rng.getrandbits(bits) for _ in range(32)] for bits in (64, 128))
    plugin = plugin._replace(
        registers=tuple(blended_registers(plugin.taints, plugin.registers, registers)),
        vectors=tuple(blended_registers(plugin.vector_taints, plugin.vectors, vectors)))
    mine = visible(play, who)
    memory = bytes(rng.getrandbits(8) if at in mine and play.taint[at] else byte for at, byte in enumerate(play.memory))
    return play._replace(memory=memory, plugins=tuple(plugin if one == who else play.plugins[one] for one in range(2)))


def clear(taints, values):
    """What is not tainted of registers; the rest as 0."""
    return blended_registers([marks_of(taint) for taint in taints], values, [0] * 32)


def seen(play, who, outcomes):
    """What 01 compares at the end, after each turn of a plugin: over what it may read."""
    mine = sorted(visible(play, who))
    for turn, outcome in zip(play.turns, outcomes):
        if turn.who == who:
            state, done = outcome.state, outcome.steps
            memory = blended(state.taint, state.memory, bytes(len(state.memory)))
            yield (done, outcome.answer, outcome.code, outcome.address, state.pc, state.monitor,
                   [marks_of(taint) for taint in state.taints + state.vector_taints], clear(state.taints, state.registers),
                   clear(state.vector_taints, state.vectors), outcome.trace[:2 * done], outcome.statuses[:done],
                   [(memory[at], state.taint[at]) for at in mine])


def keeps_isolation(model, play, twin, who):
    return shown(play, who, model.play(play)) == shown(twin, who, model.play(twin))


def keeps_secrets(model, play, twin, who):
    return [*seen(play, who, model.play(play))] == [*seen(twin, who, model.play(twin))]


def all_twins(rng, count, group, secret):
    """A play, its twin, and the plugin that has to be the same in both."""
    for number in range(count):
        who, layout = number % 2, rng.choice(STAGES)
        order = any_order(rng) + [who]
        play, stranger = (any_scene(rng, group, layout, order[-6:]).play() for _ in range(2))
        twin = with_other(play, who, stranger)
        yield play, with_secrets(rng, twin, who) if secret else twin, who
