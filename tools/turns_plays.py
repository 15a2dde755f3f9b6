"""The plays of the program `plays`: ranges of every kind, accesses across every edge of them, plays by hand, and random ones."""
import itertools

from machine_model import SPACE, UNSCALED
from replay_states import any_monitor, some_bytes
from turns_scenes import MODEL, Layout, Scene

SHARED, FIRST, SECOND = WHICH = range(3)
LENGTHS = 1, 2, 4, 8, 16, 32
TOP = SPACE - 64

# A window of 64 bytes and the ranges in it: shared, the first plugin's and the second's. They touch, they leave bytes between
# them, and they stand at both ends of the window, and of the address space.
LAYOUTS = (
    Layout(4096, 64, (0, 20), (20, 24), (44, 20)),
    Layout(4096, 64, (22, 18), (0, 22), (40, 24)),
    Layout(4096, 64, (41, 23), (21, 20), (0, 21)),
    Layout(4096, 64, (25, 17), (4, 19), (43, 20)),
    Layout(0, 64, (0, 17), (34, 30), (17, 17)),
    Layout(0, 64, (30, 34), (0, 28), (28, 2)),
    Layout(TOP, 64, (1, 20), (31, 33), (22, 9)),
    Layout(TOP, 64, (40, 24), (0, 20), (20, 18)),
    Layout(TOP, 64, (20, 20), (0, 20), (40, 24)),
    Layout(4100, 40, (13, 1), (0, 13), (14, 26)),
)
# Empty ranges: where the window ends, where it begins, inside another range, between others, and all three.
EMPTY = (
    Layout(4096, 64, (64, 0), (0, 32), (32, 32)),
    Layout(4096, 64, (0, 0), (0, 32), (32, 32)),
    Layout(4096, 64, (16, 0), (0, 32), (32, 32)),
    Layout(4096, 64, (0, 32), (64, 0), (32, 32)),
    Layout(4096, 64, (0, 32), (16, 0), (32, 32)),
    Layout(4096, 64, (0, 32), (48, 0), (32, 32)),
    Layout(4096, 64, (0, 32), (32, 32), (64, 0)),
    Layout(4096, 64, (0, 32), (32, 32), (40, 0)),
    Layout(4096, 64, (0, 64), (5, 0), (64, 0)),
    Layout(4096, 64, (64, 0), (0, 64), (0, 0)),
    Layout(4096, 64, (0, 0), (32, 0), (64, 0)),
    Layout(4096, 64, (32, 0), (32, 0), (32, 0)),
    Layout(4096, 0, (0, 0), (0, 0), (0, 0)),
    Layout(0, 0, (0, 0), (0, 0), (0, 0)),
    Layout(SPACE - 1, 1, (0, 1), (0, 0), (0, 0)),
    Layout(SPACE - 1, 1, (0, 0), (0, 1), (0, 0)),
)
FAIR = Layout(4096, 64, (8, 16), (24, 16), (40, 16))


def with_range(layout, which, at, length):
    return layout._replace(**{layout._fields[2 + which]: (at, length)})


def shared_bytes():
    """Layouts in which two ranges share a byte: one, at each side, more, or all."""
    for one, other in itertools.permutations(WHICH, 2):
        third = 3 - one - other
        apart = with_range(with_range(with_range(FAIR, third, 48, 16), one, 8, 17), other, 24, 16)
        yield apart
        yield with_range(with_range(apart, one, 8, 32), other, 20, 1)
    for one, other in itertools.combinations(WHICH, 2):
        yield with_range(FAIR, other, *FAIR[2 + one])
    # At the ends of the address space.
    yield Layout(0, 64, (63, 1), (62, 2), (0, 8))
    yield Layout(TOP, 64, (63, 1), (40, 8), (62, 2))


def outside():
    """Layouts in which one range isn't inside the window: by a byte, empty, and by numbers that pass 2^64."""
    for which in WHICH:
        for at, length in ((49, 16), (-1, 9), (-1, 0), (65, 0), (64, 1), (200, 0), (200, 4), (-4096, 0), (SPACE - 4097, 1)):
            others = [one for one in WHICH if one != which]
            yield with_range(with_range(with_range(FAIR, others[0], 10, 8), others[1], 20, 8), which, at, length)
        # The sum is, modulo 2^64, inside the window; none of the others is touched by that.
        yield with_range(with_range(FAIR, which, 56, SPACE - 40), (which + 1) % 3, 8, 8)
        yield with_range(with_range(FAIR._replace(origin=0), which, -8, 8), (which + 1) % 3, 8, 8)
        yield with_range(FAIR._replace(origin=0), which, -8, 16)
        yield with_range(with_range(FAIR._replace(origin=TOP), which, 50, 14), (which + 1) % 3, 63, 1)
        yield with_range(FAIR._replace(origin=TOP), which, 60, 8)
        yield with_range(FAIR._replace(origin=TOP), which, 64, 0)


def refused_ranges(rng, group, layouts):
    """Each plugin is refused in each of its turns: also without room, and by words of any kind."""
    for layout in layouts:
        scene = Scene(rng, group, layout)
        for who in (0, 1, 0)[:rng.randrange(2, 4)]:
            which = rng.choice((SHARED, FIRST + who))
            one = scene.range(which)
            address = one.address + rng.randrange(max(1, min(one.length, 16)))
            words = [scene.word(who, [], which != SHARED and rng.randrange(2), 1, address % SPACE, UNSCALED)]
            room = rng.choice((None, None, 1))
            scene.turn(who, words + [rng.getrandbits(32)] * rng.randrange(2), room)
        yield scene.play()


def bad_windows(rng):
    """A window above 2^64, taint of another length, and the program counter of one plugin."""
    for layout in (Layout(SPACE - 32, 64, (0, 8), (8, 8), (16, 8)), Layout(SPACE - 1, 2, (0, 0), (0, 0), (0, 0)),
                   Layout(SPACE - 16, 17, (0, 8), (8, 8), (0, 0))):
        yield from refused_ranges(rng, 'window', [layout])
    for more in (-1, 1):
        play = next(refused_ranges(rng, 'window', [FAIR]))
        yield play._replace(taint=(play.taint + b'\0')[:len(play.memory) + more])
    for who, odd in itertools.product(range(2), (1, 2, 3)):
        scene = Scene(rng, 'window', FAIR)
        scene.plugins[who]['pc'] += odd
        for taker in (0, 1, who):
            scene.access(taker, (1, 1, scene.range(FIRST + taker).address), family=UNSCALED)
        yield scene.play()


def edges_of(scene):
    ranges = [scene.range(which) for which in WHICH]
    every = {edge for one in ranges for edge in (one.address, one.end())}
    return sorted(every | {scene.layout.origin, scene.layout.origin + scene.layout.length})


def accesses_at_edges(scene, who):
    """Whether it stores, bytes and address, across, before and behind each edge. Few are outside the window."""
    for number, (edge, length, store) in enumerate(itertools.product(edges_of(scene), LENGTHS, range(2))):
        for address in sorted({edge - length, edge - length + 1, edge - length // 2, edge - 1, edge}):
            inside = scene.layout.origin <= address and address + length <= scene.layout.origin + scene.layout.length
            if inside or (number + who) % 4 == 0:
                yield store, length, address % SPACE


def edge_plays(rng, group, layout, one_in):
    """Accesses across every edge, one in so many, in turns that end at a refusal."""
    for who in range(2):
        left = [access for access in accesses_at_edges(Scene(rng, group, layout), who) if rng.randrange(one_in) == 0]
        rng.shuffle(left)
        while left:
            scene = Scene(rng, group, layout)
            while left and len(scene.turns) < 6:
                # The other plugin has a turn now and then.
                taker = who if rng.randrange(6) else 1 - who
                add_turn(scene, taker, left, 4)
            yield scene.play()


def add_turn(scene, who, left, most):
    """A turn of accesses up to the first that is refused."""
    words = []
    while left and len(words) < most:
        words.append(scene.word(who, words, *left.pop()))
        scene.turn(who, words)
        answer = MODEL.play(scene.play())[-1].answer
        if answer or len(words) == most or not left:
            return
        scene.turns.pop()


def any_place(rng, scene, who):
    """Mostly where the plugin may be."""
    kind = rng.randrange(10)
    which = FIRST + who if kind < 5 else SHARED if kind < 8 else FIRST + 1 - who
    one = scene.range(which)
    store = which != SHARED and rng.randrange(2) or rng.randrange(8) == 0
    length = rng.choice([length for length in LENGTHS if length <= one.length] or LENGTHS)
    if one.length < length or rng.randrange(8) == 0:
        return store, length, (rng.choice(edges_of(scene)) - rng.randrange(length + 1)) % SPACE
    return store, length, one.address + rng.randrange(one.length - length + 1)


def any_word(rng, scene, who, words):
    kind = rng.randrange(20)
    if kind == 0:
        return scene.prefetch(who, rng.choice([*edges_of(scene), rng.getrandbits(64)]) % SPACE)
    if kind == 1:
        return rng.choice((0xd503201f, 0xb8c00020, 0xa9400020, 0x38400421, rng.getrandbits(32)))
    return scene.word(who, words, *any_place(rng, scene, who))


def any_scene(rng, group, layout, order):
    scene = Scene(rng, group, layout)
    for who in range(2):
        own = scene.range(FIRST + who)
        if rng.randrange(3) == 0:
            scene.plugins[who]['monitor'] = any_monitor(rng, own.address // 8 * 8 + 8, rng.choice((1, 2, 4, 8)))
        if rng.randrange(4) == 0:
            # A base of which a byte is tainted: answer 5 comes before the tests of ranges.
            base = scene.base(who, rng.choice(edges_of(scene)))
            if base is not None:
                scene.plugins[who]['taints'][base] = some_bytes(rng)
    for who in order:
        words = []
        for _ in range(rng.choice((0, 1, 2, 3, 3, 4))):
            words.append(any_word(rng, scene, who, words))
        short = rng.randrange(16) == 0 and words
        scene.turn(who, words, *((2 * len(words) - 1, None) if short else ()))
    return scene


def any_order(rng):
    return [rng.randrange(2) for _ in range(rng.randrange(1, 7))]


def random_plays(rng, group, count):
    for _ in range(count):
        yield any_scene(rng, group, rng.choice(LAYOUTS + LAYOUTS + EMPTY[:10]), any_order(rng)).play()
