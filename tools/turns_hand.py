"""Plays by hand, for the program `plays`: one for each sentence of CR 11 and of its readings."""
from machine_model import ALL, EXCLUSIVE, LITERAL, ORDERED, PAIR, SPACE, UNSCALED, VECTOR_ALL, word_of
from turns_plays import FAIR, FIRST, LAYOUTS, SECOND, SHARED
from turns_scenes import ANCHOR, Layout, Scene

LOAD, STORE = 0, 1
# Bits 23, 22 and 15: stxr, ldxr.
STORE_EXCLUSIVE, LOAD_EXCLUSIVE = (dict(o2=0, load=load, o0=0, rt2=31) for load in (0, 1))
SIDES = Layout(4096, 64, (16, 16), (0, 16), (32, 32))
# The second plugin's range stands before the shared one here.
TURNED = Layout(4096, 64, (16, 16), (32, 32), (0, 16))


def exclusive(scene, who, address, store, size=3, rt=1, rs=2):
    choice = {**STORE_EXCLUSIVE, 'rs': rs} if store else {**LOAD_EXCLUSIVE, 'rs': 31}
    return word_of(EXCLUSIVE, **choice, size=size, rt=rt, rn=scene.base(who, address))


def order_of_refusals(rng):
    """7 before 8 before 12, 6 before both, and 1 before 10."""
    for layout in (LAYOUTS[2], LAYOUTS[7], Layout(4096, 64, (40, 24), (0, 20), (20, 20))):
        scene = Scene(rng, 'order', layout)
        end = layout.origin + layout.length
        for who in range(2):
            # Past the window's end, which is the shared range's, and just before it.
            scene.access(who, (STORE, 8, (end - 4) % SPACE), family=UNSCALED)
            scene.access(who, (STORE, 8, end - 8), family=UNSCALED)
            scene.access(who, (LOAD, 8, end - 8), (LOAD, 16, (end - 15) % SPACE), vector=1)
        yield scene.play()
    for layout in (SIDES, TURNED):
        for before in (1, 7, 15):
            scene = Scene(rng, 'order', layout)
            for who in range(2):
                # From the range before the shared one into it, and from it into the one behind.
                scene.access(who, (STORE, 16, 4112 - before), vector=1)
                scene.access(who, (STORE, 16, 4128 - before), vector=1)
                scene.access(who, (STORE, 32, 4112 - before), vector=1)
            yield scene.play()
    # A shared byte in the middle of a store of 32 bytes.
    scene = Scene(rng, 'order', LAYOUTS[9])
    for who in range(2):
        scene.access(who, (STORE, 32, 4100), vector=1)
        scene.access(who, (STORE, 16, 4106), family=PAIR)
        scene.access(who, (LOAD, 16, 4106), family=PAIR)
    yield scene.play()


def loads_across(rng):
    """A load across shared and own is 12, wherever its bytes part; across shared and the other's too."""
    for layout in (SIDES, TURNED):
        for length in (2, 4, 8, 16, 32):
            scene = Scene(rng, 'load across', layout)
            for who in range(2):
                for edge in (4112, 4128):
                    scene.access(who, (LOAD, length, edge - 1 - rng.randrange(length - 1)))
            yield scene.play()


def earlier_answers(rng):
    """2 to 6 of accesses that aren't allowed either."""
    for who in range(2):
        scene = Scene(rng, 'earlier', FAIR)
        other = scene.range(SECOND - who)
        base = scene.base(who, other.address)
        scene.plugins[who]['taints'][base] = bytes((0, 0, 1, 0, 0, 0, 0, 0))
        scene.turn(who, [word_of(UNSCALED, size=3, opc=1, rn=base, rt=1)])
        scene.turn(who, [word_of(UNSCALED, size=3, opc=3, rn=ANCHOR, rt=1), 0xd503201f])
        scene.turn(who, [word_of(PAIR, opc=2, load=1, mode=1, rn=ANCHOR, rt=1, rt2=1)])
        scene.access(who, (LOAD, 8, other.address // 16 * 16 + 12), family=ORDERED)
        scene.turn(who, [exclusive(scene, who, other.address + 1, store) for store in (0, 1)])
        scene.turn(who, [0xd503201f])
        yield scene.play()


def own_monitors(rng):
    """A plugin's monitor is its own: the other's exclusives, stores and refusals neither open nor arm it."""
    for layout in (SIDES, FAIR, LAYOUTS[3]):
        for size in (0, 2, 3):
            scene = Scene(rng, 'monitor', layout)
            at = [(scene.range(FIRST + who).address + 7) // 8 * 8 for who in range(2)]
            scene.turn(0, [exclusive(scene, 0, at[0], LOAD, size)])
            scene.turn(1, [exclusive(scene, 1, at[1], STORE, size), exclusive(scene, 1, at[1], LOAD, size)])
            scene.turn(0, [exclusive(scene, 0, at[0], STORE, size), exclusive(scene, 0, at[0], STORE, size)])
            scene.access(0, (STORE, 4, at[0]), family=UNSCALED)
            scene.turn(1, [exclusive(scene, 1, at[1], STORE, size), exclusive(scene, 1, at[0], STORE, size)])
            yield scene.play()
    # Both are armed at a shared address: a store-exclusive there is 8, and leaves the monitor armed.
    for who in range(2):
        scene = Scene(rng, 'monitor', SIDES)
        for one in (who, 1 - who):
            scene.turn(one, [exclusive(scene, one, 4112, LOAD)])
        scene.turn(who, [exclusive(scene, who, 4112, STORE)])
        scene.turn(1 - who, [exclusive(scene, 1 - who, 4112, LOAD, size=2), exclusive(scene, 1 - who, 4112, STORE, size=2)])
        scene.turn(who, [exclusive(scene, who, scene.range(FIRST + who).address, STORE)])
        yield scene.play()
        # Armed at the start where the other may be: the store-exclusive is tested, though it would fail.
        scene = Scene(rng, 'monitor', SIDES)
        theirs = scene.range(SECOND - who).address
        scene.plugins[who]['monitor'] = theirs, 8
        scene.turn(who, [exclusive(scene, who, theirs, STORE)])
        scene.turn(who, [exclusive(scene, who, theirs + 8, STORE)])
        scene.turn(1 - who, [exclusive(scene, 1 - who, theirs, STORE), exclusive(scene, 1 - who, theirs, LOAD)])
        scene.turn(1 - who, [exclusive(scene, 1 - who, theirs, STORE)])
        yield scene.play()


def literals(rng):
    """A literal is tested as any load."""
    for layout in (SIDES, TURNED, FAIR):
        scene = Scene(rng, 'literal', layout)
        for who in range(2):
            for which in (SHARED, SECOND - who):
                scene.access(who, (LOAD, 4, scene.range(FIRST + who).address), (LOAD, 8, scene.range(which).address),
                             family=LITERAL)
            scene.access(who, (LOAD, 16, scene.range(SHARED).address + 8), family=LITERAL)
        yield scene.play()


def prefetches(rng):
    """A prefetch touches nothing, wherever it would lead."""
    for layout in (SIDES, FAIR, LAYOUTS[5], LAYOUTS[6]):
        scene = Scene(rng, 'prefetch', layout)
        for who in range(2):
            places = [scene.range(which).address for which in range(3)] + [0, SPACE - 1, layout.origin + layout.length]
            scene.turn(who, [scene.prefetch(who, address) for address in places])
            scene.access(who, (STORE, 1, scene.range(FIRST + who).address), family=UNSCALED)
        yield scene.play()


def refused_in_the_middle(rng):
    """A refused turn keeps its steps done, and the next turns go on, the same plugin's from where it was refused."""
    for layout in (SIDES, FAIR, LAYOUTS[0]):
        for who in range(2):
            scene = Scene(rng, 'refused', layout)
            own, theirs = (scene.range(FIRST + one) for one in (who, 1 - who))
            for one in (scene.plugins[who]['registers'], scene.plugins[1 - who]['registers']):
                one[1] = rng.getrandbits(64)
            scene.access(who, (STORE, 8, own.address), (LOAD, 4, scene.range(SHARED).address), (LOAD, 1, theirs.address))
            scene.access(1 - who, (STORE, 8, theirs.address), (LOAD, 8, own.address))
            scene.access(who, (LOAD, 8, own.address), (STORE, 2, scene.range(SHARED).address))
            scene.turn(1 - who, [0xd503201f])
            scene.access(1 - who, (LOAD, 4, theirs.address + 4), (STORE, 1, theirs.end() - 1))
            scene.access(who, (LOAD, 1, own.address), (STORE, 1, own.end() - 1))
            yield scene.play()


def no_room(rng):
    """10 for a turn that lacks room, and for this turn only; 1 comes before it."""
    for layout in (SIDES, FAIR._replace(shared=(8, 17)), FAIR._replace(second=(65, 0))):
        for room, places in ((1, 1), (2, 0), (0, 0)):
            scene = Scene(rng, 'room', layout)
            for who in (0, 1, 0):
                word = scene.word(who, [], LOAD, 1, scene.range(SHARED).address, UNSCALED)
                scene.turn(who, [word], *((room, places) if len(scene.turns) != 1 else ()))
            scene.turn(1, [])
            yield scene.play()


def taints(rng):
    """Tainted bytes of the shared range come to both, byte by byte, and go into each one's own."""
    for layout in (SIDES, TURNED):
        scene = Scene(rng, 'taint', layout)
        scene.taint[:] = bytes(rng.getrandbits(1) * 255 for _ in scene.taint)
        for who in range(2):
            own = scene.range(FIRST + who)
            scene.plugins[who]['taints'][3] = ALL
            scene.plugins[who]['vector_taints'][1] = VECTOR_ALL
            for length in (8, 16):
                scene.access(who, (LOAD, length, 4112), (STORE, length, own.address), (LOAD, length, own.address))
        yield scene.play()


def empty_turns(rng):
    for layout in (SIDES, FAIR, FAIR._replace(first=(23, 2))):
        scene = Scene(rng, 'no words', layout)
        for who in (1, 0, 0, 1):
            scene.turn(who, [], 0, 0)
        yield scene.play()


def all_by_hand(rng):
    makers = (order_of_refusals, loads_across, earlier_answers, own_monitors, literals, prefetches, refused_in_the_middle,
              no_room, taints, empty_turns)
    return [play for maker in makers for play in maker(rng)]
