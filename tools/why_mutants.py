"""Wrong libraries, each of which breaks one rule of why_model.py.

The stored questions have to tell every one of them from the right one (why_cases.py --self-check).
"""
from typing import NamedTuple

from machine_model import EXCLUSIVE, LAST, ORDERED, SIGNED_32, SPACE, Access
from why_model import GENERAL, MACHINE, MEMORY, VECTOR, Run, Why, access_of

WRONG = []


def wrong(library):
    WRONG.append(library)
    return library


def variant(what, base=Why, **methods):
    """A wrong library by what is wrong, with these methods."""
    return wrong(type(what, (base,), {**methods, '__doc__': what}))


# What is listed. A change is of the trail that is found.

def listed(what, change):
    variant(what, shown=lambda self, trail: Why.shown(self, change(trail)))


def found(what, change):
    """Likewise, where it counts for the number of links too."""
    variant(what, trail=lambda self, run, question: tuple(change(Why.trail(self, run, question))))


def each(change):
    return lambda trail: [change(*link) for link in trail]


listed('The links are listed oldest first.', lambda trail: trail[::-1])
listed('A starting taint is said to be of step 1.', each(lambda kind, number, step: (kind, number, step or 1)))
listed('A starting taint is said to be of step 2^64 - 1.', each(lambda kind, number, step: (kind, number, step or SPACE - 1)))
listed('A link has its step, without the 1.', each(lambda kind, number, step: (kind, number, max(step - 1, 0))))
listed("A link's register is 8 times the register and the byte.",
       each(lambda kind, number, step: (kind, number // 16 * 8 + number % 16 if kind == GENERAL else number, step)))
listed('A link has the register without the byte, as before CR 13.',
       each(lambda kind, number, step: (kind, number // 16 if kind != MEMORY else number, step)))
listed("A vector register's link has the kind 0.",
       each(lambda kind, number, step: (GENERAL if kind == VECTOR else kind, number, step)))
listed('A link has its step before its number.', each(lambda kind, number, step: (kind, step, number)))
listed('A link has two numbers, without its step.', each(lambda kind, number, step: (kind, number)))
found('The links end before the start.', lambda trail: trail[:-1] if len(trail) > 1 else trail)
found('The links end at the first.', lambda trail: trail[:1])
found('The links end after 255.', lambda trail: trail[:255])
found('The links end after 512.', lambda trail: trail[:512])
found('The 256th link is left out.', lambda trail: trail[:255] + trail[256:])
found('The 255th link is there twice.', lambda trail: trail[:255] + trail[254:])
found('The 511th link is left out.', lambda trail: trail[:510] + trail[511:])
found('Nothing is ever tainted.', lambda trail: ())
variant('A link has the place of a byte in memory, and not its address.',
        trail=lambda self, run, question: tuple((kind, number - run.origin if kind == MEMORY else number, step)
                                                for kind, number, step in Why.trail(self, run, question)))
variant('The numbers are counted, and not the links.', count=lambda self, trail: 3 * len(trail))
variant('One link more is counted.', count=lambda self, trail: len(trail) + 1)
variant('The start is not counted.', count=lambda self, trail: max(len(trail) - 1, 0))
variant("A place that isn't tainted has one link.", count=lambda self, trail: max(len(trail), 1))
variant("A place that isn't tainted is listed, and not counted.", shown=lambda self, trail: Why.shown(self, trail or [(0, 0, 0)]))
variant('What is behind the links is cleared.', rest=lambda self, links: [0] * len(links))
variant('One number behind the links is cleared.', rest=lambda self, links: [0][:len(links)] + links[1:])


@wrong
class NotTaintedRefused(Why):
    """A place that isn't tainted is refused with 11."""

    def explain(self, run, question):
        answer, count, links = super().explain(run, question)
        return (11, 0, links) if (answer, count) == (0, 0) else (answer, count, links)


variant('10 leaves the links that fit.', refused=lambda self, answer, run, question, links: (
    answer, 0, self.shown(self.trail(run, question))[:len(links)] if answer == 10 else links))
variant('10 comes with the number of links.', refused=lambda self, answer, run, question, links: (
    answer, len(self.trail(run, question)) if answer == 10 else 0, links))
variant('A refusal clears the list.', refused=lambda self, answer, run, question, links: (answer, 0, [0] * len(links)))
variant('Every refusal is answered with 0.', refused=lambda self, answer, run, question, links: (0, 0, links))


# Which place is asked about, and when.

def asked(what, change):
    """Another place is looked up."""
    variant(what, place_of=lambda self, question: change(question, *Why.place_of(self, question)))


asked("A vector register's question is asked of the general register.",
      lambda question, kind, number: (GENERAL if kind == VECTOR else kind, number))
asked('The byte is added to the address that is asked about.',
      lambda question, kind, number: (kind, number + question.byte if kind == MEMORY else number))
asked('A byte of the upper half of a vector is taken for that of the lower.',
      lambda question, kind, number: (kind, number & ~8 if kind == VECTOR else number))
asked('A byte of the upper half of a register is taken for that of the lower.',
      lambda question, kind, number: (kind, number & ~4 if kind == GENERAL else number))
variant('A place is looked at just after the step.', asked_step=lambda self, question: question.step + 1)
variant('A place is looked at one step too early.', asked_step=lambda self, question: max(question.step - 1, 0))
variant('A place is looked at at the end, whatever the step.', asked_step=lambda self, question: SPACE)


@wrong
class WholeRegister(Why):
    """A register is explained by its lowest tainted byte, as before CR 13."""

    def trail(self, run, question):
        if question.kind != GENERAL:
            return super().trail(run, question)
        trails = [Why.trail(self, run, question._replace(byte=byte)) for byte in range(8)]
        return next(filter(None, trails), ())


# The start.

def begun(what, change):
    """The starting taints are others."""
    variant(what, started=lambda self, run: Why.started(self, change(run)))


begun('The upper half of a vector has no taints at the start.',
      lambda run: run._replace(vector_taint=tuple(marks[:8] + bytes(8) for marks in run.vector_taint)))
begun("The taints of a vector's halves are exchanged at the start.",
      lambda run: run._replace(vector_taint=tuple(marks[8:] + marks[:8] for marks in run.vector_taint)))
begun('The taints of a register are taken from the highest byte.',
      lambda run: run._replace(register_taint=tuple(marks[::-1] for marks in run.register_taint)))
begun('SP has no taint at the start.', lambda run: run._replace(register_taint=(*run.register_taint[:LAST], bytes(8))))
begun('Memory has no taint at the start.', lambda run: run._replace(taint=b''))
variant('A taint byte is a mark only if it is 1.', marked=lambda self, marks: [i for i, mark in enumerate(marks) if mark == 1])
variant('A taint byte is a mark if its lowest bit is set.',
        marked=lambda self, marks: [i for i, mark in enumerate(marks) if mark & 1])


# What a step does to trails.

class Firsts(Why):
    """Some places keep the first trail that a step gave them."""

    def keeps(self, kind):
        raise NotImplementedError

    def longer(self, place, trail, step):
        links = super().longer(place, trail, step)
        return self.firsts.setdefault(place, links) if self.keeps(place[0]) else links

    def carried(self, run):
        self.firsts = {}
        return super().carried(run)


variant('A byte is explained by its first store, in place of its last.', Firsts, keeps=lambda self, kind: kind == MEMORY)
variant('A register is explained by its first load, in place of its last.', Firsts, keeps=lambda self, kind: kind != MEMORY)
variant("A load makes no link: the register takes the byte's.",
        longer=lambda self, place, trail, step: trail if place[0] != MEMORY else Why.longer(self, place, trail, step))
variant("A store makes no link: the byte takes the register's.",
        longer=lambda self, place, trail, step: trail if place[0] == MEMORY else Why.longer(self, place, trail, step))


@wrong
class LinkOfEveryStep(Why):
    """A byte that stays gets a link for each step."""

    def after(self, before, access, code, address, status, step):
        trails = super().after(before, access, code, address, status, step)
        return {place: self.longer(place, trail, step) if trail is before.get(place) else trail
                for place, trail in trails.items()}


variant("A store of bytes that aren't tainted leaves memory's taint.", copy=lambda self, trails, place, trail, step: (
    trail is not None or place[0] != MEMORY) and Why.copy(self, trails, place, trail, step))
variant("A load of bytes that aren't tainted leaves the register's taint.", copy=lambda self, trails, place, trail, step: (
    trail is not None or place[0] == MEMORY) and Why.copy(self, trails, place, trail, step))


# Stores that fail, and accesses that copy nothing.

def failing(what, is_failed):
    variant(what, is_failed=lambda self, access, status: is_failed(access, status))


failing('A store-exclusive that failed is a source.', lambda access, status: False)
failing('A store-exclusive that is done is no source.', lambda access, status: access.status is not None)
failing('Status 0 is taken for a failure, and 1 for a store.', lambda access, status: access.status is not None and status == 0)
failing('A status of 1 makes any store fail.', lambda access, status: status == 1)
failing('A status of 1 makes a store-release fail.', lambda access, status: access.family == EXCLUSIVE and status == 1)


def still(what, stays):
    """Some accesses copy nothing."""
    variant(what, moves=lambda self, access, address, status: () if stays(access) else Why.moves(self, access, address, status))


still('Vector loads and stores copy nothing.', lambda access: access.vector)
still('A load-exclusive copies nothing.', lambda access: access.exclusive and not access.store)
still('A literal load copies nothing.', lambda access: access.base is None)


# Loads and stores.

def copying(what, name, change):
    """The copies of all loads or of all stores are others: each is a place and its source."""
    variant(what, **{name: lambda self, access, address: (
        pair for place, source in getattr(Why, name)(self, access, address) for pair in change(access, address, place, source))})


copying('Bytes above what a load fills keep their taint.', 'loads',
        lambda access, address, place, source: [(place, source)] if source else [])
copying('Bytes of a vector above what a load fills keep their taint.', 'loads',
        lambda access, address, place, source: [(place, source)] if source or not access.vector else [])
copying('A store of the zero register leaves memory as it was.', 'stores',
        lambda access, address, place, source: [(place, source)] if source else [])
copying('A store copies its lowest byte alone.', 'stores',
        lambda access, address, place, source: [(place, source)] if place[1] == address else [])
copying('A register that is loaded is taken by its low byte.', 'loads',
        lambda access, address, place, source: [(place, source)] if place[1] % 16 == 0 else [(place, None)])
copying('The second register of a pair is not loaded.', 'loads',
        lambda access, address, place, source: [(place, source)] if place[1] // 16 == access.targets[0] else [])
copying('The second register of a pair is not stored.', 'stores',
        lambda access, address, place, source: [(place, source)] if place[1] < address + access.width else [])
copying('A pair of vectors of 16 bytes is loaded with 8 bytes between.', 'loads',
        lambda access, address, place, source: [
            (place, (MEMORY, source[1] - 8)) if access.width == 16 and source[1] >= address + 16 else (place, source)])


@wrong
class SecondFromFirst(Why):
    """The second register of a pair that is loaded takes its bytes from the first half."""

    def loads(self, access, address):
        for number in access.targets:
            yield from super().loads(access._replace(targets=(number,)), address)


@wrong
class SecondToFirst(Why):
    """The second register of a pair is stored over the first."""

    def stores(self, access, address):
        for number in access.targets:
            yield from super().stores(access._replace(targets=(number,)), address)


variant('A pair is loaded with its second register first.',
        loads=lambda self, access, address: Why.loads(self, access._replace(targets=access.targets[::-1]), address))
variant('A pair is stored with its second register first.',
        stores=lambda self, access, address: Why.stores(self, access._replace(targets=access.targets[::-1]), address))
variant('A copy of the sign is explained by its own position.', sign_from=lambda self, access, first, byte: (MEMORY, first + byte))
variant('A copy of the sign is explained by the lowest byte loaded.', sign_from=lambda self, access, first, byte: (MEMORY, first))
variant('Copies of the sign are cleared.', sign_from=lambda self, access, first, byte: None)
variant('A load signed to 32 bits has copies of the sign up to byte 7.',
        filled=lambda self, access: 8 if access.above == SIGNED_32 else Why.filled(self, access))
variant('A load signed to 64 bits has copies of the sign up to byte 3.',
        filled=lambda self, access: max(min(Why.filled(self, access), 4), access.width))
variant('A load takes as many bytes as the register has.', loaded_from=lambda self, access, first, byte: (MEMORY, first + byte))
variant('A load has the highest byte first.', loaded_from=lambda self, access, first, byte: Why.loaded_from(
    self, access, first, access.width - 1 - byte if byte < access.width else byte))
variant('A store has the highest byte first.', stores=lambda self, access, address: zip(
    [place for place, _ in Why.stores(self, access, address)],
    [source for number in access.targets for _, source in list(
        Why.stores(self, access._replace(targets=(number,)), address))[::-1]]))


# Register 31.

variant('Register 31 as data is SP.', target_place=lambda self, access, number, byte: self.register_place(
    VECTOR if access.vector else GENERAL, number, byte))
variant('Vector register 31 is the zero register.', target_place=lambda self, access, number, byte: (
    None if number == LAST else Why.target_place(self, access, number, byte)))
variant('A vector load or store is that of general registers.', target_place=lambda self, access, number, byte: (
    Why.target_place(self, access._replace(vector=False), number, byte)))


@wrong
class ZeroIsLoaded(Why):
    """A load into the zero register explains SP."""

    def loads(self, access, address):
        yield from super().loads(access, address)
        if access.targets[0] == LAST and not access.vector:
            yield from (((GENERAL, 16 * LAST + i), self.loaded_from(access, address, i)) for i in range(8))


# Registers that are cleared.

def clearing(what, change):
    """The access is taken as another one, as to what it clears."""
    variant(what, cleared=lambda self, access: Why.cleared(self, change(access)))


clearing("Writeback leaves the base's taint.", lambda access: access._replace(writeback=False))
clearing('Writeback leaves the taint of SP.', lambda access: access._replace(writeback=access.writeback and access.base != LAST))
clearing("Writeback of a pair leaves the base's taint.",
         lambda access: access._replace(writeback=access.writeback and len(access.targets) == 1))
clearing("Writeback of a vector load or store leaves the base's taint.",
         lambda access: access._replace(writeback=access.writeback and not access.vector))
clearing("Writeback of a store leaves the base's taint.",
         lambda access: access._replace(writeback=access.writeback and not access.store))
clearing('Every access clears its base.', lambda access: access._replace(writeback=access.base is not None))
clearing("The status leaves its register's taint.", lambda access: access._replace(status=None))
variant('A status of register 31 clears SP.', cleared=lambda self, access: (
    *Why.cleared(self, access), *([LAST] if access.status == LAST else [])))


@wrong
class FailedStatusIgnored(Why):
    """The status of a store that failed leaves its register's taint."""

    def after(self, before, access, code, address, status, step):
        return before if self.is_failed(access, status) else super().after(before, access, code, address, status, step)


@wrong
class LowHalfCleared(Why):
    """Writeback and status clear the low four bytes alone."""

    def after(self, before, access, code, address, status, step):
        trails = super().after(before, access, code, address, status, step)
        high = {(GENERAL, 16 * number + byte) for number in self.cleared(access) for byte in range(4, 8)}
        return {**trails, **{place: before[place] for place in high if place in before}}


@wrong
class PrefetchClears(Why):
    """A prefetch clears the register of its number."""

    def after(self, before, access, code, address, status, step):
        trails = super().after(before, access, code, address, status, step)
        for byte in range(8 if access.prefetch else 0):
            trails.pop((GENERAL, 16 * access.targets[0] + byte), None)
        return trails


# Refusals: their order, and 1, 7 and 11.

for changed in ((7, 1, 11, 17, 18, 10), (11, 1, 7, 17, 18, 10), (1, 11, 17, 7, 18, 10), (1, 7, 17, 11, 18, 10),
                (17, 1, 7, 11, 18, 10), (1, 7, 11, 18, 17, 10), (18, 1, 7, 11, 17, 10), (1, 18, 7, 11, 17, 10),
                (1, 7, 11, 17, 10, 18)):
    variant('The order of the tests is %s.' % ', '.join(map(str, changed)), ORDER=changed)

# Without 1 and 17 there are no trails.
for left_out in (7, 11, 18, 10):
    variant('Answer %d is never given.' % left_out, ORDER=tuple(answer for answer in Why.ORDER if answer != left_out))


def windowed(what, is_bad):
    variant(what, is_bad_window=lambda self, run, question: is_bad(run))


windowed('A taint that is shorter than memory is taken.',
         lambda run: run.end() > SPACE or run.readonly > run.length or len(run.taint) > run.length)
windowed('A taint that is longer than memory is taken.',
         lambda run: run.end() > SPACE or run.readonly > run.length or len(run.taint) < run.length)
windowed('A window that ends at 2^64 is refused.',
         lambda run: run.end() >= SPACE or run.readonly > run.length or len(run.taint) != run.length)
windowed('A window that ends after 2^64 is taken.', lambda run: run.readonly > run.length or len(run.taint) != run.length)
windowed('A window of read-only bytes alone is refused.',
         lambda run: run.end() > SPACE or run.readonly >= run.length > 0 or len(run.taint) != run.length)
windowed('More read-only bytes than there are are taken.', lambda run: run.end() > SPACE or len(run.taint) != run.length)


def outside(what, is_inside):
    variant(what, is_outside=lambda self, run, question: question.kind == MEMORY and not is_inside(run, question.number))


outside('The byte behind the window is a place.', lambda run, address: run.origin <= address <= run.end())
outside('The byte before the window is a place.', lambda run, address: run.origin - 1 <= address < run.end())
outside('The end of the window is taken modulo 2^64.', lambda run, address: run.origin <= address < run.end() % SPACE)
outside('A read-only byte is no place.', lambda run, address: run.origin + run.readonly <= address < run.end())
outside('The last byte is no place.', lambda run, address: run.origin <= address < run.end() - 1)
variant("A register's number is tested as an address.",
        is_outside=lambda self, run, question: not run.origin <= question.number < run.end())


def placed(what, taken):
    """A question is tested for 11 as if it were another."""
    variant(what, is_no_place=lambda self, run, question: Why.is_no_place(self, run, taken(question)))


placed('Register 32 is a place.', lambda q: q._replace(number=LAST) if q.number == 32 else q)
placed('SP is no place.', lambda q: q._replace(number=32) if (q.kind, q.number) == (GENERAL, LAST) else q)
placed('Vector register 31 is no place.', lambda q: q._replace(number=32) if (q.kind, q.number) == (VECTOR, LAST) else q)
placed('A register has a byte 8.', lambda q: q._replace(byte=7) if (q.kind, q.byte) == (GENERAL, 8) else q)
placed('A register has sixteen bytes.', lambda q: q._replace(byte=0) if q.byte < 16 else q)
placed('A vector has a byte 16.', lambda q: q._replace(byte=15) if (q.kind, q.byte) == (VECTOR, 16) else q)
placed('A vector has eight bytes.', lambda q: q._replace(kind=GENERAL) if q.kind == VECTOR else q)
placed('Kind 3 is taken.', lambda q: q._replace(kind=GENERAL) if q.kind == 3 else q)
placed('Any kind is taken.', lambda q: q._replace(kind=GENERAL) if q.kind > VECTOR else q)
placed('A kind is taken by its lowest byte.', lambda q: q._replace(kind=q.kind % 256))
placed('A register is taken modulo 32.', lambda q: q._replace(number=q.number % 32))
placed('16 times a register is taken modulo 2^64.', lambda q: q._replace(number=16 * q.number % SPACE // 16))
placed('The byte is tested of an address too.', lambda q: q._replace(kind=GENERAL, number=0) if q.kind == MEMORY else q)


# 17: which steps are tested, and the lengths.

class Fewer(Why):
    """Some steps aren't tested. The trails are those up to the first that is bad."""

    def trails_of(self, run):
        bad = [step for step in range(run.steps) if Why.is_bad_step(self, run, step)]
        if not bad:
            return super().trails_of(run)
        trails = list(self.carried(run._replace(steps=bad[0])))
        return trails + trails[-1:] * (run.steps - bad[0])


def fewer(what, tested):
    variant(what, Fewer, tested=lambda self, run, question: tested(run, question))


fewer('No step is tested.', lambda run, question: ())
fewer('17 is for the steps before the one asked about alone.', lambda run, question: range(min(question.step, run.steps)))
fewer('The last step is not tested.', lambda run, question: range(run.steps - 1))
fewer('The first step is not tested.', lambda run, question: range(1, run.steps))


@wrong
class AllWordsTested(Why):
    """The words behind the steps are tested too."""

    def is_bad_trace(self, run, question):
        return super().is_bad_trace(run, question) or any(access_of(word) is None for word in run.words[run.steps:])


@wrong
class AllStatusesTested(Why):
    """The statuses behind the steps are tested too."""

    def is_bad_trace(self, run, question):
        return super().is_bad_trace(run, question) or any(status > 1 for status in run.statuses[run.steps:])


variant('Lists that are longer than the steps are refused.', falls_short=lambda self, run: (
    len(run.words), len(run.statuses), len(run.trace)) != (run.steps, run.steps, 2 * run.steps))


def short(what, *lists, trace=0):
    """Only these lists are tested for the steps, and the trace for so many numbers."""
    def is_bad_trace(self, run, question):
        if any(len(getattr(run, name)) < run.steps for name in lists) or len(run.trace) < 2 * run.steps - trace:
            return True
        return not Why.falls_short(self, run) and Why.is_bad_trace(self, run, question)

    def trail(self, run, question):
        return () if Why.falls_short(self, run) else Why.trail(self, run, question)
    variant(what, is_bad_trace=is_bad_trace, trail=trail)


short('Words that fall short are taken.', 'statuses')
short('Statuses that fall short are taken.', 'words')
short('A trace that falls short is taken.', 'words', 'statuses', trace=2 * SPACE)
short('A trace that lacks one number is taken.', 'words', 'statuses', trace=1)


# 17: what is tested of a step.

class Step(NamedTuple):
    run: Run
    access: Access
    code: int
    address: int
    status: int

    def but_for(self, *left_out):
        """Whether there is nothing wrong but in these: of 4, code, status, address (a prefetch's), 6, 7 and 8."""
        if self.access is None:
            return False
        found = {4: MACHINE.is_unpredictable(None, self.access, 0), 'code': self.code != self.right_code(),
                 'status': self.status > 1}
        if self.access.prefetch:
            found['address'] = self.address != 0
        else:
            tests = {6: MACHINE.is_misaligned, 7: MACHINE.is_outside, 8: MACHINE.is_read_only}
            found.update((answer, test(self.run, self.access, self.address)) for answer, test in tests.items())
        return not any(is_wrong for name, is_wrong in found.items() if name not in left_out)

    def right_code(self):
        return Why().code_of(self.access)

    def failed(self):
        return self.access is not None and Why().is_failed(self.access, self.status)

    def in_block(self):
        return not self.access.exclusive and self.access.family in (ORDERED, EXCLUSIVE)


class Taking(Why):
    """Takes some bad steps; those that can't be done change nothing."""

    def takes(self, step):
        raise NotImplementedError

    def is_bad_step(self, run, step):
        return super().is_bad_step(run, step) and not self.takes(Step(run, *self.step_of(run, step)))

    def after(self, before, access, code, address, status, step):
        if access is None or not access.prefetch and MACHINE.is_outside(self.carrying, access, address):
            return before
        return super().after(before, access, code, address, status, step)

    def carried(self, run):
        self.carrying = run
        return super().carried(run)


def taking(what, takes):
    variant(what, Taking, takes=lambda self, step: takes(step))


taking('A word of answer 2 or 3 is taken.', lambda step: step.access is None)
taking('A word of answer 4 is taken.', lambda step: step.but_for(4))
taking('A code is not looked at.', lambda step: step.but_for('code'))
taking('A code is looked at but for the 64 of a store.',
       lambda step: step.but_for('code') and (step.code - step.right_code()) % 64 == 0)
taking('A code is compared by its low 32 bits.', lambda step: step._replace(code=step.code % (1 << 32)).but_for())
taking('The code of a prefetch is not looked at.', lambda step: step.but_for('code') and step.access.prefetch)
taking('A status of 2 is taken.', lambda step: step.status == 2 and step.but_for('status'))
taking('A status of 255 is taken.', lambda step: step.status == 255 and step.but_for('status'))
taking('The status of a word that is no store-exclusive is not looked at.',
       lambda step: step.but_for('status') and step.access.status is None)
taking('A status is not looked at.', lambda step: step.but_for('status'))
taking('The address of a prefetch is free.', lambda step: step.but_for('address'))
taking('No address is tested for 6.', lambda step: step.but_for(6))
taking('An ordered access is not tested for 6.', lambda step: step.but_for(6) and step.in_block())
taking('An exclusive is not tested for 6.', lambda step: step.but_for(6) and step.access.exclusive)
taking('No address is tested for 7.', lambda step: step.but_for(7))
taking('No address is tested for 8.', lambda step: step.but_for(8))
for refusal in (6, 7, 8):
    taking('A store that failed is not tested for %d.' % refusal,
           lambda step, refusal=refusal: step.failed() and step.but_for(refusal))


def refusing(what, refuses):
    """More steps are refused."""
    variant(what, is_bad_step=lambda self, run, step: (
        Why.is_bad_step(self, run, step) or bool(refuses(Step(run, *self.step_of(run, step))))))


def accessing(what, refuses):
    """Likewise, of steps that aren't prefetches."""
    refusing(what, lambda step: not step.access.prefetch and refuses(step))


refusing('A status of 1 is refused on a word that is no store-exclusive.',
         lambda step: step.status == 1 and step.access.status is None)
accessing('An access by SP is refused if its address is no multiple of 16.',
          lambda step: step.access.base == LAST and step.address % 16 != 0)
accessing("A literal's address is refused if it is no multiple of 4.",
          lambda step: step.access.base is None and step.address % 4 != 0)
accessing('A load from the read-only bytes is refused.',
          lambda step: not step.access.store and step.address < step.run.origin + step.run.readonly)
accessing('An access at the first byte is refused.', lambda step: step.address == step.run.origin)
accessing('An access that ends with the window is refused.', lambda step: step.address + step.access.length() == step.run.end())
accessing('The end of an access is taken modulo 2^64.', lambda step: (step.address + step.access.length()) % SPACE < step.address)
accessing('A store just behind the read-only bytes is refused.',
          lambda step: step.access.store and 0 < step.run.readonly == step.address - step.run.origin)
accessing('An ordered access that ends with its block is refused.',
          lambda step: step.in_block() and (step.address + step.access.length()) % 16 == 0)
accessing('An ordered access is tested by its size.', lambda step: step.in_block() and step.address % step.access.width)
accessing('A store that failed is refused.', Step.failed)
accessing('A store-exclusive with status and base 31 is refused.', lambda step: step.access.status == step.access.base == LAST)


# 18 and 10.

variant('The number of steps is after the end.', is_after_end=lambda self, run, question: question.step >= run.steps)
variant('The step after the number of steps is the end.', is_after_end=lambda self, run, question: question.step > run.steps + 1)
variant('The end is that of the words.', is_after_end=lambda self, run, question: question.step > len(run.words))


def roomy(what, is_short):
    variant(what, is_short=lambda self, run, question: is_short(question.room, len(self.trail(run, question))))


roomy('10 is given one link late.', lambda room, links: room + 3 < 3 * links)
roomy('10 is given one number late.', lambda room, links: room + 1 < 3 * links)
roomy('10 is given one number early.', lambda room, links: room <= 3 * links > 0)
roomy('10 is given one link early, also where nothing is tainted.', lambda room, links: room < 3 * links + 3)
roomy('The room is counted in links.', lambda room, links: room < links)
roomy('An empty list is refused, also where nothing is tainted.', lambda room, links: room == 0 or room < 3 * links)
variant('The list has to hold as many links as there may be.',
        is_short=lambda self, run, question: question.room < 3 * (min(question.step, run.steps) + 1))
