"""The steps of `tidy`: rounds over the own log that free, scan, write back and free again, with a rest between the two."""
from dataclasses import dataclass

from .calls import begin_section, end_section, help_named
from .notes import load, raise_to, store, swap
from .words import CLOCK, GRACE, LAST, NO_SLOT, WORDS, clock_of, clock_word, field, head, link_of, link_word, mark, master


@dataclass
class Scan:
    """What a scan found: CLOCK's time, the least of it and the marks' low times, that mark's seat, and the watermark."""
    clock: int = 0
    low: int = 0
    seat: int = 0
    watermark: int = 0


@dataclass
class Sweep:
    """The first and the last scan of a tidy, and whether it is in its second round."""
    first: Scan
    last: Scan
    again: bool = False


def tidy(seat, _):
    began, sweep = seat.freed, Sweep(Scan(), Scan())
    for again in (False, True):
        sweep.again = again
        watermark = yield load("load_grace", GRACE)
        yield from free_dead(seat, watermark)
        if seat.live():
            yield from scan(seat, sweep)
            yield from settle(seat, sweep)
            yield from free_dead(seat, sweep.last.watermark)
        if not again and rest_is_due(seat):
            yield from rest(seat)
    return [seat.freed - began, seat.live(), *holder(seat, sweep)]


def oldest_set(seat, watermark):
    """How many versions the oldest write set has where all of them are dead at a watermark, and else 0; and where that ends."""
    at = seat.freed
    while at < len(seat.log) and seat.log[at].first == seat.freed and 0 < seat.log[at].dead <= watermark:
        at += 1
    held = at < len(seat.log) and seat.log[at].first == seat.freed
    return 0 if held else at - seat.freed, at


def free_dead(seat, watermark):
    """Frees the oldest write sets as long as they are dead."""
    while True:
        count, _ = oldest_set(seat, watermark)
        if count == 0:
            return
        for _ in range(count):
            version = seat.log[seat.freed]
            yield store("store_free", field("stamp", seat.number, version.slot), 0)
            version.state = "freed"
            seat.freed += 1


def scan(seat, sweep):
    """Loads CLOCK and the marks of the others, and raises GRACE to the least time."""
    found = yield load("load_scan", CLOCK)
    seat.found_clock(found)
    time = clock_of(found).time
    sweep.last = last = Scan(time, time)
    for other in range(seat.plan.seats):
        if other != seat.number:
            word = yield load("load_mark", mark(other))
            if word and word - 1 < last.low:
                last.low, last.seat = word - 1, other
    found = yield raise_to("raise_grace", GRACE, last.low)
    last.watermark = max(last.low, found)
    if not sweep.again:
        sweep.first = last


def settle(seat, sweep):
    """Looks at each version without a death, and in the first round writes back those that are old enough."""
    for version in seat.log[seat.freed:]:
        if version.dead:
            continue
        found = yield load("load_super", field("super", seat.number, version.slot))
        if found:
            version.dead = found
        elif not sweep.again:
            version.above = None
            if version.time <= sweep.last.watermark:
                yield from write_back(seat, version)


def write_back(seat, version):
    """In a section, where HEAD still names the version: copies its words to the master, and cuts the chain."""
    own, place = link_word(seat.number, version.position), head(version.object)
    word = yield from begin_section(seat)
    yield from help_named(seat, word)
    found = yield load("load_head", place)
    if found == own:
        seat.back = version
        for at in range(WORDS):
            yield store("store_master", master(version.object, at), version.words[at])
            version.backed = at + 1
        found = yield swap("cut_head", place, own, 0)
    if found == own:
        version.cut = True
        found = yield load("load_death", CLOCK)
        seat.found_clock(found)
        version.dead = clock_of(found).time + 1
        yield from end_section(seat)
        seat.back = None
        return
    yield from end_section(seat)
    seat.back = None
    if found:
        other = link_of(found).seat
        version.above = None if other == seat.number else other
    else:
        version.dead = yield load("load_super", field("super", seat.number, version.slot))


def rest_is_due(seat):
    """A version is dead only from a time that CLOCK hasn't come to."""
    return seat.latest != LAST and any(version.dead > seat.latest for version in seat.log[seat.freed:])


def rest(seat):
    """An entry that changes nothing, but at the last time."""
    word = yield load("load_check", CLOCK)
    yield from help_named(seat, word)
    time = clock_of(word).time
    if time != LAST:
        yield swap("name_rest", CLOCK, word, clock_word(time + 1, seat.number, NO_SLOT))


def holder(seat, sweep):
    """Why the oldest write set isn't freed, where one is left."""
    if not seat.live():
        return []
    _, at = oldest_set(seat, sweep.last.watermark)
    version = seat.log[at]
    if version.dead > LAST:
        return ["end"]
    if version.dead > sweep.last.clock:
        return ["fresh", version.dead]
    if version.dead:
        return ["mark", sweep.last.seat, sweep.last.low]
    if version.above is not None:
        return ["above", version.object, version.above]
    return ["mark", sweep.first.seat, sweep.first.low]
