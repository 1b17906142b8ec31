"""The steps of each call but `tidy`, as docs/RULE.md and the calls of the runtime have them.

A call is a generator: it yields the step that comes next, is sent the word that was found, and returns the words of its answer."""
from .notes import MOST_HELD, Version, load, store, swap
from .words import CLOCK, LAST, NO_SLOT, UNSET, WORDS, clock_of, clock_word, data, field, head, link_of, link_word, mark, master


def begin_section(seat):
    """A low time, the mark, and the snapshot's time. Returns the word of CLOCK."""
    found = yield load("load_low", CLOCK)
    seat.phase, seat.low = "low", clock_of(found).time
    yield store("store_mark", mark(seat.number), 1 + seat.low)
    seat.phase = "marked"
    word = yield load("load_time", CLOCK)
    seat.phase, seat.time = "inside", clock_of(word).time
    seat.helped = clock_of(word).slot == NO_SLOT
    seat.found_clock(word)
    return word


def help_named(seat, word):
    """Stamps the commit that a word of CLOCK names, where it isn't stamped and CLOCK still names it."""
    named = clock_of(word)
    if named.slot == NO_SLOT:
        return
    stamp = field("stamp", named.seat, named.slot)
    unset = yield load("load_named", stamp)
    if unset >= UNSET:
        found = yield load("load_check", CLOCK)
        seat.found_clock(found)
        if found == word:
            yield swap("stamp", stamp, unset, named.time)
    seat.helped = seat.time is not None


def end_section(seat):
    yield store("clear_mark", mark(seat.number), 0)
    seat.goes_out()


def enter(seat, _):
    word = yield from begin_section(seat)
    yield from help_named(seat, word)
    return [seat.time]


def walk(seat, number, stops):
    """From HEAD to the version that the section sees, or to the first one that it doesn't where the walk stops there. Returns
    the link, and the stamp where it is refused by it."""
    link = yield load("load_head", head(number))
    while link:
        seat.stand = number, link
        of, position = link_of(link)
        first = yield load("load_first", field("first", of, seat.slot(position)))
        stamp = yield load("load_stamp", field("stamp", of, seat.slot(first)))
        if stamp <= seat.time:
            return link, None
        if stops:
            return link, stamp
        link = yield load("load_prev", field("prev", of, seat.slot(position)))
    seat.stand = number, link
    return link, None


def read_words(seat, number, link):
    """The six words of the version at a link, or of the master."""
    of, position = link_of(link)
    kind = "load_data" if link else "load_master"
    found = []
    for word in range(WORDS):
        found.append((yield load(kind, data(of, seat.slot(position), word) if link else master(number, word))))
    return found


def read(seat, call):
    link, _ = yield from walk(seat, call.object, False)
    return (yield from read_words(seat, call.object, link))


def refusal(link, stamp):
    return ["busy", link_of(link).seat] if stamp >= UNSET else ["stale", stamp]


def lock(seat, call):
    if seat.holds(call.object):
        return ["held"]
    if len(seat.held()) == MOST_HELD:
        return ["setfull"]
    if seat.live() == seat.plan.slots:
        return ["logfull"]
    link, stamp = yield from walk(seat, call.object, True)
    if stamp is not None:
        return refusal(link, stamp)
    found = yield from read_words(seat, call.object, link)
    version = yield from build(seat, call.object, link, found)
    return (yield from hang(seat, version))


def build(seat, number, link, found):
    """Builds a version in the next slot of the own log. Only the first slot of a write set has a stamp."""
    at = len(seat.log)
    seat.built = version = Version(seat.number, at, seat.slot(at), seat.first, number, link, found)

    def put(name, word):
        return store("store_built", field(name, seat.number, version.slot), word)

    yield put("first", version.first)
    if version.first == at:
        yield put("stamp", UNSET + at)
    yield put("prev", link)
    yield put("super", 0)
    for word in range(WORDS):
        yield store("store_built", data(seat.number, version.slot, word), found[word])
    return version


def hang(seat, version):
    """Exchanges HEAD for a link to the built version, once more where the chain was cut meanwhile."""
    own = link_word(seat.number, version.position)
    while True:
        found = yield swap("lock_head", head(version.object), version.previous, own)
        if found == version.previous:
            version.state, seat.built = "held", None
            seat.log.append(version)
            return ["held"]
        if found:
            break
        version.previous = 0
        yield store("store_built", field("prev", seat.number, version.slot), 0)
    seat.stand = version.object, found
    of, position = link_of(found)
    first = yield load("load_first", field("first", of, seat.slot(position)))
    stamp = yield load("load_stamp", field("stamp", of, seat.slot(first)))
    return refusal(found, stamp)


def write(seat, call):
    version = seat.holds(call.object)
    for word in range(WORDS):
        yield store("store_data", data(seat.number, version.slot, word), call.words[word])
        version.words[word] = call.words[word]
    return []


def commit(seat, _):
    word = yield load("load_check", CLOCK)
    time = clock_of(word).time + 1
    if time > LAST:
        return ["end"]
    yield from help_named(seat, word)
    new = clock_word(time, seat.number, seat.slot(seat.first))
    found = yield swap("name_commit", CLOCK, word, new)
    if found != word:
        rival = clock_of(found)
        return ["again", rival.seat, rival.time]
    for version in seat.held():
        version.state, version.time = "committed", time
    seat.phase = "named"
    yield swap("stamp", field("stamp", seat.number, seat.slot(seat.first)), UNSET + seat.first, time)
    for version in seat.held():
        if version.previous:
            of, position = link_of(version.previous)
            yield store("store_super", field("super", of, seat.slot(position)), time)
    yield from end_section(seat)
    return ["done", time]


def abort(seat, _):
    given_up = seat.held()
    for version in given_up:
        yield store("unlock_head", head(version.object), version.previous)
        version.state = "given up"
    if given_up:
        found = yield load("load_death", CLOCK)
        for version in given_up:
            version.dead = clock_of(found).time + 1
    yield from end_section(seat)
    return []


def leave(seat, _):
    yield from end_section(seat)
    return []
