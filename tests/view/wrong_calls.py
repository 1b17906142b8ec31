"""Calls that break the rule: each fact that the model checks is found broken by one of them at least, and none by the right ones."""
import sys

from given import finish, plans, samples
from view import calls, facts, machine, tidy, words
from view.notes import load, raise_to, store, swap
from view.replay_model import Recorder


def scan_without_marks(seat, sweep):
    """A scan that looks at no mark."""
    found = yield load("load_scan", words.CLOCK)
    seat.found_clock(found)
    sweep.last = sweep.first = tidy.Scan(words.clock_of(found).time, words.clock_of(found).time)
    found = yield raise_to("raise_grace", words.GRACE, sweep.last.low)
    sweep.last.watermark = max(sweep.last.low, found)


def with_steps(right, wrong_step):
    """A call whose steps are other ones where `wrong_step` gives one."""
    def body(seat, *rest):
        steps = right(seat, *rest)
        found = None
        try:
            while True:
                step = steps.send(found)
                found = yield wrong_step(seat, step) or step
        except StopIteration as end:
            return end.value
    return body


def mark_too_high(_, step):
    """A mark that promises more than the low time."""
    return store("store_mark", step.place, step.offered + 1) if step.kind == "store_mark" else None


def old_stamp(seat, step):
    """The own set is stamped with the time before it."""
    own = step.kind == "stamp" and seat.held() and step.place.of == seat.number and step.offered == seat.held()[0].time
    return swap("stamp", step.place, step.expected, step.offered - 1) if own else None


def own_below(seat, step):
    """A version is hung above the last one of the own log, of whatever object."""
    wrong = step.place.name == "prev" and step.kind == "store_built" and seat.log
    return store("store_built", step.place, words.link_word(seat.number, len(seat.log) - 1)) if wrong else None


def help_nobody(seat, word):
    """A section that reads on past a commit without a stamp."""
    seat.helped = seat.time is not None
    return
    yield


def lock_over_all(seat, call):
    """A lock that takes whatever HEAD names, from the words of its snapshot."""
    link, _ = yield from calls.walk(seat, call.object, False)
    found = yield from calls.read_words(seat, call.object, link)
    version = yield from calls.build(seat, call.object, link, found)
    own = words.link_word(seat.number, version.position)
    yield store("lock_head", words.head(call.object), own)
    version.state, seat.built = "held", None
    seat.log.append(version)
    return ["held"]


def cut_at_once(seat, sweep):
    """A tidy that frees a version as soon as it has cut the chain behind it."""
    yield from RIGHT["settle"](seat, sweep)
    for version in seat.log[seat.freed:]:
        if version.cut:
            version.dead = 1


WRONG = {
    "scan_without_marks": (tidy, "scan", scan_without_marks),
    "mark_too_high": (calls, "begin_section", with_steps(calls.begin_section, mark_too_high)),
    "help_nobody": (calls, "help_named", help_nobody),
    "lock_over_all": (machine.STEPS, "lock", lock_over_all),
    "old_stamp": (machine.STEPS, "commit", with_steps(calls.commit, old_stamp)),
    "own_below": (machine.STEPS, "lock", with_steps(calls.lock, own_below)),
    "cut_at_once": (tidy, "settle", cut_at_once),
}
RIGHT = {"settle": tidy.settle}


def broken_by(given):
    """The facts that are found broken; a run that a wrong call leads astray is looked at up to there."""
    found = set()
    for plan in given:
        recorder = Recorder(plan)
        try:
            recorder.run()
        except (IndexError, KeyError, AttributeError, AssertionError, ValueError):
            pass
        found |= {name for _, name in recorder.broken}
    return found


def put(place, name, body):
    """Puts a body in the place of another, and gives the one that was there."""
    if isinstance(place, dict):
        place[name], before = body, place[name]
    else:
        before = getattr(place, name)
        setattr(place, name, body)
    return before


top, scratch = sys.argv[1:3]
given = [plan for _, plan, _ in samples(top)] + [plan for path, plan, _ in plans(scratch)][::6]
wrong, found = [], set()
if broken_by(given):
    wrong.append("the right calls break a fact")
for name, (place, of, body) in WRONG.items():
    before = put(place, of, body)
    broken = broken_by(given)
    put(place, of, before)
    found |= broken
    if not broken:
        wrong.append(f"no fact is broken by {name}")
wrong += [f"no wrong call breaks the fact {fact}" for fact in facts.FACTS if fact not in found]
finish(wrong, f"{len(WRONG)} wrong calls break all {len(facts.FACTS)} facts that are looked at")
