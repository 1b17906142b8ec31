"""Runs a plan: the words of its domain, its seats, its turns, and the one history."""
from bisect import bisect_right
from collections import defaultdict, namedtuple
from dataclasses import dataclass

from . import calls
from .notes import MOST_HELD, Seat
from .tidy import tidy
from .words import CLOCK, GRACE, NO_SLOT, WORDS, clock_of, clock_word, number_of

STEPS = {
    "enter": calls.enter, "read": calls.read, "lock": calls.lock, "write": calls.write, "commit": calls.commit,
    "abort": calls.abort, "leave": calls.leave, "tidy": tidy,
}

# An entry of the history: a commit with its versions, or a rest or the opening, which have none.
Entry = namedtuple("Entry", "time seat step versions")


@dataclass
class Event:
    """What one line of a text says: a step, an answer, a call that is skipped, an idle turn, or the end."""
    sort: str
    turn: int
    line: str
    seat: int | None = None
    call: object = None
    step: int = 0  # its number, or how many steps come before it
    made: object = None  # of a step: what its call asked for
    found: int = 0
    won: bool | None = None  # of an exchange
    writer: int = 0  # the step that stored the word that was found, or 0
    answer: tuple = ()


class Machine:
    """A domain that runs a plan. `turn` makes one turn and gives its events."""

    def __init__(self, plan):
        self.plan = plan
        self.words = {CLOCK: clock_word(plan.base, 0, NO_SLOT), GRACE: plan.base}
        self.writers = {}
        self.seats = [Seat(number, plan, list(plan.calls[number])) for number in range(plan.seats)]
        self.history = [Entry(plan.base, None, 0, [])]
        self.writes = defaultdict(list)  # of each object: the versions that were committed
        self.in_slot = {}  # of a seat and a slot: the version that was built there last
        self.versions = defaultdict(list)  # of each object: its versions, but those that are freed or were built anew
        self.replaced = None  # the version in whose slot the last step has begun another one
        self.made = self.turns = 0
        self.under_way = [None] * plan.seats  # of each seat: the steps of its call
        self.due = [None] * plan.seats  # and the one that comes next

    def word(self, place):
        return self.words.get(place, 0)

    def time(self):
        return clock_of(self.words[CLOCK]).time

    def turn(self, number):
        """A turn of a seat: calls that are skipped or answered at once, then one step, or none where no call is left."""
        seat = self.seats[number]
        while self.due[number] is None:
            if not seat.left:
                yield self.event("idle", seat, f"{number} idle")
                break
            yield from self.begin(seat, seat.left.pop(0))
        if self.due[number] is not None:
            yield self.step(seat)
            yield from self.ask(seat)
        self.turns += 1

    def begin(self, seat, call):
        """Looks at the next call."""
        seat.call = call
        if not seat.may_begin(call):
            yield self.event("skip", seat, f"{seat.number} skip {call.name}")
            seat.call = None
            return
        seat.latest = 0
        self.under_way[seat.number] = STEPS[call.name](seat, call)
        yield from self.ask(seat)

    def ask(self, seat):
        """Which step comes next, or the answer."""
        steps = self.under_way[seat.number]
        try:
            self.due[seat.number] = steps.send(self.found if self.due[seat.number] else None)
        except StopIteration as end:
            self.due[seat.number] = None
            answer = [str(word) for word in end.value]
            yield self.event("answer", seat, " ".join([str(seat.number), seat.call.name, *answer]), tuple(answer))
            seat.call = seat.stand = None

    def event(self, sort, seat, line, answer=()):
        return Event(sort, self.turns, line, seat.number, seat.call, self.made, answer=answer)

    def step(self, seat):
        """Makes the step that is due."""
        step = self.due[seat.number]
        self.replaced = None
        if step.kind == "store_built":
            self.note_built(seat.built)
        self.made += 1
        self.found = found = self.word(step.place)
        event = Event("step", self.turns, "", seat.number, seat.call, self.made, step, found)
        event.writer = self.writers.get(step.place, 0)
        event.won = found == step.expected if step.access == "swap" else None
        event.line = self.line_of(event)
        if step.access in ("store", "max") or event.won:
            self.words[step.place] = max(found, step.offered) if step.access == "max" else step.offered
            self.writers[step.place] = self.made
        if event.won and step.place == CLOCK:
            self.note_entry(seat, step)
        return event

    def line_of(self, event):
        """The line of a step."""
        step = event.made
        said = [event.step, event.seat, step.access, number_of(self.plan, step.place)]
        if step.access != "store":
            said.append(event.found)
        if step.access != "load":
            said.append(step.offered)
        if step.access == "swap":
            said.append("won" if event.won else "lost")
        return " ".join(map(str, said))

    def note_built(self, version):
        """A slot has another version."""
        before = self.in_slot.get((version.seat, version.slot))
        if before is not version:
            self.replaced = before
            self.in_slot[version.seat, version.slot] = version
            self.versions[version.object].append(version)

    def live_versions(self, number):
        """The versions of an object that stand in their slots, the one that was built last first."""
        there = [it for it in self.versions[number] if it.state != "freed" and self.in_slot[it.seat, it.slot] is it]
        self.versions[number] = there
        return there[::-1]

    def set_in(self, seat, slot):
        """The versions of the write set that has a version in a slot."""
        version = self.in_slot.get((seat, slot))
        if version is None:
            return []
        log = self.seats[seat].log
        mates = [it for it in log[version.first:version.first + MOST_HELD] if it.first == version.first]
        return mates if version in mates else [*mates, version]

    def note_entry(self, seat, step):
        """The history grows by the entry that an exchange of CLOCK has made."""
        versions = seat.held() if step.kind == "name_commit" else []
        time = clock_of(step.offered).time
        self.history.append(Entry(time, seat.number, self.made, versions))
        for version in versions:
            self.writes[version.object].append((time, version))

    def state_at(self, number, time):
        """The words of an object after the entry of a time."""
        writes = self.writes[number]
        at = bisect_right(writes, time, key=lambda write: write[0])
        return writes[at - 1][1].words if at else [0] * WORDS

    def end(self):
        return Event("end", self.turns, f"end {self.time()}", step=self.made)

    def run(self):
        """The events of all turns."""
        for number in self.plan.turns:
            yield from self.turn(number)
        yield self.end()
