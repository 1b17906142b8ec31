"""What a seat notes: the versions of its log, its section, and where its call is."""
from collections import namedtuple
from dataclasses import dataclass, field

from . import words
from .plan import Call

MOST_HELD = 16

# A step that a call makes next: its kind, its access (load, store, swap or max), the place, the word that it offers, and the
# word that an exchange expects.
Step = namedtuple("Step", "kind access place offered expected", defaults=(None, None))


def load(kind, place):
    return Step(kind, "load", place)


def store(kind, place, word):
    return Step(kind, "store", place, word)


def swap(kind, place, expected, word):
    return Step(kind, "swap", place, word, expected)


def raise_to(kind, place, word):
    return Step(kind, "max", place, word)


@dataclass(eq=False)
class Version:
    """A version of an object in a seat's log. `state` is built, held, given up, committed or freed."""
    seat: int
    position: int
    slot: int
    first: int  # the position of its write set's first version
    object: int
    previous: int  # the link to the version below it
    words: list
    state: str = "built"
    time: int = 0  # of its commit
    dead: int = 0  # the time from which it is dead, or 0 where none is known
    above: int | None = None  # the other seat whose version its last write-back found in HEAD
    backed: int = 0  # how many of its words were written back
    cut: bool = False

    @property
    def name(self):
        return f"{self.seat}.{self.position}"


@dataclass(eq=False)
class Seat:
    """A seat: its number, the numbers of its domain, and its notes."""
    number: int
    plan: object
    left: list
    log: list = field(default_factory=list)
    first: int = 0  # the position of the first version that its section holds, or the next position
    freed: int = 0
    phase: str = "outside"  # or low, marked, inside, named
    low: int | None = None
    time: int | None = None
    call: Call | None = None
    built: Version | None = None
    stand: tuple | None = None  # of a walk: the object and the link at which it is
    back: Version | None = None  # which is written back
    helped: bool = False  # whether its section is past its help
    latest: int = 0  # the greatest time that its tidy found in CLOCK

    def slot(self, position):
        return position % self.plan.slots

    def held(self):
        return self.log[self.first:]

    def holds(self, number):
        return next((version for version in self.held() if version.object == number), None)

    def live(self):
        return len(self.log) - self.freed

    def may_begin(self, call):
        """The condition of a call."""
        inside = self.time is not None
        match call.name:
            case "enter" | "tidy":
                return not inside
            case "read":
                return inside and not self.holds(call.object)
            case "write":
                return inside and self.holds(call.object) is not None
            case "commit":
                return inside and len(self.held()) > 0
            case "leave":
                return inside and not self.held()
        return inside

    def found_clock(self, word):
        self.latest = max(self.latest, words.clock_of(word).time)

    def goes_out(self):
        """A section ends, and what it held is committed or given up."""
        self.phase, self.low, self.time, self.first, self.helped = "outside", None, None, len(self.log), False
