"""Plans: the numbers of a domain, the calls of each seat, the turns, and the remarks between them."""
from dataclasses import dataclass, field

from .words import LAST, WORDS
from .wrong import Wrong

HEADS = (("seats", 1, 64), ("objects", 1, 1024), ("slots", 64, 256), ("base", 0, LAST))
CALLS = {"enter": 0, "read": 1, "lock": 1, "write": 1 + WORDS, "commit": 0, "abort": 0, "leave": 0, "tidy": 0}
MOST_STEPS = 65536
MOST_DIGITS = 20


@dataclass(frozen=True)
class Call:
    """A call, its object where it has one, and the words that it writes."""
    name: str
    object: int | None = None
    words: tuple = ()

    def __str__(self):
        return self.name if self.object is None else f"{self.name} {self.object}"


@dataclass
class Plan:
    seats: int
    objects: int
    slots: int
    base: int
    title: str = ""
    calls: list = field(default_factory=list)  # for each seat: its calls
    turns: list = field(default_factory=list)  # seats
    remarks: list = field(default_factory=list)  # pairs of a turn and what the plan says before it


def words_of(line):
    """The words of a line before a comment, which begins with a word that begins with #."""
    words = line.removesuffix("\r").split()
    comment = next((at for at, word in enumerate(words) if word.startswith("#")), len(words))
    return words[:comment]


class Reader:
    """Reads the lines of a plan."""

    def __init__(self, name):
        self.name, self.line, self.heads, self.plan = name, 0, [], None
        self.remark, self.calls, self.turns, self.remarks, self.title = [], [], [], [], ""

    def refuse(self, what):
        raise Wrong(f"{self.name}:{self.line}: {what}")

    def number(self, word, least, most):
        if not word.isdigit() or len(word) > MOST_DIGITS or not least <= int(word) <= most:
            self.refuse(f"not a number from {least} to {most}: {word}")
        return int(word)

    def take(self, line):
        self.line += 1
        words = words_of(line)
        if not words:
            said = line.strip()
            self.remark = self.remark + [said.lstrip("# ")] if said.startswith("#") else []
            return
        if len(self.heads) < len(HEADS):
            self.take_head(words)
        elif words[0] == "seat":
            self.take_call(words)
        elif words[0] == "step" and len(words) > 1:
            self.take_turns(words)
        else:
            self.refuse(f"not a line of a plan: {' '.join(words)[:60]}")
        self.remark = []

    def take_head(self, words):
        name, least, most = HEADS[len(self.heads)]
        if words[0] != name or len(words) != 2:
            self.refuse(f"not the line `{name} N` of a plan")
        if not self.heads:
            self.title = " ".join(self.remark)
        self.heads.append(self.number(words[1], least, most))
        if len(self.heads) == len(HEADS):
            self.calls = [[] for _ in range(self.heads[0])]

    def take_call(self, words):
        seats, objects = self.heads[:2]
        if len(words) < 3 or words[2] not in CALLS or len(words) != 3 + CALLS[words[2]]:
            self.refuse(f"not a call: {' '.join(words)[:60]}")
        seat = self.number(words[1], 0, seats - 1)
        of = self.number(words[3], 0, objects - 1) if len(words) > 3 else None
        self.calls[seat].append(Call(words[2], of, tuple(self.number(word, 0, 2**64 - 1) for word in words[4:])))

    def take_turns(self, words):
        if self.remark:
            self.remarks.append((len(self.turns), " ".join(self.remark)))
        self.turns += [self.number(word, 0, self.heads[0] - 1) for word in words[1:]]
        if len(self.turns) > MOST_STEPS:
            self.refuse(f"a plan has at most {MOST_STEPS} steps")

    def end(self):
        if len(self.heads) < len(HEADS):
            self.refuse(f"a plan without its line `{HEADS[len(self.heads)][0]} N`")
        return Plan(*self.heads, self.title, self.calls, self.turns, self.remarks)


def read_plan(name, source):
    """The plan that a text is."""
    reader = Reader(name)
    for line in source.removesuffix("\n").split("\n"):
        reader.take(line)
    return reader.end()
