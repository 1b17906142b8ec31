"""A text against the run of its plan: where they differ, and why what stands in the text can't be."""
from dataclasses import dataclass

from . import words
from .kinds import KINDS
from .replay_text import step_of

WINDOW = 60  # how many lines are looked at to find where text and run go on together
TOGETHER = 3  # how many lines must be the same there


@dataclass
class Fault:
    """What is wrong in a line of the text, and the step that the page shows for it."""
    line: int
    step: int
    said: str


def is_same(events, lines, at, line):
    """Whether text and run go on together from here."""
    ahead = [event.line for event in events[at:at + TOGETHER]]
    return ahead == lines[line:line + TOGETHER] and (len(ahead) == TOGETHER or at + len(ahead) == len(events))


def meet(events, lines, at, line):
    """How many events and lines are between here and where text and run go on together, or None where they don't soon."""
    for between in range(1, WINDOW):
        for missing in range(between + 1):
            if is_same(events, lines, at + missing, line + between - missing):
                return missing, between - missing
    return None


class Check:
    """The faults of a text."""

    def __init__(self, plan, events, lines):
        self.plan, self.events, self.lines, self.faults = plan, events, lines, []

    def tell(self, line, event, said):
        self.faults.append(Fault(line + 1, event.step, said))

    def run(self):
        at = line = 0
        events, lines = self.events, self.lines
        while at < len(events) or line < len(lines):
            if at < len(events) and line < len(lines) and events[at].line == lines[line]:
                at, line = at + 1, line + 1
                continue
            between = meet(events, lines, at, line)
            if between is None:
                event = events[min(at, len(events) - 1)]
                self.tell(min(line, len(lines) - 1), event, "from here on the text isn't one of this plan")
                if at < len(events) and line < len(lines):
                    self.changed(line, event, lines[line])
                break
            self.differ(at, line, *between)
            at, line = at + between[0], line + between[1]
        return self.faults

    def differ(self, at, line, missing, more):
        """Some events have other lines, or none, or there are lines of no event."""
        pairs = min(missing, more)
        for number in range(pairs):
            self.changed(line + number, self.events[at + number], self.lines[line + number])
        for event in self.events[at + pairs:at + missing]:
            self.tell(min(line + pairs, len(self.lines) - 1), event, f"before this line `{event.line}` is missing: {self.due(event)}")
        event = self.events[max(0, at + missing - 1)]
        for number in range(pairs, more):
            self.tell(line + number, event, f"no line should be here: {self.lines[line + number]}")

    def changed(self, line, event, said):
        """A line in place of another one."""
        if event.line == said:
            return
        step = step_of(said)
        if event.sort != "step" or not step:
            self.tell(line, event, f"here stands `{event.line}` in a text of this plan: {self.due(event)}")
            return
        number, seat = event.step, event.seat
        if step["step"] != str(number):
            self.tell(line, event, f"this is step {number}, and not {step['step']}")
        if step["seat"] != str(seat):
            self.tell(line, event, f"it is the turn of seat {seat}")
        place = words.number_of(self.plan, event.made.place)
        if (step["access"], step["place"]) != (event.made.access, str(place)):
            self.tell(line, event, f"not the step of this call: {self.due(event)}")
            return
        self.changed_words(line, event, step)

    def changed_words(self, line, event, step):
        """The right step, with other words."""
        made, number = event.made, event.step
        if step.get("found") not in (None, str(event.found)):
            by = f"step {event.writer} stored that" if event.writer else "no step has stored another one"
            self.tell(line, event, f"step {number} finds {event.found} in {words.full_name(made.place)}, and not {step['found']}: {by}")
        if step.get("offered") not in (None, str(made.offered)):
            self.tell(line, event, f"step {number} offers {made.offered}, and not {step['offered']}: {self.say(made.place, made.offered)}")
        if step.get("won") not in (None, "won" if event.won else "lost"):
            ends = "won, since it finds" if event.won else "lost, since it doesn't find"
            self.tell(line, event, f"the exchange is {ends} the word that it expects, {made.expected}")

    def say(self, place, word):
        return f"{words.full_name(place)} is to say: {words.say(place, word, self.plan.base)}"

    def due(self, event):
        """Why an event comes here."""
        match event.sort:
            case "step":
                return f"seat {event.seat} is in `{event.call}`, and its next step is {KINDS[event.made.kind].name}"
            case "answer":
                return f"with this the call `{event.call}` of seat {event.seat} has ended"
            case "skip":
                return f"the condition of `{event.call}` is false, so it is skipped"
            case "idle":
                return f"seat {event.seat} has no call left"
        return "the turns of the plan are over"


def check_text(plan, events, lines):
    """The faults of a text: none where it is that of the plan."""
    return Check(plan, events, lines).run()
