"""All that a page shows of a replay, as JSON; docs and tests read the same."""
from collections import namedtuple

from . import facts, words
from .checks import check_text
from .kinds import INDEX, KINDS
from .machine import Machine
from .scene import MARK_AT, MOST_SHOWN, SEES, SORTS, STAMP_AT, SUPER_AT, WORDS_AT, Scene
from .sentences import SENTENCES, SHORT, answer_text, is_refusal, tag_of

# A step as the page has it: texts by their numbers, -1 where there is none; `key` and `part` say which text of the scene shows its word.
Row = namedtuple("Row", "seat kind access place word found offered writer tag key part line")

# Loads by which a seat notes something of a version.
NOTED = ("load_super", "load_death")

Around = namedtuple("Around", "time helped stand back built held")


def around(seat):
    """Where a seat is, and the versions that its call is of."""
    return Around(seat.time, seat.helped, seat.stand, seat.back, seat.built, seat.held())


class Strings:
    """Texts by number, each once."""

    def __init__(self):
        self.texts, self.numbers = [], {}

    def number(self, text):
        if text not in self.numbers:
            self.numbers[text] = len(self.texts)
            self.texts.append(text)
        return self.numbers[text]


def key_of(machine, place):
    """Which text of the scene shows a word: a key, and which part of it. FIRST and PREV are shown by the version as a whole."""
    match place.name:
        case "clock" | "grace":
            return place.name, 0
        case "mark":
            return f"seat.{place.of}", MARK_AT
        case "head" | "master":
            return f"{place.name}.{place.of}", place.word or 0
    version = machine.in_slot.get((place.of, place.slot))
    parts = {"stamp": STAMP_AT, "super": SUPER_AT, "data": WORDS_AT + (place.word or 0)}
    return (f"version.{version.name}" if version else ""), parts.get(place.name, 0)


class Recorder:
    """Runs a plan and keeps what the page shows."""

    def __init__(self, plan):
        self.plan, self.machine = plan, Machine(plan)
        self.scene, self.strings = Scene(self.machine), Strings()
        self.opening, self.steps, self.changes = dict(self.scene.table), [], []
        self.notes, self.calls, self.sections, self.broken, self.events = [], [], [], [], []
        self.open_calls, self.open_sections = {}, {}
        self.remarks = dict(plan.remarks)

    def run(self):
        for turn, number in enumerate(self.plan.turns):
            if turn in self.remarks:
                self.notes.append([self.machine.made, "remark", None, self.remarks[turn], 0])
            self.take_turn(self.machine.seats[number])
        self.take(self.machine.end())
        return self

    def take_turn(self, seat):
        """A turn; what is seen behind it is that behind its step and the answers that come then."""
        before, step = around(seat), None
        for event in self.machine.turn(seat.number):
            self.take(event)
            step = event if event.sort == "step" else step
        if step is None:
            return
        numbers, versions = self.touched(step, before, around(seat))
        begins = before.time is None and seat.time is not None
        self.changes.append(self.scene.step(seat.number, numbers, versions, begins))
        self.look(step, seat, before, numbers)

    def look(self, step, seat, before, numbers):
        """Which facts are broken behind a step: by what it wrote, or by a section that is past its help from now on."""
        shown = set(self.scene.shown)
        found = facts.broken(self.machine, numbers & shown) if step.made.access != "load" or step.made.kind == "load_time" else []
        if seat.helped and not before.helped and not all(facts.reads_hold(self.machine, number, [seat]) for number in shown):
            found.append("read")
        self.broken += [(step.step, name) for name in dict.fromkeys(found)]

    def touched(self, event, before, after):
        """The objects and versions of which something else may be seen behind a step."""
        place, kind = event.made.place, event.made.kind
        numbers = {at[0] for at in (before.stand, after.stand) if at and before.stand != after.stand}
        if before.back != after.back:
            numbers |= {version.object for version in (before.back, after.back) if version}
        if event.made.access == "load" and kind not in NOTED:
            return numbers, set()
        versions = {version for version in (before.back, after.back, before.built, after.built, self.machine.replaced) if version}
        versions |= {*before.held, *after.held, *(self.machine.set_in(place.of, place.slot) if place.slot is not None else [])}
        if place.name in ("head", "master"):
            numbers.add(place.of)
        return numbers | {version.object for version in versions}, versions

    def take(self, event):
        self.events.append(event)
        if event.sort == "step":
            self.take_step(event)
            return
        said = {"skip": "its condition is false", "idle": "no call is left", "end": event.line}.get(event.sort)
        text = f"the time of CLOCK is {self.machine.time()}" if event.sort == "end" else said or answer_text(event.call, event.answer)
        name = str(event.call) if event.call else event.sort
        self.notes.append([event.step, event.sort, event.seat, f"{name}: {text}" if text else name, int(is_refusal(event))])
        call = self.open_calls.pop(event.seat, None)
        if call:
            call[4:] = [text, int(is_refusal(event))]

    def take_step(self, event):
        made, number = event.made, self.strings.number
        base = self.plan.base
        key, part = key_of(self.machine, made.place)
        offered = -1 if made.offered is None else number(words.say(made.place, made.offered, base))
        access = made.access if event.won is None else "won" if event.won else "lost"
        word = -1 if made.place.word is None else made.place.word
        found, place = number(words.say(made.place, event.found, base)), number(words.name_of(made.place))
        self.steps.append(Row(event.seat, INDEX[made.kind], access, place, word, found, offered, event.writer, tag_of(event), number(key), part, event.line))
        call = self.open_calls.get(event.seat)
        if call is None:
            self.open_calls[event.seat] = call = [event.seat, event.step, event.step, str(event.call), "", 0]
            self.calls.append(call)
        call[2] = event.step
        self.take_section(event)

    def take_section(self, event):
        if event.made.kind == "store_mark":
            self.open_sections[event.seat] = section = [event.seat, event.step, 0, None]
            self.sections.append(section)
        elif event.made.kind == "load_time":
            self.open_sections[event.seat][3] = words.clock_of(event.found).time
        elif event.made.kind == "clear_mark":
            self.open_sections.pop(event.seat)[2] = event.step

    def json(self, name, lines):
        """The whole model, with the faults of a text where one is given."""
        plan, made = self.plan, self.machine.made
        faults = check_text(plan, self.events, lines) if lines is not None else []
        for section in self.open_sections.values():
            section[2] = made
        told = [{"line": fault.line, "step": fault.step, "said": fault.said} for fault in faults]
        told += [{"line": 0, "step": step, "said": f"behind step {step} it doesn't hold that {facts.FACTS[name]} ({name})"} for step, name in self.broken]
        history = [[entry.time, entry.seat, entry.step, sorted({it.object for it in entry.versions})] for entry in self.machine.history]
        return {
            "form": "replay", "name": name, "title": plan.title, "seats": plan.seats, "objects": plan.objects, "slots": plan.slots,
            "base": plan.base, "sentences": SENTENCES, "short": SHORT, "sorts": SORTS, "sees": SEES, "kinds": [list(kind) for kind in KINDS.values()],
            "facts": facts.FACTS, "history": history, "calls": self.calls, "sections": self.sections, "notes": self.notes,
            "unshown": len(self.scene.beyond), "most": MOST_SHOWN, "faults": told, "opening": self.opening, "texts": self.strings.texts,
            "steps": self.steps, "changes": self.changes,
        }


def replay_model(name, plan, lines=None):
    return Recorder(plan).run().json(name, lines)


def scene_at(model, step):
    """The table behind a step."""
    table = dict(model["opening"])
    for changes in model["changes"][:step]:
        for key, texts in changes.items():
            if texts is None:
                del table[key]
            else:
                table[key] = texts
    return table
