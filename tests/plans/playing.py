"""Writes schedules as plans of a replay, with what their calls answer.

The calls, their order and their answers are the schedule's. How many steps a turn takes is counted on the model of tools/view, which
shares no code with the program. What no call of a plan does is left out where it changes no other answer: a read of an object that
is held, a turn that is skipped, the table of a log, a load of CLOCK by a seat that holds nothing, and the joining of a domain."""
import re
from collections import namedtuple

from tables import Term
from view import machine, notes, plan

TIME_BIT = 19  # at which the time begins in a word of CLOCK
MOST_TURNS = 70  # in a line

# A plan: its name, its lines, and the lines that its replay prints but those of steps. The last one, `end T`, is among them where
# the schedule says what CLOCK is then.
Plan = namedtuple("Plan", "name lines answers")


class NoPlan(Exception):
    """No plan has a schedule, and why."""


# Where a turn ends, by the kind of the step that is due next in its call, and by the kinds of those that the turn has made.
def with_its_call(due, made):
    return False


def after_steps(count):
    return lambda due, made: len(made) == count


def before(kind):
    return lambda due, made: due == kind


def after_a_round(due, made):
    """At the rest of a tidy, or at its second round where it makes no rest."""
    return due == "load_rest" or due == "load_grace" and len(made) > 0


def after_a_look(due, made):
    """At the next look of a walk, or where the walk has ended."""
    return due in WORDS or due == "load_first" and len(made) > 0


def with_its_section(due, made):
    return made[-1:] == ["clear_mark"]


ONE = after_steps(1)
WORDS = ["load_master", "load_data"]
# The moves that begin a call: the call, and where the turn ends.
BEGINS = {
    "Enter": ("enter", with_its_call), "Read": ("read", with_its_call), "Lock": ("lock", with_its_call), "Write": ("write", with_its_call),
    "Commit": ("commit", with_its_call), "Abort": ("abort", with_its_call), "Leave": ("leave", with_its_call), "Tidy": ("tidy", with_its_call),
    "LoadLow": ("enter", ONE), "WalkStart": ("read", ONE), "LockStart": ("lock", before("lock_head")), "Now": ("commit", before("name_commit")),
    "Round": ("tidy", after_a_round), "BackStart": ("tidy", before("store_master")),
}
# The moves that go on with one: the kinds of which one is due then, and where the turn ends.
GOES_ON = {
    "StoreMark": (["store_mark"], ONE), "LoadTime": (["load_time"], ONE), "Help": (["load_named", "name_rest"], before("name_rest")),
    "WalkStep": (["load_first", *WORDS], after_a_look), "ReadFound": (WORDS, with_its_call), "LockEnd": (["lock_head"], with_its_call),
    "Name": (["name_commit"], ONE), "Finish": (["stamp"], with_its_call), "BackWord": (["store_master"], ONE),
    "BackFinish": (["cut_head"], with_its_section), "Now": (["load_rest"], ONE), "Rest": (["name_rest"], ONE),
    "LastRound": (["load_grace"], with_its_call),
}
# The answers of moves that say what their call answers, or will answer: the word that it begins with, if any.
SAYS = {
    "Entered": [], "Time": [], "Left": [], "Words": [], "Written": [], "Held": ["held"], "Busy": ["busy"], "Stale": ["stale"],
    "SetFull": ["setfull"], "LogFull": ["logfull"], "Named": ["done"], "Done": ["done"], "Lost": ["again"], "Again": ["again"],
    "End": ["end"], "Aborted": [], "Tidied": [],
}


def words_of(value):
    """A value as a replay prints it. What holds a log has its name, and then its fields in this order."""
    if not isinstance(value, tuple):
        return [str(value)]
    if not isinstance(value, Term):
        return [word for part in value for word in words_of(part)]
    fields = [str(value.fields[name]) for name in ("object", "seat", "low", "time") if name in value.fields]
    return [value.name.lower()] * (value.name not in ("None", "Some")) + fields + words_of(value.arguments)


class Playing:
    """A schedule that is played on the model, and its plan. A call that is stopped makes `more` steps than the fewest."""

    def __init__(self, schedule, more):
        numbers = {name: schedule.domain[name] for name, _, _ in plan.HEADS}
        calls = [[] for _ in range(numbers["seats"])]
        self.machine = machine.Machine(plan.Plan(**numbers, calls=calls))
        self.lines, self.answers = [f"{name} {number}" for name, number in numbers.items()], []
        self.more, self.stopped_after = more, None
        self.said = [None] * len(calls)  # of each seat: what its call answers, as far as its turns have said
        self.freed = [0] * len(calls)  # of each seat: how many versions the first round of its tidy freed
        self.late = [[] for _ in calls]  # of each seat: answers of calls without a step, which come with its next step
        for turn in schedule.turns:
            self.play(*turn)
        if any(self.late):
            raise NoPlan("a seat ends with a call without a step")

    def play(self, seat, move, answer):
        """Plays a turn, or leaves it out."""
        if answer.name == "Skipped" or move.name == "Table":
            return
        if move.name == "Join":
            self.answers.append(f"end {answer.arguments[0]}")
        elif move.name == "FirstOf":
            call, least, most = move.arguments
            self.stopped_after = count = min(least + self.more, most)
            if self.turn(seat, call.name, call.arguments, answer, after_steps(count)) != count:
                raise NoPlan(f"{call.name} has fewer steps than {count}")
        elif move.name == "Round" and move.arguments[0].name == "false":
            self.turn(seat, "LastRound", (), answer)
        else:
            self.turn(seat, move.name, move.arguments, answer)

    def turn(self, seat, name, arguments, answer, end=None):
        """Plays a move up to its end, or to another one, and gives how many steps it makes."""
        self.note_answer(seat, name, answer)
        if self.due(seat):
            kinds, its_end = GOES_ON.get(name, ([], None))
            if self.due(seat) not in kinds:
                raise NoPlan(f"{name} comes within {self.machine.seats[seat].call.name} before {self.due(seat)}")
        elif name not in BEGINS:
            raise NoPlan(f"{name} goes on with no call")
        else:
            call, its_end = BEGINS[name]
            self.begin(seat, call, name, words_of(arguments)[:plan.CALLS[call]])
        return self.run(seat, end or its_end)

    def note_answer(self, seat, name, answer):
        """Notes what the answer of a move says of that of its call."""
        if answer.name == "NoBack":
            raise NoPlan("a write-back doesn't start")
        if answer.name in SAYS:
            self.said[seat] = SAYS[answer.name] + words_of(answer.arguments)
        if name == "Round":
            self.freed[seat] = answer.arguments[0]
        elif name == "LastRound":
            self.said[seat][0] = str(self.freed[seat] + answer.arguments[0])

    def due(self, seat):
        """The kind of the step that is due in the call of a seat. The load of CLOCK before a rest has a name of its own here."""
        step = self.machine.due[seat]
        outside = self.machine.seats[seat].time is None
        return step and ("load_rest" if step.kind == "load_check" and outside else step.kind)

    def begin(self, seat, call, name, words):
        """Begins a call, unless it is one that is left out. A call without a step is answered at once."""
        player, numbers = self.machine.seats[seat], [int(word) for word in words]
        if name == "Read" and player.holds(numbers[0]) or name == "Now" and not player.held():
            return
        call = plan.Call(call, *numbers[:1], tuple(numbers[1:]))
        if not player.may_begin(call):
            raise NoPlan(f"the condition of {call.name} is false")
        self.lines.append(" ".join(["seat", str(seat), call.name, *words]))
        self.late[seat] += [self.answer_of(event) for event in self.machine.begin(player, call)]

    def run(self, seat, end):
        """Makes the steps of a turn, and gives how many they are."""
        made = []
        while self.due(seat) and not end(self.due(seat), made):
            self.answers += self.late[seat]
            self.late[seat] = []
            for event in self.machine.turn(seat):
                if event.sort == "step":
                    made.append(event.made.kind)
                else:
                    self.answers.append(self.answer_of(event))
        for first in range(0, len(made), MOST_TURNS):
            self.lines.append("step" + f" {seat}" * len(made[first:first + MOST_TURNS]))
        return len(made)

    def answer_of(self, event):
        """The answer of a call that has ended."""
        said, self.said[event.seat] = self.said[event.seat], None
        if said is None:
            raise NoPlan(f"no turn says what {event.call.name} answers")
        return " ".join([str(event.seat), event.call.name, *said])


def plans_of(schedule):
    """The plans of a schedule: one for each number of steps after which it stops a call."""
    if schedule.domain["write_max"] != notes.MOST_HELD:
        raise NoPlan(f"its write sets have at most {schedule.domain['write_max']} objects")
    stops = [move.arguments for _, move, _ in schedule.turns if move.name == "FirstOf"]
    count = 1 + max((most - least for _, least, most in stops), default=0)
    slug = re.sub(r"[^\w -]", "", schedule.name).lower().replace(" ", "-")
    for more in range(count):
        played = Playing(schedule, more)
        name, title = f"{schedule.table}/{slug}", schedule.name
        if count > 1:
            name += f"-{played.stopped_after:02d}"
            title += f": after {played.stopped_after} step" + "s" * (played.stopped_after != 1)
        if schedule.clock is not None:
            played.answers.append(f"end {schedule.clock >> TIME_BIT}")
        yield Plan(name, [f"# {title}", *played.lines], played.answers)
