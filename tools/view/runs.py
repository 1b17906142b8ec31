"""The text of a `run`, `block`, `pool` or `grow`, as JSON: its lines over the times of the history.

What bench/replay checks of such a text is checked here too, by the same code."""
import pathlib
import re
import sys

from .wrong import Wrong, read

sys.path.insert(0, str(pathlib.Path(__file__).resolve().parent.parent.parent / "bench"))
from checker import growing, script, text as checker  # noqa: E402

SUBCOMMANDS = ("run", "block", "pool", "grow")
NUMBER = "(0|[1-9][0-9]*)"
LINE = re.compile(rf"{NUMBER}\.{NUMBER} ([cr]){NUMBER} ((?:yes|no|full|worn|none|{NUMBER})(?: (?:yes|no))?)")
SET = re.compile(r"[lht][0-9](?: [0-9]+(?:=[0-9]+)?)+")
BUCKETS = re.compile(rf"buckets {NUMBER} splits {NUMBER}")
LOG = re.compile(rf"log {NUMBER} live {NUMBER} freed {NUMBER} back {NUMBER} commits {NUMBER} aborts {NUMBER} rests {NUMBER}")
COUNTS = ("live", "freed", "back", "commits", "aborts", "rests")
FLAGS = ("--objects", "--slots", "--base")
KNOWN = ("yes", "no", "full", "worn", "none")


def options_of(words):
    """The options of `run`, and the files behind them."""
    given = {}
    while len(words) > 1 and words[0] in FLAGS:
        if not words[1].isdigit():
            raise Wrong(f"{words[0]} takes a number, and not {words[1]}", 2)
        given[words[0][2:]] = int(words[1])
        words = words[2:]
    return checker.Options(**given), words


class Run:
    """The subcommand, its options, and its scripts: of each the commands, or of blocks the blocks."""

    def __init__(self, subcommand, words):
        self.subcommand, self.options, self.seats, files = subcommand, checker.Options(), 0, words
        if subcommand == "run":
            self.options, files = options_of(words)
        elif subcommand == "pool":
            if len(words) != 2 or not words[0].isdigit():
                raise Wrong("pool takes a number of seats and a file", 2)
            self.seats, files = int(words[0]), words[1:]
        parse = {"block": script.parse_blocks, "grow": script.parse_grow}.get(subcommand, script.parse)
        self.scripts = [self.parsed(parse, file) for file in files]

    @staticmethod
    def parsed(parse, file):
        try:
            return parse(read(file).encode())
        except script.NotAScript as fault:
            raise Wrong(f"{file}: no script: {fault}") from None

    def commands(self, seat):
        """The commands of a seat, in words."""
        own = self.scripts[0] if self.subcommand == "pool" else self.scripts[seat] if seat < len(self.scripts) else []
        flat = [command for block in own for command in block] if self.subcommand == "block" else own
        return [words_of(command) for command in flat]

    def check(self, printed):
        """What bench/replay says of the text, or nothing where it holds."""
        try:
            match self.subcommand:
                case "run":
                    checker.check_run(self.options, self.scripts, printed)
                case "block":
                    checker.check_blocks(self.scripts, printed)
                case "pool":
                    checker.check_pool(self.seats, self.scripts[0], printed)
                case "grow":
                    growing.check_grow(self.scripts, printed)
        except checker.Fault as fault:
            return str(fault)
        return None


def words_of(command):
    """A command as a script has it."""
    names = [name for name in (command.first, command.second) if name]
    key = [] if command.verb == "size" else [str(command.key)]
    return " ".join([command.verb, *names, *key, *([str(command.value)] if command.verb == "put" else [])])


def sort_of(reply):
    """Which colour a reply has."""
    words = set(reply.split())
    if words == {"yes", "no"}:
        return "mixed"
    word = words.pop() if len(words) == 1 else ""
    return word if word in KNOWN else "number"


def split(name, source):
    """The lines, the sets, the line of buckets, and the logs. A line of no such form is told."""
    rows = source.split("\n")
    if rows.pop() or not rows:
        raise Wrong(f"{name}:{len(rows) + 1}: the text was cut: its last line has no end")
    lines, sets, logs = [], [], []
    for at, row in enumerate(rows, 1):
        line, log = LINE.fullmatch(row), LOG.fullmatch(row)
        if line and not sets and not logs:
            seat, number, kind, time, reply = line.groups()[:5]
            lines.append([int(seat), int(number), int(kind == "c"), int(time), reply, sort_of(reply)])
        elif (SET.fullmatch(row) or BUCKETS.fullmatch(row)) and not logs:
            sets.append(row)
        elif log:
            logs.append([int(count) for count in log.groups()])
        else:
            raise Wrong(f"{name}:{at}: no line of a run: {row[:60]}")
    if not logs:
        raise Wrong(f"{name}:{len(rows)}: the text was cut: its last lines are those of the logs")
    return lines, sets, logs


def line_of(said, lines):
    """The number of the text's line that a fault names, or 0."""
    named = re.search(r"(?:line |at )(\d+)\.(\d+)", said)
    wanted = [int(part) for part in named.groups()] if named else None
    return next((at for at, line in enumerate(lines, 1) if line[:2] == wanted), 0)


def run_model(subcommand, words, name, source):
    """All that the page shows of a run."""
    run = Run(subcommand, words)
    lines, sets, logs = split(name, source)
    fault = run.check(source.encode())
    seats = sorted({line[0] for line in lines} | {log[0] for log in logs})
    commands = {seat: run.commands(seat) for seat in seats}
    for line in lines:
        own = commands[line[0]]
        line.append(own[line[1] - 1] if 0 < line[1] <= len(own) else "")
    faults = [{"line": line_of(fault, lines), "step": 0, "said": fault}] if fault else []
    return {
        "form": "run", "name": " ".join([subcommand, *map(short, words)]), "seats": seats, "base": run.options.base, "lines": lines, "sets": sets,
        "counts": COUNTS, "logs": logs, "faults": faults,
    }


def short(word):
    return pathlib.PurePath(word).name if "/" in word else word
