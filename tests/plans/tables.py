"""Reads the tables of schedules of crates/runtime_tests: the constants of its files in Rust, as they stand there.

A table may go on in stops/TABLE.rows, with schedules that stop a seat within a call, in the same form: `FirstOf` names the call, and
how many steps of it are made, at least and at most. No call of Rust stops so, and so these rows are run as plans alone."""
import operator
import re
from collections import namedtuple
from functools import cache
from pathlib import Path

CRATES = Path(__file__).resolve().parents[2] / "crates"
TABLES = CRATES / "runtime_tests/src"
STOPS = Path(__file__).resolve().parent / "stops"

# What a name stands for, with its arguments, as in `Busy(0)`, or with its fields. Arrays and tuples are both tuples of Python.
Term = namedtuple("Term", "name arguments fields", defaults=((), {}))
# A schedule: its table and name, the numbers of its domain by name, its turns (seat, move, answer), and what CLOCK is behind them
# where the table has that beside the turns.
Schedule = namedtuple("Schedule", "table name domain turns clock")

TOKEN = re.compile(r'\s+|//[^\n]*|(?P<token>"[^"]*"|\w+|::|\.\.|<<|.)')
CONSTANT = re.compile(r"^(pub\S* )?(?:const|static) (\w+): [^=]*= (.*?);$", re.DOTALL | re.MULTILINE)
# A macro that repeats rows: with one literal for all of them, and one for each time.
MACRO = re.compile(r"^macro_rules! (\w+) {\s+\(\$(\w+):literal; \$\(\$(\w+):literal\)\*\) => {\s+\[\$\((.*?)\)\*\]", re.DOTALL | re.MULTILINE)
OPERATORS = {"<<": operator.lshift}, {"+": operator.add, "-": operator.sub}, {"*": operator.mul}


@cache
def constants(path):
    """The constants of a file, by name: whether others may use it, and its text. Those of its stops are among them."""
    files = [path, STOPS / f"{path.stem}.rows"]
    found = [constant for file in files if file.exists() for constant in CONSTANT.findall(file.read_text())]
    return {name: (bool(public), text) for public, name, text in found}


@cache
def value_of(path, name):
    """The value of a constant of a file, or of the only one of that name that the file may use."""
    if name in constants(path):
        return Reader(path, constants(path)[name][1]).value()
    public = [file for file in (*TABLES.glob("*.rt"), *CRATES.glob("mv_layout/src/*.rt")) if constants(file).get(name, [False])[0]]
    if len(public) != 1:
        raise ValueError(f"{path.name}: there are {len(public)} constants {name}")
    return value_of(public[0], name)


class Reader:
    """Reads a value from the text of a file."""

    def __init__(self, path, text):
        self.path = path
        self.left = [match["token"] for match in TOKEN.finditer(text) if match["token"]][::-1]

    def at(self, token):
        return self.left[-1:] == [token]

    def take(self, wanted=None):
        """The next word or sign, which has to be the wanted one."""
        token = self.left.pop() if self.left else "the end"
        if wanted not in (None, token):
            raise ValueError(f"{self.path.name}: {token} stands where {wanted} should")
        return token

    def value(self, level=0):
        """A number from operators of this level or of those behind it, or one operand."""
        if level == len(OPERATORS):
            return self.operand()
        value = self.value(level + 1)
        while self.left and self.left[-1] in OPERATORS[level]:
            value = OPERATORS[level][self.take()](value, self.value(level + 1))
        return value

    def operand(self):
        token = self.take()
        if token == "&":
            return self.operand()
        if token == "(":
            values, comma = self.values(")")
            return values if comma else values[0]
        if token == "[":
            return self.values("]")[0]
        if token.startswith('"'):
            return token[1:-1]
        return int(token) if token.isdigit() else self.named(token)

    def values(self, end):
        """Values up to this sign, and whether a comma stands there; `value; count` is one value so many times."""
        values, comma = [], False
        while not self.at(end):
            values.append(self.value())
            if self.at(";"):
                self.take()
                values *= self.value()
            elif not self.at(end):
                self.take(",")
                comma = True
        self.take(end)
        return tuple(values), comma

    def named(self, name):
        """What a path stands for: the rows of a macro, a term or a constant."""
        while self.at("::"):
            self.take()
            name = self.take()
        if self.at("!"):
            return self.repeated(name)
        if self.at("("):
            self.take()
            return Term(name, self.values(")")[0])
        if self.at("{"):
            return Term(name, (), self.fields())
        return value_of(self.path, name) if name.isupper() else Term(name)

    def fields(self):
        """The fields of a structure, over those of the one that stands behind `..`."""
        fields, base = {}, {}
        self.take("{")
        while not self.at("}"):
            name = self.take()
            if name == "..":
                base = self.value().fields
            else:
                self.take(":")
                fields[name] = self.value()
            if not self.at("}"):
                self.take(",")
        self.take("}")
        return base | fields

    def repeated(self, name):
        """The rows of a macro, for each literal behind the first one."""
        macros = {name: parts for name, *parts in MACRO.findall(self.path.read_text())}
        one, each, rows = macros[name]
        self.take("!")
        self.take("(")
        given = self.take()
        self.take(";")
        literals = iter(self.take, ")")
        return Reader(self.path, "[" + "".join(rows.replace(f"${one}", given).replace(f"${each}", it) for it in literals) + "]").value()


def schedules():
    """All schedules, table by table."""
    for path in sorted(TABLES.glob("*.rt")):
        for name in [name for name, (_, text) in constants(path).items() if "Schedule {" in text]:
            for row in value_of(path, name):
                schedule = row.fields.get("schedule", row).fields
                turns = [turn for part in schedule["turns"] for turn in part]
                yield Schedule(path.stem, schedule["name"], schedule["domain"].fields, turns, row.fields.get("clock"))
