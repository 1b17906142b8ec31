"""What the tests of the viewer share: the plans and texts, and how a fault is told."""
import collections
import contextlib
import io
import pathlib
import sys

from view.command import main
from view.machine import Machine
from view.plan import read_plan

FEW = 10

Ran = collections.namedtuple("Ran", "status out err")


def view(*words):
    """What `./mvrlu view` with these words ends with, and what it writes."""
    with contextlib.redirect_stdout(io.StringIO()) as out, contextlib.redirect_stderr(io.StringIO()) as err:
        status = main([str(word) for word in words])
    return Ran(status, out.getvalue(), err.getvalue())


def samples(top):
    """Each plan of samples/replay with its stored text."""
    for path in sorted((pathlib.Path(top) / "samples/replay").glob("*.plan")):
        yield path.stem, read_plan(path.name, path.read_text()), path.with_suffix(".text").read_text()


def plans(scratch):
    """Each plan that tests/plans/write has written there, with its answers."""
    for path in sorted((pathlib.Path(scratch) / "plans").glob("*/*.plan")):
        yield path, read_plan(path.name, path.read_text()), path.with_suffix(".answers").read_text().splitlines()


def run_of(plan):
    """The machine behind a plan's run, and the events."""
    machine = Machine(plan)
    return machine, list(machine.run())


def finish(wrong, said):
    for line in wrong[:FEW]:
        print(f"view: {line}", file=sys.stderr)
    print(f"view: {said}")
    sys.exit(bool(wrong))
