"""The words of `./mvrlu view`."""
import json
import os
import pathlib
import subprocess
import sys

from .page import page_of
from .picture import picture_of
from .plan import read_plan
from .replay_model import replay_model
from .replay_text import read_text
from .runs import SUBCOMMANDS, run_model
from .wrong import Wrong, decoded, read

USAGE = """\
./mvrlu view [HOW] replay PLAN [TEXT]       a replay, step by step: of a stored TEXT, or of the one that `./mvrlu replay PLAN` prints
./mvrlu view [HOW] run|block|pool|grow WORD..
                                            a run with these words of `./mvrlu`, over the times of its history
HOW is any of
    --check        only whether the text holds: each fault is told with its line, and the status is 1
    --model        the JSON from which the page is drawn
    --svg STEP     the picture of one step of a replay
    --text FILE    a stored text of the run, in place of a new one
"""
PROGRAM = pathlib.Path(__file__).resolve().parent.parent.parent / "mvrlu"
TOLD = 20  # faults that are told; the page lists all
FINE, FAULTY, USED = 0, 1, 2
FORMS = ("--check", "--model")


class Usage(Exception):
    """Words that are out of form."""


class Words:
    """What the words ask for."""

    def __init__(self, words):
        self.form, self.step, self.text = "page", None, None
        while words and words[0].startswith("--"):
            words = self.take(words)
        if not words or words[0] not in ("replay", *SUBCOMMANDS):
            raise Usage
        self.subcommand, self.rest = words[0], words[1:]
        if self.subcommand == "replay":
            self.take_replay()
        elif not self.rest or self.form == "svg":
            raise Usage

    def take(self, words):
        """The first option, and the words behind it."""
        if words[0] in FORMS and self.form == "page":
            self.form = words[0][2:]
            return words[1:]
        if words[0] == "--svg" and len(words) > 1 and words[1].isdigit() and self.form == "page":
            self.form, self.step = "svg", int(words[1])
            return words[2:]
        if words[0] == "--text" and len(words) > 1 and self.text is None:
            self.text = words[1]
            return words[2:]
        raise Usage

    def take_replay(self):
        if len(self.rest) == 2 and self.text is None:
            self.rest, self.text = self.rest[:1], self.rest[1]
        if len(self.rest) != 1 or self.rest[0].startswith("-"):
            raise Usage

    def source(self):
        """The text's name, and the text: a stored one, or that of a new run."""
        if self.text is not None:
            return self.text, read(self.text)
        ran = subprocess.run([PROGRAM, self.subcommand, *self.rest], stdin=subprocess.DEVNULL, stdout=subprocess.PIPE, check=False)
        if ran.returncode:
            raise Wrong("no text was printed, so there is no page", ran.returncode)
        return "text", decoded("text", ran.stdout)

    def model(self):
        if self.subcommand != "replay":
            return run_model(self.subcommand, self.rest, *self.source())
        plan = read_plan(self.rest[0], read(self.rest[0]))
        return replay_model(pathlib.Path(self.rest[0]).stem, plan, read_text(*self.source()))


def tell(faults, name):
    """Each fault with its line. Faults of the run itself have none."""
    for fault in faults[:TOLD]:
        place = f"{name}:{fault['line']}" if fault["line"] else name
        print(f"view: {place}: {fault['said']}", file=sys.stderr)
    if len(faults) > TOLD:
        print(f"view: {name}: and {len(faults) - TOLD} more", file=sys.stderr)


def made_of(words):
    """The status, and what is printed."""
    model = words.model()
    if words.form == "svg" and words.step > len(model["steps"]):
        raise Wrong(f"{words.rest[0]}: it has {len(model['steps'])} steps, and no step {words.step}")
    tell(model["faults"], words.text or "text")
    match words.form:
        case "check":
            return FAULTY if model["faults"] else FINE, ""
        case "model":
            return FINE, json.dumps(model, separators=(",", ":")) + "\n"
        case "svg":
            return FINE, picture_of(model, words.step)
    return FINE, page_of(model)


def main(words):
    if len(words) == 1 and words[0] in ("help", "--help", "-h"):
        print(USAGE, end="")
        return FINE
    try:
        status, made = made_of(Words(words))
        sys.stdout.write(made)
        sys.stdout.flush()
        return status
    except Usage:
        print(USAGE, end="", file=sys.stderr)
        return USED
    except Wrong as wrong:
        print(f"view: {wrong}", file=sys.stderr)
        return wrong.status
    except BrokenPipeError:
        os.dup2(os.open(os.devnull, os.O_WRONLY), sys.stdout.fileno())
        return 6
