"""Runs the words of ./mvrlu before anything is proved, by `rt try`, which has the sources run with checks at run time.

`unproved.py absent WORD..` or `unproved.py older WORD..` ends as the proved program would: with its status, its text on standard
output and its line on standard error, behind which stands the same as behind that of the proved one. It keeps nothing.
`rt try` runs the program in a folder of its own. So each file is copied under a number, as far as the program would read it.
"""

import os
import re
import subprocess
import sys
import tempfile
from pathlib import Path

from explain import explain
from signals import end_at_signals, run_to_end
from words import is_text, name_of, places_of_files

TOP = Path(__file__).resolve().parents[2]
PROGRAM = TOP / "crates/mvrlu_main"
MOST_BYTES = 1 << 20
REASONS = {
    "absent": "the program isn't proved yet: this runs it unproved, with checks, about half a minute each time; "
    "./mvrlu build proves and builds it",
    "older": "the proved program is older than its sources: this runs them unproved, with checks, about half a minute each time; "
    "./mvrlu build proves and builds them",
}
# What `rt try` writes behind the program's own lines.
ENDED = re.compile(rb"(?:^interpreter: .*\n)?^checked: ended .*\n^races: .*\n^run=ended status=(\d+) .*proved=no\n\Z", re.M)
# What it writes ahead of them by itself.
OF_RT = re.compile(rb"^rt: .*\n", re.M)


class Unanswered(Exception):
    """An unproved run can't do this: what, in one line."""


def say(text):
    print(f"mvrlu: {text}", file=sys.stderr, flush=True)


def open_closed_streams():
    """Opens those of the three streams that are closed, so that no other file gets their numbers: each read or write there fails."""
    for number, flags in ((0, os.O_WRONLY), (1, os.O_RDONLY), (2, os.O_RDWR)):
        try:
            os.fstat(number)
        except OSError:
            os.dup2(os.open(os.devnull, flags), number)
    sys.stderr = sys.stderr or open(2, "w", errors="backslashreplace", closefd=False)


def copy_files(words, room):
    """The words with a number for each file, and the copies by number, up to the first that the program can't read whole."""
    given, copies, whole = list(words), {}, True
    for at in places_of_files(words):
        file = name_of(words[at])
        if not file or file.startswith("-"):
            continue
        given[at] = str(at)
        if whole:
            whole = copy_file(file, room / given[at])
        if (room / given[at]).exists():
            copies[given[at]] = room / given[at]
    return given, copies


def copy_file(file, copy):
    """Copies a file, as far as the program reads it, and tells whether that is all. A file that can't be read has no copy."""
    try:
        with open(file, "rb") as source:
            text = source.read(MOST_BYTES + 1)
    except OSError:
        return False
    copy.write_bytes(text)
    return len(text) <= MOST_BYTES


def call_rt(words, copies):
    """Calls `rt try`, and gives its status and what it wrote. A signal that ends this ends it too."""
    data = [it for name, copy in copies.items() for it in ("--data", f"{name}={copy}")]
    how = {"stdin": subprocess.DEVNULL, "stdout": subprocess.PIPE, "stderr": subprocess.PIPE, "start_new_session": True}
    try:
        tried = subprocess.Popen(["rt", "try", *data, "--", *words], cwd=PROGRAM, **how)
    except OSError as error:
        raise Unanswered(f"rt does not start ({error.strerror}): this needs the Rattle kit, with rt on the path") from error

    def stop():
        tried.terminate()
        tried.wait()

    end_at_signals(stop)
    text, said = tried.communicate()
    return tried.returncode, text, said


def outcome(returned, said):
    """The status and the line of the program, where it ended, out of the status of `rt try` and what it wrote."""
    ended = ENDED.search(said)
    if ended and int(ended[1]) == returned:
        return returned, OF_RT.sub(b"", said[: ended.start()])
    if b"the program wrote more than" in said:
        raise Unanswered("the text has more than 1 MiB, too much for an unproved run: ./mvrlu build proves and builds the program")
    if b"did not end within the time limit" in said:
        raise Unanswered("it takes more than 60 s, too long for an unproved run: ./mvrlu build proves and builds the program")
    sys.stderr.buffer.write(said)
    if b"run=fault" in said:
        raise Unanswered("a check at run time failed: ./mvrlu build shows what can't be proved")
    raise Unanswered("the sources could not be run unproved, as said above: ./mvrlu build proves and builds the program")


def write_text(text):
    """Writes the program's text."""
    try:
        while text:
            text = text[os.write(1, text) :]
    except OSError as error:
        raise Unanswered(f"the text could not be written ({error.strerror}): ./mvrlu build proves and builds the program") from error


def run(words):
    """Runs the words, and gives the status."""
    with tempfile.TemporaryDirectory(prefix="mvrlu-") as room:
        # A word that isn't text makes all of them out of form, as no words are.
        given, copies = copy_files(words, Path(room)) if all(map(is_text, words)) else ([], {})
        returned, text, said = call_rt(given, copies)
    status, line = outcome(returned, said)
    write_text(text)
    sys.stderr.buffer.write(line)
    for more in explain(status, line.decode(errors="replace"), words):
        print(more, file=sys.stderr)
    return status


def main():
    open_closed_streams()
    say(REASONS[sys.argv[1]])
    try:
        return run(sys.argv[2:])
    except Unanswered as what:
        say(what)
        return 1


if __name__ == "__main__":
    sys.exit(run_to_end(main))
