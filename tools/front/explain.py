"""Says more than the line that the program wrote: which word, file or line was meant, why, and what to do.

As a program, `explain.py STATUS LINE WORD..` prints that for the status and the line that the program ended with, and the words
that it got.
"""

import os
import re
import stat
import sys

import plans
import scripts
from words import file_of, shown, wrong_word

MOST_BYTES = 1 << 20
MOST_SHOWN = 200
LIMITS = {
    "objects": "--objects takes 181 to 65535",
    "slots": "--slots takes 64 to 4096",
    "base": "--base takes 0 to 35184372088831",
    "number": "NUMBER is 0 to 18446744073709551615",
    "seat": "SEAT is 0 to 3",
    "seats": "SEATS is 1 to 8",
}


def visible(line):
    """The first bytes of a line, with other characters than printed ones made visible, as `cat -v` does."""
    made = ""
    for byte in line[:MOST_SHOWN]:
        high, low = ("M-" if byte >= 128 else ""), byte & 127
        if high + chr(low) == "\t":
            made += "\t"
        else:
            made += high + ("^" + chr(low ^ 64) if low < 32 or low == 127 else chr(low))
    return made


def read_lines(file, number):
    """The lines of a file up to this one, if it can be read a second time and has it."""
    try:
        if not stat.S_ISREG(os.stat(file).st_mode):
            return None
        with open(file, "rb") as it:
            lines = it.read(MOST_BYTES).split(b"\n")[:number]
    except OSError:
        return None
    return lines if len(lines) == number else None


def explain_line(words, file, number, fault):
    """The line that was meant, and what to do."""
    lines = read_lines(file, number)
    if lines is None:
        yield f"{shown(file)}:{number}: can't be read again, so the line isn't shown"
    else:
        yield f"{shown(file)}:{number}: {visible(lines[-1])}"
    if words[0] == "replay":
        hint = plans.hint(fault, lines)
    else:
        hint = scripts.hint(words[0], fault, lines and lines[-1])
    if hint:
        yield f"mvrlu: {hint}"


def explain_fault(file):
    """Why a file can't be read, in the system's words."""
    why = "could not be read"
    try:
        if not stat.S_ISFIFO(os.stat(file).st_mode):
            with open(file, "rb", buffering=0) as it:
                it.read(1)
    except OSError as error:
        why = error.strerror
    return f"{shown(file)}: {why}"


def explain_limit(words, limit, file):
    """The range of a number."""
    if limit in LIMITS:
        return f"mvrlu: {LIMITS[limit]}"
    if limit == "files":
        return f"mvrlu: {words[0]} takes 1 to 64 files"
    if limit.endswith("bytes"):
        return f"{shown(file)}: a script has at most 1048576 bytes"
    most = "a plan has at most 65536 steps" if words[0] == "replay" else "a script has at most 65536 commands"
    return f"{shown(file)}: {most}"


def explain(status, said, words):
    """The lines that stand behind the program's line."""
    number = re.search(r"script (\d+)", said)
    file = number and file_of(words, int(number[1]))
    line = re.search(r" line (\d+): (.*)", said)
    if status == 2 and said.startswith("usage:"):
        yield f"mvrlu: {wrong_word(words)}"
    elif status == 3 and line and file:
        yield from explain_line(words, file, int(line[1]), line[2])
    elif status == 4 and said.startswith("limit: ") and words:
        yield explain_limit(words, said.removeprefix("limit: ").rstrip("\n"), file or "")
    elif status == 5 and said.startswith("read fault: ") and file:
        yield explain_fault(file)


if __name__ == "__main__":
    for text in explain(int(sys.argv[1]), sys.argv[2], sys.argv[3:]):
        print(text)
