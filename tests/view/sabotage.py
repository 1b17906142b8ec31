"""Stored texts with one thing changed at random: each has to be refused. No exception is known.

A changed text that is the stored one after all, as where the second of two idle turns is doubled and one dropped, isn't counted."""
import random
import sys

from given import finish, run_of, samples
from view.checks import check_text
from view.replay_text import read_text
from view.wrong import Wrong

TRIES = 1000
rng = random.Random(41)


def other_number(words):
    spots = [at for at, word in enumerate(words) if word.isdigit()]
    at = rng.choice(spots)
    by = rng.choice([1, -1, 2, 10, 2**13, 2**19, 2**57])
    return [*words[:at], str(abs(int(words[at]) + by)), *words[at + 1:]]


def other_word(words):
    swaps = {"won": "lost", "lost": "won", "held": "busy 0", "load": "store", "store": "load", "swap": "max", "done": "end", "mark": "fresh"}
    spots = [at for at, word in enumerate(words) if word in swaps]
    if not spots:
        return other_number(words)
    at = rng.choice(spots)
    return [*words[:at], swaps[words[at]], *words[at + 1:]]


def changed(lines):
    """The lines with one word, step or answer changed, dropped, doubled or moved."""
    at, how = rng.randrange(len(lines)), rng.choice(["number", "number", "word", "drop", "double", "move", "take"])
    before, line, behind = lines[:at], lines[at], lines[at + 1:]
    match how:
        case "number":
            return [*before, " ".join(other_number(line.split())), *behind]
        case "word":
            return [*before, " ".join(other_word(line.split())), *behind]
        case "drop":
            return before + behind
        case "double":
            return [*before, line, line, *behind]
        case "move":
            return [*before, *behind[:1], line, *behind[1:]]
    return [*before, rng.choice(lines), *behind]


def verdict(plan, events, text):
    """How a text is refused, or nothing where it is taken."""
    try:
        return "told in a list" if check_text(plan, events, read_text("text", text)) else None
    except Wrong:
        return "no text of a replay"


wrong, refused = [], {"told in a list": 0, "no text of a replay": 0}
given = [(name, plan, run_of(plan)[1], text) for name, plan, text in samples(sys.argv[1])]
for number in range(TRIES):
    name, plan, events, text = given[number % len(given)]
    lines = text.splitlines()
    other = changed(lines)
    while other == lines:
        other = changed(lines)
    how = verdict(plan, events, "".join(f"{line}\n" for line in other))
    if how:
        refused[how] += 1
    else:
        wrong.append(f"{name}: a changed text is taken: {set(other) ^ set(lines)}")
finish(wrong, f"{sum(refused.values())} of {TRIES} changed texts are refused: " + ", ".join(f"{count} {how}" for how, count in refused.items()))
