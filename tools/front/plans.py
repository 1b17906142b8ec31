"""What to do about a faulty line of a plan."""

from scripts import MARK, OF_BLOCKS, OF_PLANS, SHAPES, words_of
from words import is_number, nearest, shown

HEADS = {"seats": "1 to 64", "objects": "1 to 1024", "slots": "64 to 256", "base": "0 to 35184372088831"}
CALLS = {
    "enter": "enter",
    "read": "read OBJECT",
    "lock": "lock OBJECT",
    "write": "write OBJECT and six words",
    "commit": "commit",
    "abort": "abort",
    "leave": "leave",
    "tidy": "tidy",
}
WITH_OBJECT = ("read", "lock", "write")


def heads_of(lines):
    """The numbers of the first lines of a plan, as far as they come in their order."""
    found = {}
    for words in filter(None, map(words_of, lines)):
        if len(found) == len(HEADS) or words[0] != list(HEADS)[len(found)]:
            break
        found[words[0]] = int(words[1]) if len(words) > 1 and is_number(words[1]) else 0
    return found


def missing_head(lines, word):
    """What the first lines lack, where the last of these lines has this first word, or where the text ends with it."""
    heads = heads_of(lines)
    if len(heads) == len(HEADS):
        return None
    wanted = list(HEADS)[len(heads)]
    where = "is missing" if not word or word in heads else f"stands before '{shown(word)}'"
    return f"a plan begins with the lines seats N, objects N, slots N and base N: {wanted} N {where}"


def unknown_word(words, lines):
    """What to do about a line with an unknown word."""
    word = words[0] if words else ""
    if lines and lines[0].startswith(MARK):
        return "the file begins with a byte order mark: save it without one"
    if word in SHAPES:
        return f"{word} is a line of a script: ./mvrlu {'block' if word in OF_BLOCKS else 'run'} runs one"
    lacks = missing_head(lines, word)
    if lacks and (not word or word in OF_PLANS):
        return lacks
    if word in HEADS:
        return f"{word} N stands once, among the four first lines"
    if word == "seat":
        meant = nearest(words[2], CALLS) if len(words) > 2 else None
        return f"the calls are {', '.join(CALLS)}" if not meant else f"'{shown(words[2])}' isn't a call: did you mean {meant}?"
    meant = nearest(word, OF_PLANS)
    if meant:
        return f"'{shown(word)}' isn't a line of a plan: did you mean {meant}?"
    return f"'{shown(word)}' isn't a line of a plan: they are {', '.join(OF_PLANS)}"


def range_of_seats(heads):
    return f"the seats are 0 to {heads['seats'] - 1}"


def wrong_number(words, heads):
    """The range of the number that is wrong in a line, or of those that may be."""
    word = words[0]
    if word in HEADS:
        return f"{word} takes {HEADS[word]}"
    if len(heads) < len(HEADS):
        return None
    seats = range_of_seats(heads)
    if word != "seat" or not (is_number(words[1]) and int(words[1]) < heads["seats"]):
        return seats
    objects = f"the objects are 0 to {heads['objects'] - 1}"
    at_object = len(words) > 3 and words[2] in WITH_OBJECT
    if at_object and is_number(words[3]) and int(words[3]) < heads["objects"]:
        return "the words of a write are 0 to 18446744073709551615"
    return objects


def wrong_count(words):
    """How the line is written that has too few or too many words."""
    word = words[0]
    if word in HEADS:
        return f"the line is {word} N"
    if word == "step":
        return "the line is step and one or more seats"
    if len(words) > 2 and words[2] in CALLS:
        return f"the line is seat S {CALLS[words[2]]}"
    return "the line is seat S and a call"


def hint(fault, lines):
    """What to do about a fault of the last of these lines, all up to it: one line, or nothing."""
    if not lines:
        return None
    words = words_of(lines[-1])
    if fault == "unknown command":
        return unknown_word(words, lines)
    if not words:
        return None
    return wrong_number(words, heads_of(lines[:-1])) if fault == "bad number" else wrong_count(words)
