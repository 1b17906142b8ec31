"""The words of the command line: where the files stand among them, and which word is wrong where they are out of form."""

import os

SUBCOMMANDS = ("run", "gen", "work", "block", "pool", "grow", "replay")
OF_THE_FRONT = ("build", "help", "install", "new", "uninstall", "view")
OPTIONS = {"--objects": "181 to 65535", "--slots": "64 to 4096", "--base": "0 to 35184372088831"}
SHAPES = {
    "run": "run takes options and 1 to 64 files: run [--objects N] [--slots N] [--base N] FILE..",
    "gen": "gen takes two numbers: gen NUMBER SEAT",
    "work": "work takes one number: work NUMBER",
    "block": "block takes 1 to 64 files: block FILE..",
    "pool": "pool takes a number and one file: pool SEATS FILE",
    "grow": "grow takes 1 to 64 files: grow FILE..",
    "replay": "replay takes one file: replay FILE",
}
MOST_DIGITS = 20
MOST_SHOWN = 60


def shown(word):
    """A word as a message has it: on one line, and not too long."""
    text = os.fsencode(word).decode(errors="backslashreplace")
    text = "".join(it if it.isprintable() else ascii(it)[1:-1] for it in text)
    return text if len(text) <= MOST_SHOWN else text[:MOST_SHOWN] + ".."


def is_text(word):
    """Whether a word of the command line is UTF-8."""
    try:
        os.fsencode(word).decode()
    except UnicodeDecodeError:
        return False
    return True


def is_number(word):
    return len(word) <= MOST_DIGITS and word.isascii() and word.isdigit()


def distance(left, right):
    """How many letters are to be changed, put in, left out or exchanged with the next one to make one word the other."""
    before, row = None, list(range(len(right) + 1))
    for at, letter in enumerate(left):
        made = [at + 1]
        for to, other in enumerate(right):
            best = min(row[to] + (letter != other), row[to + 1] + 1, made[to] + 1)
            if at and to and letter == right[to - 1] and left[at - 1] == other:
                best = min(best, before[to - 1] + 1)
            made.append(best)
        before, row = row, made
    return row[-1]


def nearest(word, names):
    """The name that a word most likely stands for, if one is near."""
    word = word[:MOST_SHOWN]
    found = min(names, key=lambda name: distance(word.lower(), name))
    most = 2 if len(found) > 3 else 1
    return found if distance(word.lower(), found) <= most else None


def places_of_files(words):
    """The places of the words that name files, where a file may stand: also in words that are out of form elsewhere."""
    kind = words[0] if words else None
    if kind == "run":
        at = 1
        while at < len(words) and words[at].startswith("--"):
            at += 2
        return range(at, len(words))
    if kind in ("block", "grow", "replay"):
        return range(1, len(words))
    return range(2, len(words)) if kind == "pool" else range(0)


def name_of(word):
    """The file that a word names: a lone dash is standard input."""
    return "/dev/stdin" if word == "-" else word


def file_of(words, number):
    """The name of the file that is a script's number, or nothing."""
    places = places_of_files(words)
    return name_of(words[places[number]]) if number < len(places) else None


def wrong_subcommand(word):
    meant = nearest(word, SUBCOMMANDS + OF_THE_FRONT)
    if meant:
        return f"'{shown(word)}' isn't a subcommand: did you mean {meant}?"
    if os.path.isfile(word):
        return f"'{shown(word)}' isn't a subcommand: ./mvrlu run FILE.. runs scripts"
    return f"'{shown(word)}' isn't a subcommand: they are {', '.join(SUBCOMMANDS)}; ./mvrlu help says more"


def wrong_dash(word, kind):
    """What is wrong with a word that begins with a dash, where a file or an option is wanted."""
    name, equals, value = word.partition("=")
    if kind != "run":
        return f"'{shown(word)}' isn't a FILE, and {kind} takes no options: a file of that name is ./{shown(word)}"
    if equals and name in OPTIONS:
        return f"'{shown(word)}' is one word: an option and its value are two, {name} {shown(value)}"
    meant = nearest(name, OPTIONS)
    if meant:
        return f"'{shown(word)}' isn't an option: did you mean {meant}?"
    return f"'{shown(word)}' isn't an option: they are {', '.join(OPTIONS)}; a file of that name is ./{shown(word)}"


def wrong_number(word, name):
    return f"'{shown(word)}' isn't a number: {name} is 1 to {MOST_DIGITS} decimal digits"


def wrong_option(words):
    """The first wrong word among the options of `run`, or nothing."""
    given, at = set(), 1
    while at < len(words) and words[at].startswith("-") and words[at] != "-":
        word = words[at]
        if word not in OPTIONS:
            return wrong_dash(word, "run")
        if word in given:
            return f"'{word}' stands twice"
        if at + 1 == len(words):
            return f"'{word}' has no value behind it: it takes {OPTIONS[word]}"
        if not is_number(words[at + 1]):
            return f"'{shown(words[at + 1])}' isn't a number: {word} takes {OPTIONS[word]}"
        given.add(word)
        at += 2
    return None


def wrong_file(words, most):
    """The first wrong word among the files, or nothing."""
    kind, places = words[0], places_of_files(words)
    for at in places[:most]:
        word = words[at]
        if not word:
            return f"an empty word isn't a FILE: {SHAPES[kind]}"
        if word in OPTIONS:
            return f"'{word}' stands behind a file: options stand before the files" if kind == "run" else wrong_dash(word, kind)
        if word.startswith("-") and word != "-":
            return wrong_dash(word, kind)
    if most < len(places):
        return f"'{shown(words[places[most]])}' is one word too many: {SHAPES[kind]}"
    return None if places else SHAPES[kind]


def wrong_numbers(words, names, also=0):
    """The first wrong word where numbers of these names are wanted, and so many words behind them."""
    for word, name in zip(words[1:], names):
        if not is_number(word):
            return wrong_number(word, name)
    if len(words) < 1 + len(names):
        return SHAPES[words[0]]
    if not also and len(words) > 1 + len(names):
        return f"'{shown(words[1 + len(names)])}' is one word too many: {SHAPES[words[0]]}"
    return None


def wrong_word(words):
    """What is wrong with words that are out of form: the first wrong one, and the nearest right one."""
    if not words:
        return f"name a subcommand: {', '.join(SUBCOMMANDS)}; ./mvrlu help says more"
    bad = next((word for word in words if not is_text(word)), None)
    if bad is not None:
        return f"'{shown(bad)}' isn't UTF-8 text"
    kind = words[0]
    if kind not in SUBCOMMANDS:
        return wrong_subcommand(kind)
    found = {
        "run": lambda: wrong_option(words) or wrong_file(words, len(words)),
        "gen": lambda: wrong_numbers(words, ("NUMBER", "SEAT")),
        "work": lambda: wrong_numbers(words, ("NUMBER",)),
        "pool": lambda: wrong_numbers(words, ("SEATS",), 1) or wrong_file(words, 1),
        "replay": lambda: wrong_file(words, 1),
    }.get(kind, lambda: wrong_file(words, len(words)))()
    return found or f"{SHAPES[kind]}; ./mvrlu help says more"
