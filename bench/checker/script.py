"""Scripts: the commands of a text in the grammar, and those that a number and a seat generate."""
import re
from collections import namedtuple

from .catalogue import NAMES

Command = namedtuple("Command", "verb first second key value", defaults=(None, 0, 0))

# Verb: the names, and whether a key and a value follow.
WORDS = {
    "add": (1, True, False), "put": (1, True, True), "del": (1, True, False), "has": (1, True, False),
    "get": (1, True, False), "move": (2, True, False), "pair": (2, True, False), "size": (1, False, False),
    "next": (1, True, False),
}

MOST_IN_BLOCK = 8
GROWING_VERBS = ("add", "del", "has", "size", "next")


class NotAScript(Exception):
    """A line outside the grammar. The checker reads scripts that the program took, so it says no more of the fault."""


def number(word, digits, bound):
    if not re.fullmatch(rb"[0-9]{1,%d}" % digits, word) or int(word) > bound:
        raise NotAScript(f"number {word}")
    return int(word)


def words_of(line):
    """The words of a line before a comment, separated by spaces and tabs; one CR at its end is dropped."""
    words = []
    for word in re.split(rb"[ \t]+", line[:-1] if line.endswith(b"\r") else line):
        if word.startswith(b"#"):
            break
        if word:
            words.append(word)
    return words


def command(words, form):
    verb = words[0].decode("latin-1")
    if verb not in WORDS or (verb in ("put", "get") and form == 1):
        raise NotAScript(f"command {verb}")
    names, has_key, has_value = WORDS[verb]
    if len(words) != 1 + names + has_key + has_value:
        raise NotAScript(f"words {words}")
    found = [word.decode("latin-1") for word in words[1:1 + names]]
    if not all(name in NAMES for name in found) or (verb == "move" and found[0] == found[1]):
        raise NotAScript(f"names {found}")
    key = number(words[1 + names], 10, 2**32 - 1) if has_key else 0
    value = number(words[2 + names], 20, 2**64 - 1) if has_value else 0
    return Command(verb, found[0], found[1] if names == 2 else None, key, value)


def lines_of(text):
    """The words of each line that has some, behind a line that names the format, with that format."""
    form, first = 1, True
    for line in text.split(b"\n"):
        words = words_of(line)
        if not words:
            continue
        if first and words[0] == b"format":
            if len(words) != 2 or words[1] not in (b"1", b"2"):
                raise NotAScript(f"format {words}")
            form = int(words[1])
        else:
            yield words, form
        first = False


def parse(text):
    """The commands of a script's bytes."""
    return [command(words, form) for words, form in lines_of(text)]


def parse_grow(text):
    """The commands of a script of a growing set: some of those of format 1, and of one set alone."""
    commands = []
    for words, form in lines_of(text):
        found = command(words, form)
        if form != 1 or found.first != "h0" or found.verb not in GROWING_VERBS:
            raise NotAScript(f"of a growing set {words}")
        commands.append(found)
    return commands


def parse_blocks(text):
    """The blocks of a script of blocks: a list of commands for each, of which one outside `begin` and `end` is alone."""
    blocks, begun = [], None
    for words, form in lines_of(text):
        if words[0] in (b"begin", b"end"):
            if len(words) != 1 or (words[0] == b"begin") != (begun is None) or begun == []:
                raise NotAScript(f"block {words}")
            if begun:
                blocks.append(begun)
            begun = [] if words[0] == b"begin" else None
        elif begun is None:
            blocks.append([command(words, form)])
        else:
            begun.append(command(words, form))
            if len(begun) > MOST_IN_BLOCK or begun[-1].verb in ("size", "next"):
                raise NotAScript(f"in a block {words}")
    if begun is not None:
        raise NotAScript("a block without end")
    return blocks


class Pcg32:
    """PCG's XSH-RR generator of 64 bits of state, seeded as `pcg32_srandom_r` of its C code does."""

    MULTIPLIER = 6364136223846793005
    MASK = 2**64 - 1

    def __init__(self, state, stream):
        self.increment = (stream << 1 | 1) & self.MASK
        self.state = 0
        self.draw()
        self.state = (self.state + state) & self.MASK
        self.draw()

    def draw(self):
        old = self.state
        self.state = (old * self.MULTIPLIER + self.increment) & self.MASK
        word, turn = ((old >> 18 ^ old) >> 27) & 0xffffffff, old >> 59
        return (word >> turn | word << (-turn & 31)) & 0xffffffff


def generated(number, seat):
    """The 2,000 commands of a number and a seat. Each takes four words, also where it needs fewer."""
    source = Pcg32(number, seat)
    commands = []
    for _ in range(2000):
        kind, first, second, key = (source.draw() for _ in range(4))
        verb = ("add", "add", "add", "add", "del", "del", "has", "move")[kind % 8]
        first %= 30
        second = NAMES[(first + 1 + second % 29) % 30] if verb == "move" else None
        commands.append(Command(verb, NAMES[first], second, 4 * (key % 64) + seat))
    return commands


def generated_text(number, seat):
    return "".join(
        " ".join(str(word) for word in (c.verb, c.first, c.second, c.key) if word is not None) + "\n"
        for c in generated(number, seat))
