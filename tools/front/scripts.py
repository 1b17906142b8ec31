"""What to do about a faulty line of a script."""

from words import nearest, shown

SETS = "a SET is l0 to l9, h0 to h9 or t0 to t9"
KEYS = "a KEY is 0 to 4294967295"
VALUES = "a VALUE is 0 to 18446744073709551615"
SHAPES = {
    "add": "add SET KEY",
    "del": "del SET KEY",
    "has": "has SET KEY",
    "move": "move SET SET KEY",
    "pair": "pair SET SET KEY",
    "size": "size SET",
    "next": "next SET KEY",
    "put": "put SET KEY VALUE",
    "get": "get SET KEY",
    "begin": "begin",
    "end": "end",
    "format": "format N",
}
OF_FORMAT_2 = ("put", "get")
OF_BLOCKS = ("begin", "end")
OF_GROW = ("add", "del", "has", "next", "size")
OF_PLANS = ("seats", "objects", "slots", "base", "seat", "step")
PLAIN = {
    "bad key": KEYS,
    "bad value": VALUES,
    "same name twice": "a move takes two different sets",
    "nested block": "a block ends with a line `end` before the next one begins",
    "end without begin": "a block begins with a line `begin`",
    "empty block": "a block has 1 to 8 commands",
    "block too long": "a block has at most 8 commands",
    "not in a block": "size and next stand outside of blocks",
    "block without end": "the last block has no line `end`",
}
MARK = b"\xef\xbb\xbf"


def words_of(line):
    """The words of a line of a script or a plan, up to a comment."""
    found = []
    for word in line.removesuffix(b"\r").replace(b"\t", b" ").split(b" "):
        if word.startswith(b"#"):
            break
        if word:
            found.append(word.decode(errors="replace"))
    return found


def commands_of(kind):
    """The first words that lines of a script may have."""
    if kind == "grow":
        return OF_GROW
    return tuple(SHAPES) if kind == "block" else tuple(it for it in SHAPES if it not in OF_BLOCKS)


def unknown_command(kind, line):
    """What to do about a line whose first word isn't a command there."""
    if line.startswith(MARK):
        return "the file begins with a byte order mark: save it without one"
    word = next(iter(words_of(line)), "")
    if word == "format":
        return "the format stands once, in the first line with words"
    if kind == "grow" and word in SHAPES:
        return f"grow has the commands {', '.join(OF_GROW)} alone; {'block' if word in OF_BLOCKS else 'run'} has {word}"
    if word in OF_FORMAT_2:
        return "put and get are commands of format 2: let `format 2` be the first line with words"
    if word in OF_BLOCKS:
        return f"{word} is a line of a script of blocks: ./mvrlu block runs one"
    if word in OF_PLANS:
        return f"{word} is a line of a plan: ./mvrlu replay runs one"
    names = commands_of(kind)
    meant = nearest(word, names)
    if meant:
        return f"'{shown(word)}' isn't a command: did you mean {meant}?"
    return f"'{shown(word)}' isn't a command: they are {', '.join(it for it in names if it != 'format')}"


def hint(kind, fault, line):
    """What to do about a fault of a line, which may be unknown: one line, or nothing."""
    if fault in PLAIN:
        return PLAIN[fault]
    if fault == "unknown format":
        return "a script of a growing set has format 1 alone" if kind == "grow" else "the formats are 1 and 2"
    if fault == "unknown name":
        return "grow has the set h0 alone" if kind == "grow" else SETS
    if line is None:
        return None
    if b"\r" in line.removesuffix(b"\r"):
        return "lines that end with CR alone aren't told apart: end them with LF, or with CR and LF"
    if fault == "unknown command":
        return unknown_command(kind, line)
    if fault == "wrong number of words":
        shape = SHAPES.get(next(iter(words_of(line)), ""))
        return shape and f"the command is {shape}"
    return None
