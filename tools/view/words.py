"""The shared words of a domain: their places, how they are packed, and what each says."""
from collections import namedtuple

UNSET = 2**63  # a stamp is unset from here on: so much and the position of its write set's first version
LINK = 2**57  # a link is (seat + 1) times this, and a position
NO_SLOT = 8191  # in CLOCK: a rest, or no entry yet
LAST = 2**45 - 1  # the last time
WORDS = 6  # of an object
OBJECT_PLACES = 1 + WORDS  # HEAD and MASTER
FIELDS = ("first", "stamp", "prev", "super")
SLOT_PLACES = len(FIELDS) + WORDS

# A word by its name. `of` is an object for head and master and else a seat; `slot` and `word` are None where there is none.
Place = namedtuple("Place", "name of slot word", defaults=(None, None, None))
Clock = namedtuple("Clock", "time seat slot")
Link = namedtuple("Link", "seat position")

CLOCK = Place("clock")
GRACE = Place("grace")


def head(number):
    return Place("head", number)


def master(number, word):
    return Place("master", number, None, word)


def mark(seat):
    return Place("mark", seat)


def field(name, seat, slot):
    return Place(name, seat, slot)


def data(seat, slot, word):
    return Place("data", seat, slot, word)


def clock_of(word):
    return Clock(word >> 19, word >> 13 & 63, word & NO_SLOT)


def clock_word(time, seat, slot):
    return time << 19 | seat << 13 | slot


def link_of(word):
    return Link(word // LINK - 1, word % LINK)


def link_word(seat, position):
    return (seat + 1) * LINK + position


def number_of(plan, place):
    """The number of a place, as a text prints it."""
    objects = 2 + plan.seats
    match place.name:
        case "clock":
            return 0
        case "grace":
            return 1
        case "mark":
            return 2 + place.of
        case "head":
            return objects + OBJECT_PLACES * place.of
        case "master":
            return objects + OBJECT_PLACES * place.of + 1 + place.word
    slot = objects + OBJECT_PLACES * plan.objects + SLOT_PLACES * (place.of * plan.slots + place.slot)
    return slot + (len(FIELDS) + place.word if place.name == "data" else FIELDS.index(place.name))


def name_of(place):
    """What a place is called, without the number of its word."""
    match place.name:
        case "clock" | "grace":
            return place.name.upper()
        case "mark":
            return f"MARK of seat {place.of}"
        case "head" | "master":
            return f"{place.name.upper()} of object {place.of}"
    return f"{place.name.upper()} of seat {place.of}'s slot {place.slot}"


def full_name(place):
    return name_of(place) if place.word is None else f"{name_of(place)}, word {place.word}"


def say_version(word):
    """A link in words."""
    if word == 0:
        return "the master"
    seat, position = link_of(word)
    return f"version {position} of seat {seat}"


def say_clock(word, base):
    time, seat, slot = clock_of(word)
    if slot != NO_SLOT:
        return f"time {time}: a commit of seat {seat}, from slot {slot} on"
    return f"time {time}: no entry yet" if time == base and seat == 0 else f"time {time}: a rest of seat {seat}"


def say_stamp(word):
    if word == 0:
        return "free"
    return f"unset, of the set from version {word - UNSET} on" if word >= UNSET else f"time {word}"


def say(place, word, base):
    """What a word says that stands at a place."""
    match place.name:
        case "clock":
            return say_clock(word, base)
        case "grace":
            return f"time {word}"
        case "mark":
            return f"in a section at time {word - 1} or later" if word else "outside"
        case "head" | "prev":
            return say_version(word)
        case "first":
            return f"version {word}"
        case "stamp":
            return say_stamp(word)
        case "super":
            return f"time {word}" if word else "none"
    return str(word)
