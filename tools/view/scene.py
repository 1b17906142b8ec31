"""What a reader sees behind a step, in words: a flat table of keys, each with a list of texts and numbers.

    clock        [what CLOCK says, its stamp, its time]                 grace    [its time]
    seat.S       [phase, MARK, call, where it stands, what it holds, low time, section's time]
    log.S        [first live position, next position]
    head.O       [what HEAD says, names of the chain's versions, names of those in no chain, where a freed slot is met]
    master.O     six words
    who.O        for each version's name, or `master`: [[seat, what it does there, whether it stands there], ..]
    sees.S.O     [name of the version that the section reads, or `master`, whether it is its own]; of a seat outside it says nothing
    version.S.P  [seat, position, slot, object, sort, note, STAMP, SUPER, six words]
"""
from .chains import chain_of, data_of, master_of, seen_by, stamp_of, version_of
from .words import CLOCK, GRACE, NO_SLOT, UNSET, clock_of, field, head, mark, say, say_stamp, say_version

MOST_SHOWN = 64  # objects
MASTER = "master"
MARK_AT, TIME_AT = 1, 6  # in the texts of a seat
STAMP_AT, SUPER_AT, WORDS_AT = 6, 7, 8  # in those of a version
SEES = ("seat {seat} at {time} reads this", "seat {seat}'s own")

# The sorts of versions, as a reader sees them, with what they are called.
SORTS = {
    "built": "being built", "held": "held, its stamp is unset", "named": "named by CLOCK, its stamp is unset", "stamped": "stamped",
    "dead": "dead from a time on", "free": "free",
}


def phase_of(seat):
    match seat.phase:
        case "outside":
            return "outside"
        case "low":
            return f"takes a section, low time {seat.low}"
        case "marked":
            return f"marked at {seat.low}, no time taken yet"
    return f"section at time {seat.time}" + (", its commit is named" if seat.phase == "named" else "")


def stands_of(seat):
    if seat.stand:
        return f"stands at {say_version(seat.stand[1])} of object {seat.stand[0]}"
    return f"writes object {seat.back.object} back" if seat.back else ""


def seat_text(machine, seat):
    held = ", ".join(str(version.object) for version in seat.held())
    word = machine.word(mark(seat.number))
    says = f"{word}: {say(mark(seat.number), word, 0)}"
    call = f"in {seat.call}" if seat.call else "between calls"
    return [phase_of(seat), says, call, stands_of(seat), f"holds object {held}" if held else "", seat.low, seat.time]


def clock_text(machine):
    word = machine.word(CLOCK)
    named = clock_of(word)
    stamp = ""
    if named.slot != NO_SLOT:
        unset = machine.word(field("stamp", named.seat, named.slot)) >= UNSET
        stamp = "not stamped yet" if unset else "stamped"
    return [say(CLOCK, word, machine.plan.base), stamp, named.time]


def sort_of(machine, version, stamp, newer):
    match version.state:
        case "built" | "held":
            return version.state
        case "given up":
            return "dead"
    return "named" if stamp >= UNSET else "dead" if version.dead or version.cut or newer else "stamped"


def note_of(version, sort, newer):
    dead = f", dead from time {version.dead} on" if version.dead else ""
    if version.state == "given up":
        return "given up" + dead
    if version.cut:
        return "cut" + dead
    if dead:
        return dead[2:]
    return f"written again at time {newer}" if newer else SORTS[sort]


def version_text(machine, version):
    """A version. While it is built it has no stamp of its own before its first words are stored."""
    newer = machine.word(field("super", version.seat, version.slot)) if version.state == "committed" else 0
    stamp = machine.word(field("stamp", version.seat, version.slot)) if version.state == "built" else stamp_of(machine, version)
    sort = sort_of(machine, version, stamp, newer)
    words = [str(word) for word in data_of(machine, version)]
    says = [note_of(version, sort, newer), say_stamp(stamp), str(newer) if newer else "none"]
    return [version.seat, version.position, version.slot, version.object, sort, *says, *words]


def walkers(machine, number):
    """Who stands at which version of an object, and who writes one back: for each, the seat, what it does, and whether it stands there."""
    found = {}

    def put(version, seat, says, stands):
        found.setdefault(version.name if version else MASTER, []).append([seat.number, says, stands])

    for seat in machine.seats:
        if seat.stand and seat.stand[0] == number:
            at = version_of(machine, seat.stand[1]) if seat.stand[1] else None
            if at or not seat.stand[1]:
                put(at, seat, f"seat {seat.number} stands here", True)
        if seat.back and seat.back.object == number:
            put(seat.back, seat, f"written back {seat.back.backed} of 6", False)
            if 0 < seat.back.backed < 6:
                put(None, seat, f"half written by seat {seat.number}", False)
    return found


def people(table, seats, number):
    """All who are at an object: who reads which version, whose own it is, who stands there, and who writes it back."""
    found = {name: list(some) for name, some in table[f"who.{number}"].items()}
    for seat in range(seats):
        name, own = table.get(f"sees.{seat}.{number}", (None, 0))
        time = table[f"seat.{seat}"][TIME_AT]
        if name and time is not None:
            found.setdefault(name, []).append([seat, SEES[own].format(seat=seat, time=time), False])
    return found


class Scene:
    """Keeps the table of a machine, and tells what of it a step changes."""

    def __init__(self, machine):
        self.machine, self.table, self.changes = machine, {}, {}
        self.shown = {}  # of each object that is shown: the names of its versions
        self.beyond = set()  # objects that aren't shown, since so many are
        self.put_clock()
        for seat in machine.seats:
            self.put_seat(seat)

    def put(self, key, texts):
        if self.table.get(key) != texts:
            self.table[key] = self.changes[key] = texts

    def put_clock(self):
        self.put("clock", clock_text(self.machine))
        self.put("grace", [self.machine.word(GRACE)])

    def put_seat(self, seat):
        self.put(f"seat.{seat.number}", seat_text(self.machine, seat))
        self.put(f"log.{seat.number}", [seat.freed, len(seat.log)])

    def put_object(self, number, changed):
        machine = self.machine
        chain, freed = chain_of(machine, number)
        apart = [version for version in machine.live_versions(number) if version not in chain]
        names = [[version.name for version in some] for some in (chain, apart)]
        self.put(f"head.{number}", [say_version(machine.word(head(number))), *names, say_version(freed) if freed else ""])
        self.put(f"master.{number}", [str(word) for word in master_of(machine, number)])
        for version in chain + apart:
            key = f"version.{version.name}"
            if version in changed or key not in self.table or self.table[key][3] != number:
                self.put(key, version_text(machine, version))
        self.put(f"who.{number}", walkers(machine, number))
        for seat in machine.seats:
            if seat.time is not None:
                self.put_sees(seat, number)
        return set(names[0] + names[1])

    def put_sees(self, seat, number):
        """What a section sees of an object: a version, or the master."""
        seen = seen_by(self.machine, seat, number)
        if seen is not False:
            own = int(seen is not None and seen is seat.holds(number))
            self.put(f"sees.{seat.number}.{number}", [seen.name if seen else MASTER, own])

    def step(self, seat, touched, versions, begins):
        """What is seen behind a step of a seat that touched these objects and versions, or that begins a section, and behind the
        answers that come then: what has changed."""
        self.changes, gone = {}, set()
        self.put_clock()
        self.put_seat(self.machine.seats[seat])
        for number in sorted(touched):
            if number not in self.shown and len(self.shown) == MOST_SHOWN:
                self.beyond.add(number)
                continue
            before = self.shown.get(number, set())
            self.shown[number] = self.put_object(number, versions)
            gone |= before - self.shown[number]
        if begins:
            for other in self.shown:
                self.put_sees(self.machine.seats[seat], other)
        for name in gone - set().union(*self.shown.values()) if gone else ():
            self.changes[f"version.{name}"] = None
            del self.table[f"version.{name}"]
        return self.changes
