"""Facts of docs/RULE.md, looked at behind each step on the words that stand there."""
from .chains import chain_of, data_of, is_live, master_of, seen_by, stamp_of, version_of
from .words import GRACE, UNSET, mark

# What each fact says.
FACTS = {
    "grace": "GRACE isn't above the time of any section, nor of CLOCK",
    "marks": "in a section MARK is 1 more than a time that isn't above the section's",
    "stamps": "a committed set is stamped with its time, or unset and named by CLOCK",
    "chains": "a chain has versions of its object, the latest first",
    "read": "each section past its help finds the words of its time, of each object",
    "walker-place": "nobody stands at a slot that was freed",
    "helped-words": "CLOCK moves on only past an entry that names no commit, or a stamped one",
}


def grace_holds(machine):
    grace = machine.word(GRACE)
    return grace <= machine.time() and all(seat.time is None or grace <= seat.time for seat in machine.seats)


def marks_hold(machine):
    return all(seat.time is None or 0 < machine.word(mark(seat.number)) <= seat.time + 1 for seat in machine.seats)


def stamps_hold(machine, chain):
    now = machine.time()
    for version in chain:
        stamp = stamp_of(machine, version)
        if stamp != version.time and (stamp < UNSET or version.state == "committed" and version.time != now):
            return False
    return True


def is_chain(chain, number):
    times = [version.time or 2**64 for version in chain]
    return all(version.object == number for version in chain) and times == sorted(times, reverse=True)


def reads_hold(machine, number, seats):
    """What the sections of these seats read of an object are its words in the history's state of their time."""
    for seat in seats:
        if seat.time is None or not seat.helped or seat.holds(number):
            continue
        seen = seen_by(machine, seat, number)
        if seen is False:
            return False
        found = data_of(machine, seen) if seen else master_of(machine, number)
        if found != machine.state_at(number, seat.time):
            return False
    return True


def walkers_stand(machine):
    return all(not (seat.stand and seat.stand[1]) or version_of(machine, seat.stand[1]) for seat in machine.seats)


def last_is_stamped(machine):
    """Of the entry before the last one: if it is a commit, its live versions have its time."""
    entry = machine.history[-2] if len(machine.history) > 1 else machine.history[0]
    return all(stamp_of(machine, version) == entry.time for version in entry.versions if is_live(machine, version))


def broken(machine, numbers):
    """The names of the facts that don't hold, of these objects and of all seats."""
    found = [] if grace_holds(machine) else ["grace"]
    if not marks_hold(machine):
        found.append("marks")
    if not walkers_stand(machine):
        found.append("walker-place")
    if not last_is_stamped(machine):
        found.append("helped-words")
    for number in numbers:
        chain, _ = chain_of(machine, number)
        if not is_chain(chain, number):
            found.append("chains")
        if not stamps_hold(machine, chain):
            found.append("stamps")
        if not reads_hold(machine, number, machine.seats):
            found.append("read")
    return found
