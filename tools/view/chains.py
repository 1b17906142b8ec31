"""Where the words lead: the chain of an object, and what a section sees from a link on. A chain that runs in a circle, as none of the
rule does, is followed once."""
from .words import UNSET, WORDS, data, field, head, link_of, master


def is_live(machine, version):
    """A write set stops being live as a whole at the first of its frees."""
    return machine.seats[version.seat].freed <= version.first


def version_of(machine, link):
    """The live version that a link names, or None where its set was freed."""
    seat, position = link_of(link)
    log = machine.seats[seat].log
    version = log[position] if position < len(log) else machine.seats[seat].built
    return version if version and version.position == position and is_live(machine, version) else None


def stamp_of(machine, version):
    """The stamp of a version: that of its write set's first slot."""
    seat = machine.seats[version.seat]
    first = machine.word(field("first", version.seat, version.slot))
    return machine.word(field("stamp", version.seat, seat.slot(first)))


def data_of(machine, version):
    return [machine.word(data(version.seat, version.slot, word)) for word in range(WORDS)]


def master_of(machine, number):
    return [machine.word(master(number, word)) for word in range(WORDS)]


def chain_of(machine, number):
    """The versions of an object from HEAD down, and the link to a freed one at which a new walk would end, or 0."""
    chain, link = [], machine.word(head(number))
    while link and len(chain) <= len(machine.in_slot):
        version = version_of(machine, link)
        if version is None:
            return chain, link
        chain.append(version)
        link = machine.word(field("prev", version.seat, version.slot))
    return chain, 0


def seen_from(machine, link, time):
    """What a section at a time sees from a link on: a version, None for the master, or False where it meets a freed slot."""
    for _ in range(len(machine.in_slot)):
        if link == 0:
            return None
        version = version_of(machine, link)
        if version is None:
            return False
        if stamp_of(machine, version) <= time < UNSET:
            return version
        link = machine.word(field("prev", version.seat, version.slot))
    return None if link == 0 else False


def seen_by(machine, seat, number):
    """What the section of a seat sees of an object; what it holds is its own."""
    return seat.holds(number) or seen_from(machine, machine.word(head(number)), seat.time)
