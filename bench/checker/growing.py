"""Checks printed texts of a growing set: those of a run of the commands, and the splits that the seats made between their lines.

A split has no line. It takes a time that no line's commit has; it is in the commits of its seat's log, and in the line on the
buckets. So it is known how many splits each seat made, and between which of its lines it may have made them, but not when.
"""
import bisect
import heapq
import re
from collections import namedtuple

from .catalogue import Catalogue
from .text import LAST, NUMBER, Options, check_order, check_replies, check_scripts, check_sets, count, must, split

HEADS = 1025
LEVELS = 6
FIRST_BUCKETS = 16
LAST_BUCKETS = FIRST_BUCKETS << LEVELS
MOST_KEYS = 61
MOST_HELD = 64

BUCKETS = re.compile(rf"buckets {NUMBER} splits {NUMBER}")

# A seat is to split behind an add that was the commit of this time, and up to this last time.
Due = namedtuple("Due", "seat add last")


class Sizes:
    """How many keys the bucket has that is to be split next, over the times, for each number of buckets that there may be."""

    def __init__(self):
        self.times = [[0] for _ in range(LAST_BUCKETS)]
        self.keys = [[0] for _ in range(LAST_BUCKETS)]

    def change(self, time, key, by):
        for level in range(LEVELS):
            whole = FIRST_BUCKETS << level
            buckets = whole + key % whole
            self.times[buckets].append(time)
            self.keys[buckets].append(self.keys[buckets][-1] + by)

    def between(self, buckets, first, last):
        """The numbers of its keys where there are so many buckets, each with the first and the last of the states that have it."""
        times = self.times[buckets]
        for at in range(bisect.bisect_right(times, first) - 1, bisect.bisect_right(times, last)):
            until = times[at + 1] - 1 if at + 1 < len(times) else last
            yield self.keys[buckets][at], max(first, times[at]), min(last, until)


class Course:
    """The times that each of so many splits may have, in their order: each was made where one was due. Of some dues it is known that
    a split was made there (they are met), and any other may be met or not."""

    def __init__(self, dues, splits, end):
        self.splits, self.end = splits, end
        self.firsts = sorted(due.add + 1 for due in dues if due.add < due.last)
        self.lasts = sorted(due.last for due in dues if due.add < due.last)
        self.met = []

    def know(self, met):
        self.met = sorted(due.last for due in met)

    def times_of(self, index):
        """The first and the last time that this split may have, counted from 0."""
        last = self.lasts[len(self.lasts) - self.splits + index]
        return self.firsts[index], min([last, *self.met[index:index + 1]])

    def states_after(self, index):
        """The first and the last state that may have so many splits behind it, and no more."""
        first = self.firsts[index - 1] if index else 0
        return first, self.times_of(index)[1] - 1 if index < self.splits else self.end


def dues_of(lines, scripts, end):
    """Behind each second add of a seat that replied yes, ahead of its next line."""
    dues = []
    for seat, commands in enumerate(scripts):
        own = [line for line in lines if line.seat == seat]
        odd = False
        for line, after in zip(own, [*own[1:], None]):
            if commands[line.number - 1].verb == "add" and line.reply == "yes":
                odd = not odd
                if not odd:
                    dues.append(Due(seat, line.time, end if after is None else after.time - after.commit))
    return dues


def sizes_of(lines, scripts):
    sizes = Sizes()
    for line in lines:
        if line.commit:
            command = scripts[line.seat][line.number - 1]
            sizes.change(line.time, command.key, 1 if command.verb == "add" else -1)
    return sizes


def closed_states(course, sizes):
    """The states that may have no bucket to split: it has too many keys, all buckets are split, or time has come to its end."""
    closed = [(LAST, LAST)]
    for index in range(course.splits + 1):
        states = course.states_after(index)
        if FIRST_BUCKETS + index == LAST_BUCKETS:
            closed.append(states)
        else:
            closed += [them for keys, *them in sizes.between(FIRST_BUCKETS + index, *states) if keys > MOST_KEYS]
    return closed


def find_met(dues, course, sizes):
    """The dues that were met for certain, since each state had a bucket to split. Those that are known tell more of when splits were
    made, and so of others."""
    met = None
    while True:
        closed = closed_states(course, sizes)
        found = [due for due in dues if not any(first <= due.last and due.add <= last for first, last in closed)]
        if found == met:
            return met
        course.know(found)
        met = found


def count_placed(dues, taken):
    """How many of them can have times of their own that no line has: of those that may have the next time, the first to end gets it."""
    coming, waiting = sorted(dues, key=lambda due: due.add, reverse=True), []
    time = placed = 0
    while coming or waiting:
        time += 1
        if not waiting:
            time = max(time, coming[-1].add + 1)
        while time in taken:
            time += 1
        while coming and coming[-1].add < time:
            heapq.heappush(waiting, coming.pop().last)
        while waiting and waiting[0] < time:
            heapq.heappop(waiting)
        if waiting:
            heapq.heappop(waiting)
            placed += 1
    return placed


def check_splits(lines, scripts, own, end):
    """That each seat split where that was due, and left it out only where there was no bucket to split; it is given how often each
    seat did. Answers the fewest and the most objects that all splits wrote."""
    taken = {line.time for line in lines if line.commit}
    dues, sizes, splits = dues_of(lines, scripts, end), sizes_of(lines, scripts), sum(own)
    must(splits <= count_placed(dues, taken), f"there is no time for {splits} splits")
    course = Course(dues, splits, end)
    met = find_met(dues, course, sizes)
    must(len(met) == count_placed(met, taken), "there is no time for each split that was due")
    for seat, number in enumerate(own):
        least, most = (sum(due.seat == seat for due in them) for them in (met, dues))
        must(least <= number <= most, f"log {seat}: {number} splits, where {least} to {most} were due")
    fewest = most = 0
    for index in range(splits):
        first, last = course.times_of(index)
        keys = [keys for keys, *_ in sizes.between(FIRST_BUCKETS + index, first - 1, last - 1) if keys <= MOST_KEYS]
        must(keys, f"split {index + 1} had too many keys")
        fewest, most = fewest + 3 + min(keys), most + 3 + max(keys)
    return fewest, most


def check_log(seat, log, writes, splits):
    """The table of a seat. A split wrote 3 to 64 objects, and an abort gave up one to 64."""
    built = log.live + log.freed
    must(0 <= splits, f"log {seat}: {log.commits} commits, and {log.commits - splits} lines of commits")
    must(writes + 3 * splits + log.aborts <= built <= writes + MOST_HELD * (splits + log.aborts),
         f"log {seat}: {built} versions, for {writes} writes of lines, {splits} splits and {log.aborts} aborts")
    must(log.live <= Options().slots, f"log {seat}: {log.live} live in {Options().slots} slots")
    must(log.back <= built - log.aborts, f"log {seat}: {log.back} written back, of {built} versions with {log.aborts} aborts")


def check_logs(lines, scripts, logs, writes, splits):
    must(len(logs) == len(scripts), f"{len(logs)} log lines for {len(scripts)} scripts")
    own = [log.commits - sum(line.seat == seat and line.commit for line in lines) for seat, log in enumerate(logs)]
    for seat, log in enumerate(logs):
        check_log(seat, log, writes[seat], own[seat])
    must(sum(own) == splits, f"the logs have {sum(own)} commits more than there are lines of commits, and not {splits}")
    must(len(logs) > 1 or logs[0].aborts == 0, "one seat alone has aborted")
    end = sum(log.commits + log.rests for log in logs)
    latest = lines[-1].time if lines else 0
    must(latest <= end <= LAST, f"the time {latest} is printed, and the commits and rests end at {end}")
    fewest, most = check_splits(lines, scripts, own, end)
    built, aborts = (sum(column) for column in zip(*((log.live + log.freed, log.aborts) for log in logs)))
    must(sum(writes) + fewest + aborts <= built <= sum(writes) + most + MOST_HELD * aborts,
         f"{built} versions, for {sum(writes)} writes of lines, {fewest} to {most} of splits, and {aborts} aborts")


def check_grow(scripts, text):
    """Checks the text of a run of scripts of a growing set; answers what it counts, and how many splits there were."""
    lines, sets, logs = split(text)
    found = BUCKETS.fullmatch(sets.pop()) if sets else None
    must(found, "no line on the buckets")
    buckets, splits = int(found[1]), int(found[2])
    must(buckets == FIRST_BUCKETS + splits <= LAST_BUCKETS, f"{buckets} buckets after {splits} splits")
    catalogue = Catalogue(Options().objects - HEADS)
    check_order(lines)
    check_scripts(lines, scripts, Options().base)
    writes, _ = check_replies(lines, scripts, catalogue)
    check_sets(sets, catalogue)
    check_logs(lines, scripts, logs, writes, splits)
    return count(lines, logs), splits
