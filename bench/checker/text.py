"""Checks printed texts against the scripts that they are of."""
import re
from collections import namedtuple

from . import script
from .catalogue import Catalogue

LAST = 35184372088831

# How many objects a section of a run or a pool holds at most, and how many of them each command of a block.
MOST_HELD = 16
MOST_LOCKS = 5

Options = namedtuple("Options", "objects slots base", defaults=(4096, 1024, 0))
Line = namedtuple("Line", "seat number commit time reply")
Log = namedtuple("Log", "live freed back commits aborts rests")
# (turns: how often a line follows one of another seat)
Counts = namedtuple("Counts", "lines commits rests aborts turns reads")

NUMBER = "(0|[1-9][0-9]*)"
LINE = re.compile(rf"{NUMBER}\.{NUMBER} ([cr]){NUMBER} (.+)")
LOG = re.compile(rf"log {NUMBER} live {NUMBER} freed {NUMBER} back {NUMBER} commits {NUMBER} aborts {NUMBER} rests {NUMBER}")


class Fault(Exception):
    """What a text says that it must not say."""


def must(truth, what):
    if not truth:
        raise Fault(what)


def lines_of(text):
    must(text.isascii(), "a byte is no ASCII")
    must(text.endswith(b"\n"), "the text doesn't end with LF")
    return text[:-1].decode("ascii").split("\n")


def split(text):
    """The lines of commands, those of sets as they stand, and the logs."""
    rows = lines_of(text)
    lines, sets, logs = [], [], []
    for row in rows:
        found = LINE.fullmatch(row)
        if found is None:
            break
        seat, number, kind, time, reply = found.groups()
        lines.append(Line(int(seat), int(number), kind == "c", int(time), reply))
    rows = rows[len(lines):]
    while rows and not rows[0].startswith("log "):
        sets.append(rows.pop(0))
    for seat, row in enumerate(rows):
        found = LOG.fullmatch(row)
        must(found and int(found[1]) == seat, f"not the log line of seat {seat}: {row}")
        logs.append(Log(*(int(word) for word in found.groups()[1:])))
    return lines, sets, logs


def name(line):
    return f"line {line.seat}.{line.number}"


def check_order(lines, starts=None):
    """By time, commits before reads, then by seat, then by number; and no two commits at one time, but for those of one block,
    where the number of each command's first is given."""
    before = None
    for line in lines:
        place = (line.time, not line.commit, line.seat, line.number)
        must(before is None or before < place, f"{name(line)} is out of order")
        if before and line.commit and before[:2] == place[:2]:
            same = starts and before[2] == line.seat and starts[line.seat][before[3]] == starts[line.seat][line.number]
            must(same, f"{name(line)} has the time of another commit")
        before = place


def check_scripts(lines, scripts, base):
    """Each command has one line; along a script no time falls, and a commit is later than the line before it."""
    found = {}
    for line in lines:
        place = line.seat, line.number
        must(line.seat < len(scripts) and 1 <= line.number <= len(scripts[line.seat]), f"{name(line)} is of no command")
        must(place not in found, f"{name(line)} stands twice")
        found[place] = line
    for seat, commands in enumerate(scripts):
        time = base
        for number in range(1, len(commands) + 1):
            line = found.get((seat, number))
            must(line, f"line {seat}.{number} is missing")
            must(line.time > time if line.commit else line.time >= time, f"{name(line)} is too early behind the line before it")
            time = line.time


def check_blocks_of(lines, scripts, base):
    """Each command of each block has one line, all at the block's place; along a script no time falls, and a block at a commit
    is later than the block before it. Answers the lines of each block, by its seat and the number of its first command."""
    found, told = {}, {}
    for line in lines:
        must(line.seat < len(scripts) and (line.seat, line.number) not in found, f"{name(line)} is of no script or stands twice")
        found[line.seat, line.number] = line
    for seat, blocks in enumerate(scripts):
        time, number = base, 1
        for block in blocks:
            own = [found.pop((seat, number + index), None) for index in range(len(block))]
            must(all(own), f"a line of the block at {seat}.{number} is missing")
            must(len({(line.commit, line.time) for line in own}) == 1, f"the block at {seat}.{number} has two places")
            must(own[0].time > time if own[0].commit else own[0].time >= time, f"{name(own[0])} is too early behind the block before it")
            told[seat, number] = own
            time, number = own[0].time, number + len(block)
    must(not found, f"line {found and min(found)} is of no command")
    return told


def check_shares(lines, commands, seats, base):
    """Each command has one line, of any seat; along a seat's numbers no time falls, and a commit is later than the line before."""
    found = {}
    for line in lines:
        must(line.seat < seats and 1 <= line.number <= len(commands), f"{name(line)} is of no seat or no command")
        must(line.number not in found, f"number {line.number} stands twice")
        found[line.number] = line
    times = [base] * seats
    for number in range(1, len(commands) + 1):
        line = found.get(number)
        must(line, f"number {number} is missing")
        time = times[line.seat]
        must(line.time > time if line.commit else line.time >= time, f"{name(line)} is too early behind the line before it")
        times[line.seat] = line.time


def check_replies(lines, scripts, catalogue):
    """Replays the lines in their order; answers how many objects the commits of each seat write, and how many they may write beside."""
    writes, beside = [0] * len(scripts), [0] * len(scripts)
    for line in lines:
        command = scripts[line.seat][line.number - 1]
        most = catalogue.beside(command)
        reply, written = catalogue.run(command, not line.commit and line.time == LAST)
        must(reply == line.reply, f"{name(line)} replies {line.reply} and not {reply}: {command}")
        must(line.commit == (written > 0), f"{name(line)} is {'a commit' if line.commit else 'a read'}: {command}")
        writes[line.seat] += written
        beside[line.seat] += most if written else 0
    return writes, beside


def run_block(catalogue, block, last):
    """The replies of a block, and whether it changes something; what it changes is in the catalogue then. Where one reply is full
    all are, and at the last time all are worn where it would change something; then the catalogue is as before."""
    before = catalogue.parts({name for command in block for name in (command.first, command.second) if name})
    turns = [catalogue.run(command, False) for command in block]
    replies, changes = [reply for reply, _ in turns], any(written for _, written in turns)
    if "full" in replies:
        catalogue.restore(before)
        return ["full"] * len(block), False
    if changes and last:
        catalogue.restore(before)
        return ["worn"] * len(block), False
    return replies, changes


def check_block_replies(lines, scripts, told, catalogue):
    """Replays the blocks in the order of their lines."""
    blocks = {}
    for seat, script in enumerate(scripts):
        number = 1
        for block in script:
            blocks[seat, number] = block
            number += len(block)
    for line in lines:
        block = blocks.get((line.seat, line.number))
        if block is None:
            continue
        own = told[line.seat, line.number]
        replies, changes = run_block(catalogue, block, not line.commit and line.time == LAST)
        must(replies == [row.reply for row in own], f"the block at {name(line)} replies {[row.reply for row in own]} and not {replies}")
        must(line.commit == changes, f"the block at {name(line)} is {'a commit' if line.commit else 'a read'}")


def check_sets(rows, catalogue):
    for row, wanted in zip(rows, catalogue.lines()):
        must(row == wanted, f"the set's line is '{row}' and not '{wanted}'")
    must(len(rows) == len(list(catalogue.lines())), "the lines of sets are too many or too few")


def span(writes, beside):
    return f"{writes} to {writes + beside}" if beside else str(writes)


def check_log(seat, log, lines, writes, beside, slots):
    """The table of a seat, whose commits may have written so many objects beside. Each abort that it counts gave up 1 to 16 objects."""
    commits = sum(1 for line in lines if line.seat == seat and line.commit)
    built = log.live + log.freed
    must(log.commits == commits, f"log {seat}: {log.commits} commits, and {commits} lines of commits")
    must(writes + log.aborts <= built <= writes + beside + MOST_HELD * log.aborts,
         f"log {seat}: {built} versions, for {span(writes, beside)} writes of commits and {log.aborts} aborts")
    must(log.live <= slots, f"log {seat}: {log.live} live in {slots} slots")
    must(log.back <= writes + beside, f"log {seat}: {log.back} written back, of {span(writes, beside)} writes of commits")


def check_logs(logs, lines, writes, beside, options):
    must(len(logs) == len(writes), f"{len(logs)} log lines for {len(writes)} scripts")
    for seat, log in enumerate(logs):
        check_log(seat, log, lines, writes[seat], beside[seat], options.slots)
    must(len(logs) > 1 or logs[0].aborts == 0, "one seat alone has aborted")
    end = options.base + sum(log.commits + log.rests for log in logs)
    latest = lines[-1].time if lines else options.base
    must(latest <= end <= LAST, f"the time {latest} is printed, and the commits and rests end at {end}")


def count(lines, logs, reads=0):
    commits, rests, aborts = (sum(column) for column in zip(*((log.commits, log.rests, log.aborts) for log in logs)))
    turns = sum(a.seat != b.seat for a, b in zip(lines, lines[1:]))
    return Counts(len(lines), commits, rests, aborts, turns, reads)


def check_run(options, scripts, text, count_reads=False):
    """Checks the text of a run of the scripts' commands; answers what it counts."""
    return check_lines(options, scripts, text, count_reads, lambda lines: check_scripts(lines, scripts, options.base))


def check_pool(seats, commands, text, count_reads=False):
    """Checks the text of a pool of so many seats over the commands; answers what it counts."""
    options = Options()
    return check_lines(options, [commands] * seats, text, count_reads, lambda lines: check_shares(lines, commands, seats, options.base))


def starts_of(blocks):
    """The number of the first command of each command's block, by the command's number."""
    starts, number = {}, 1
    for block in blocks:
        starts.update((number + index, number) for index in range(len(block)))
        number += len(block)
    return starts


def check_block_log(seat, log, commits, most, slots):
    """The table of a seat of blocks. A commit writes 1 to 5 objects for each command, and an abort gave up as many at most."""
    built = log.live + log.freed
    must(log.commits == commits, f"log {seat}: {log.commits} commits, and blocks at {commits} commits")
    must(commits + log.aborts <= built <= most + MOST_LOCKS * script.MOST_IN_BLOCK * log.aborts,
         f"log {seat}: {built} versions, for {commits} commits and {log.aborts} aborts")
    must(log.live <= slots and log.back <= built, f"log {seat}: {log.live} live, {log.back} written back")


def check_blocks(scripts, text):
    """Checks the text of a run of scripts of blocks; answers what it counts."""
    options = Options()
    lines, sets, logs = split(text)
    must(all(line.seat < len(scripts) for line in lines), "a line is of no script")
    starts = [starts_of(blocks) for blocks in scripts]
    for line in lines:
        must(line.number in starts[line.seat], f"{name(line)} is of no command")
    check_order(lines, starts)
    told = check_blocks_of(lines, scripts, options.base)
    catalogue = Catalogue(options.objects - 180)
    check_block_replies(lines, scripts, told, catalogue)
    check_sets(sets, catalogue)
    must(len(logs) == len(scripts), f"{len(logs)} log lines for {len(scripts)} scripts")
    for seat, log in enumerate(logs):
        own = [rows for (of, _), rows in told.items() if of == seat and rows[0].commit]
        check_block_log(seat, log, len(own), sum(MOST_LOCKS * len(rows) for rows in own), options.slots)
    end = options.base + sum(log.commits + log.rests for log in logs)
    must((lines[-1].time if lines else options.base) <= end, f"the last line's time is printed, and the commits and rests end at {end}")
    return count(lines, logs)


def check_lines(options, scripts, text, count_reads, check_numbers):
    lines, sets, logs = split(text)
    catalogue = Catalogue(options.objects - 180, count_reads)
    check_order(lines)
    check_numbers(lines)
    writes, beside = check_replies(lines, scripts, catalogue)
    check_sets(sets, catalogue)
    check_logs(logs, lines, writes, beside, options)
    return count(lines, logs, catalogue.reads)


def summary(number):
    """The text of `work` where no reply is worn: the four scripts of the number, replayed one after another."""
    catalogue = Catalogue(16384 - 180)
    replies, commits = [], 0
    for seat in range(4):
        for command in script.generated(number, seat):
            reply, writes = catalogue.run(command, False)
            replies.append(reply)
            commits += writes > 0
    counts = [f"{reply} {replies.count(reply)}" for reply in ("yes", "no", "worn")]
    return "\n".join([f"work {number}", *counts, f"commits {commits}", *catalogue.sizes()]) + "\n"


def same(text, wanted):
    """That a text is the wanted one; else the first line that differs."""
    if text == wanted.encode():
        return
    rows = lines_of(text)
    for row, right in zip(rows, wanted.split("\n")):
        must(row == right, f"'{row}' and not '{right}'")
    raise Fault("the text is too long or too short")


def check_work(number, text):
    """A text with worn replies depends on how the seats ran, and only its counts are checked."""
    rows = lines_of(text)
    worn = re.fullmatch(rf"worn {NUMBER}", rows[3]) if len(rows) > 3 else None
    must(worn, "no count of worn replies")
    if int(worn[1]) == 0:
        return same(text, summary(number))
    found = re.match(rf"work {number}\nyes {NUMBER}\nno {NUMBER}\nworn {NUMBER}\ncommits {NUMBER}\n", text.decode("ascii"))
    must(found and sum(int(found[i]) for i in (1, 2, 3)) == 8000, "the replies are not 8000")
    must(int(found[4]) <= int(found[1]), "more commits than replies that say yes")


def check_gen(number, seat, text):
    same(text, script.generated_text(number, seat))
