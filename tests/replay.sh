#!/bin/bash
# Shows what bench/replay takes and refuses: texts that were worked out by hand, and each of them with one thing changed.
set -u
bench=$(cd "$(dirname "$0")/.." && pwd)/bench
scratch=$(mktemp -d) || exit 1
trap 'rm -rf "$scratch"' EXIT
cd "$scratch" || exit 1

PYTHONDONTWRITEBYTECODE=1 PYTHONPATH=$bench python3 - <<'PYTHON' || exit 1
import re
from checker import growing, script, text
from checker.text import Options


def run(scripts, printed, **options):
    text.check_run(Options(**options), [script.parse(it) for it in scripts], printed)


def block(scripts, printed):
    text.check_blocks([script.parse_blocks(it) for it in scripts], printed)


def pool(scripts, printed):
    text.check_pool(2, script.parse(scripts[0]), printed)


def grow(scripts, printed):
    growing.check_grow([script.parse_grow(it) for it in scripts], printed)


class Case:
    """Scripts, and a text that is theirs by a check."""

    def __init__(self, check, scripts, printed, **options):
        self.check, self.scripts = check, [it.encode() for it in scripts]
        self.printed, self.options = printed, options
        check(self.scripts, printed.encode(), **options)

    def changed(self, change, into):
        changed, count = re.subn(change, into, self.printed, flags=re.M)
        assert count, change
        return changed.encode()

    def takes(self, change, into):
        """That the text is taken too where what matches is changed."""
        self.check(self.scripts, self.changed(change, into), **self.options)

    def refuses(self, change, into, why, **options):
        """That the text is refused for that where what matches is changed."""
        changed = self.changed(change, into)
        try:
            self.check(self.scripts, changed, **self.options | options)
        except text.Fault as fault:
            assert why in str(fault), (change, str(fault))
        else:
            raise AssertionError(f"taken: {change} as {into}")


def adds(name, last):
    """The lines of a script that add the keys from 1 to the last to a set."""
    return "".join(f"add {name} {key}\n" for key in range(1, last + 1))


def commits(last):
    """The lines of a text for the first commands of seat 0 where each made a commit."""
    return "".join(f"0.{n} c{n} yes\n" for n in range(1, last + 1))


# Two seats and all kinds of sets. The commits of seat 0, an add to a list, to an empty tree and to another, and a move of a
# tree's key to a bucket, write 2, 2, 4 and 4 objects, and that of seat 1 one.
two = Case(run, ["add l0 5\nadd t1 5\nadd t1 3\nmove t1 h2 5\nhas t1 5", "format 2\r\n\nput l0 05 9 # a value\n get\tl0 5\nsize t1\n"], """\
0.1 c1 yes
0.2 c3 yes
0.3 c4 yes
1.1 c5 yes
1.2 r5 9
1.3 r5 2
0.4 c6 yes
0.5 r6 no
l0 5=9
h2 5
t1 3
log 0 live 7 freed 6 back 3 commits 4 aborts 1 rests 1
log 1 live 1 freed 0 back 0 commits 1 aborts 0 rests 0
""")
two.refuses("^1.2.*\n", "", "line 1.2 is missing")
two.refuses("^1.3", "1.4", "of no command")
two.refuses("^2.|^1.3", "2.3", "of no command")
two.refuses("^0.4.*\n0.5 r6", "0.4 c6 yes\n0.4 c7 yes\n0.5 r7", "stands twice")
two.refuses("0.5 r6", "0.5 r5", "out of order")
two.refuses("^(1.2.*\n)(1.3.*\n)", r"\2\1", "out of order")
two.refuses("^0.2 c3", "0.2 c1", "another commit")
two.refuses("^0.3 c4 yes\n((.*\n){2})1.3 r5 2\n", r"0.3 c4 yes\n1.3 r4 2\n\1", "too early")
two.refuses("0.3 c4 yes\n1.1 c5", "0.3 c4 yes\n1.1 c4", "another commit")
two.refuses("^0.5 r6 no", "0.5 r6 yes", "and not no")
two.refuses("r5 9", "r5 none", "and not 9")
two.refuses("0.5 r6", "0.5 c7", "is a commit")
two.refuses("^l0 5=9", "l0 5", "and not 'l0 5=9'")
two.refuses("^h2.*\n", "", "and not 'h2 5'")
two.refuses("^t1 3", "t1 3\nt2 4", "too many")
two.refuses("^log 1.*\n", "", "log lines")
two.refuses("^log 1", "log 2", "not the log line")
two.refuses("commits 1", "commits 2", "lines of commits")
two.refuses("live 1 freed", "live 2 freed", "log 1: 2 versions")
two.refuses("freed 6", "freed 5", "log 0: 12 versions")
two.takes("freed 6", "freed 21")
two.refuses("freed 6", "freed 22", "log 0: 29 versions")
two.refuses("live 7", "live 6", "log 0: 12 versions")
two.refuses("back 3", "back 13", "written back")
two.refuses("rests 1", "rests 0", "end at 5")
two.refuses("rests 1", "rests 35184372088831", "end at")
two.refuses("live 7", "live 7", "live in 6 slots", slots=6)
two.refuses("live 7", "live 07", "not the log line")
two.refuses("no$", "no\r", "and not no")
two.refuses("\n\\Z", "", "doesn't end with LF")

# A base: the first commit is later than it, and reads are no earlier.
later = Case(run, ["has l0 1\nadd l0 1"], """\
0.1 r7 no
0.2 c8 yes
l0 1
log 0 live 2 freed 0 back 0 commits 1 aborts 0 rests 0
""", base=7)
later.refuses("r7", "r6", "too early")
later.refuses("r7", "r7", "too early", base=8)
later.refuses("0.1 r7 no\n0.2 c8", "0.2 c7 yes\n0.1 r7", "too early")

# Two nodes: the third key of a list is too many, and so is the second of a tree beside it.
small = Case(run, ["add l0 1\nadd l0 2\nadd l0 3\ndel l0 1\nadd t0 8\nadd t0 9\n"], """\
0.1 c1 yes
0.2 c2 yes
0.3 r2 full
0.4 c3 yes
0.5 c4 yes
0.6 r4 full
l0 2
t0 8
log 0 live 8 freed 0 back 0 commits 4 aborts 0 rests 0
""", objects=182)
small.refuses("full", "worn", "and not full")
small.refuses("full", "full", "and not yes", objects=183)
small.refuses("live 8(.*)aborts 0", r"live 9\1aborts 1", "one seat alone")

# The last time.
last = Case(run, ["add l0 1\nadd l0 2\nadd l0 1\nhas l0 1\n"], """\
0.1 c35184372088831 yes
0.2 r35184372088831 worn
0.3 r35184372088831 no
0.4 r35184372088831 yes
l0 1
log 0 live 2 freed 0 back 0 commits 1 aborts 0 rests 0
""", base=35184372088830)
last.refuses("worn", "yes", "and not worn")
last.refuses("rests 0", "rests 1", "end at")
last.refuses("35184372088831", "7", "and not yes", base=6)

# How many objects a commit writes: the adds and dels of a tree of one key, and of two; each kind of move; a put.
writes = Case(run, [
    "format 2\nadd t0 1\nadd t0 2\ndel t0 1\ndel t0 2\nput l0 1 1\nput l0 1 2\nmove l0 l1 1\nmove l1 t0 1\nadd t0 2\nadd l2 3\n"
    "move l2 t0 3\nadd t1 9\nmove t0 t1 3\nmove t0 t2 2\nmove t0 t1 1\nmove t1 h0 9\n"],
    commits(16) +
    "h0 9\nt1 1=2 3\nt2 2\n"
    "log 0 live 0 freed 51 back 0 commits 16 aborts 0 rests 0\n")
writes.refuses("freed 51", "freed 50", "for 51 writes")
Case(run, [""], "log 0 live 0 freed 0 back 0 commits 0 aborts 0 rests 0\n")

# The steps of adds to a tree: the tenth key finds 9, and no search among these passes more than 8 inner nodes; the eleventh and
# the twelfth may write up to 12 objects more each, by an add or a put. A del, a put of a key that is there and a move make no steps.
steps = Case(run, [
    "format 2\n" + adds("t0", 11) +
    "put t0 12 7\nput t0 12 8\ndel t0 1\nadd l0 1\nmove l0 t0 1\n"],
    commits(16) +
    "t0 1 2 3 4 5 6 7 8 9 10 11 12=8\n"
    "log 0 live 57 freed 0 back 0 commits 16 aborts 0 rests 0\n")
steps.takes("live 57", "live 81")
steps.refuses("live 57", "live 56", "for 57 to 81 writes")
steps.refuses("live 57", "live 82", "for 57 to 81 writes")
steps.takes("live 57 freed 0 back 0", "live 0 freed 81 back 81")
steps.refuses("back 0", "back 82", "82 written back")
nine = Case(run, [adds("t9", 10) + adds("h0", 12)],
    commits(22) +
    "h0 1 2 3 4 5 6 7 8 9 10 11 12\nt9 1 2 3 4 5 6 7 8 9 10\n"
    "log 0 live 62 freed 0 back 0 commits 22 aborts 0 rests 0\n")
nine.refuses("live 62", "live 63", "for 62 writes")
nine.refuses("back 0", "back 63", "63 written back")

# Steps are those of the snapshot, and a commit between may have taken the tenth key away: seat 1 adds key 11 to 9 keys by then.
between = Case(run, [adds("t0", 10) + "del t0 1\n", "add t0 11\n"],
    commits(11) + """\
1.1 c12 yes
t0 2 3 4 5 6 7 8 9 10 11
log 0 live 41 freed 0 back 0 commits 11 aborts 0 rests 0
log 1 live 4 freed 0 back 0 commits 1 aborts 0 rests 0
""")
between.takes("live 4 ", "live 16 ")
between.refuses("live 4 ", "live 17 ", "log 1: 17 versions")
between.refuses("live 41 ", "live 42 ", "log 0: 42 versions")

# A pool's commands make steps, and those of a block make none.
pooled = Case(pool, [adds("t0", 11)],
    commits(10) + """\
1.11 c11 yes
t0 1 2 3 4 5 6 7 8 9 10 11
log 0 live 38 freed 0 back 0 commits 10 aborts 0 rests 0
log 1 live 4 freed 0 back 0 commits 1 aborts 0 rests 0
""")
pooled.takes("live 4 ", "live 16 ")
pooled.refuses("live 4 ", "live 17 ", "log 1: 17 versions")
pooled.refuses("live 38 ", "live 39 ", "log 0: 39 versions")
short = Case(block, [adds("t0", 11)],
    commits(11) +
    "t0 1 2 3 4 5 6 7 8 9 10 11\n"
    "log 0 live 42 freed 0 back 0 commits 11 aborts 0 rests 0\n")
short.refuses("live 42", "live 56", "56 versions")

# A block of three commands is one commit of three objects, and one that undoes its change is a commit too.
blocks = Case(block, ["begin\nadd l0 5\nmove l0 t0 5\npair l0 t0 5\nend\nhas t0 5\n", "begin\nadd h0 1\ndel h0 1\nend\nbegin\nhas h0 1\nhas h0 2\nend\n"], """\
0.1 c1 yes
0.2 c1 yes
0.3 c1 no yes
1.1 c2 yes
1.2 c2 yes
0.4 r2 yes
1.3 r2 no
1.4 r2 no
t0 5
log 0 live 3 freed 0 back 0 commits 1 aborts 0 rests 0
log 1 live 2 freed 0 back 0 commits 1 aborts 0 rests 0
""")
blocks.refuses("^0.3.*\n", "", "missing")
blocks.refuses("^1.2 c2 yes", "1.2 c3 yes", "out of order")
blocks.refuses("^1.1 c2 yes\n1.2 c2 yes\n(0.*\n1.3 r2 no\n)1.4 r2 no", r"1.1 c2 yes\n1.2 c2 yes\n\g<1>1.4 r3 no", "two places")
blocks.refuses("^1.1 c2 yes\n1.2 c2", "1.1 c1 yes\n1.2 c1", "another commit")
blocks.refuses("^(0.1.*\n)(0.2.*\n)", r"\2\1", "out of order")
blocks.refuses("^0.3 c1 no yes", "0.3 c1 yes no", "replies")
blocks.refuses("^1.1 c2 yes\n1.2 c2 yes", "1.1 r1 yes\n1.2 r1 yes", "is a read")
blocks.refuses("^0.4 r2", "0.4 r0", "out of order")
blocks.refuses("^t0 5", "l0 5", "and not 't0 5'")
blocks.refuses("^log 1 live 2", "log 1 live 11", "11 versions")
blocks.refuses("^log 0 live 3(.*)commits 1", r"log 0 live 3\1commits 2", "at 1 commits")

# A growing set: a split behind each second add, at the times 3 and 6. The first has no key to part, and the second has two.
splits = Case(grow, ["add h0 1\nadd h0 17\nadd h0 2\nadd h0 3\nhas h0 17\nnext h0 4\n"], """\
0.1 c1 yes
0.2 c2 yes
0.3 c4 yes
0.4 c5 yes
0.5 r6 yes
0.6 r6 17
h0 1 2 3 17
buckets 18 splits 2
log 0 live 16 freed 0 back 0 commits 6 aborts 0 rests 0
""")
splits.refuses("r6 17", "r6 none", "and not 17")
splits.refuses("^h0.*\n", "", "too few")
splits.refuses("^buckets.*\n", "", "no line on the buckets")
splits.refuses("^(buckets.*\n)(log.*\n)", r"\2\1", "not the log line")
splits.refuses("^buckets 18", "buckets 19", "19 buckets after 2 splits")
splits.refuses("^buckets 18 splits 2", "buckets 17 splits 1", "2 commits more")
splits.refuses("^buckets 18 splits 2", "buckets 19 splits 3", "2 commits more")
splits.refuses("^buckets 18 splits 2((.*\n)*.*)live 16(.*)commits 6", r"buckets 19 splits 3\1live 19\3commits 7", "no time for 3 splits")
splits.refuses("^buckets 18 splits 2((.*\n)*.*)commits 6(.*)rests 0", r"buckets 17 splits 1\1commits 5\3rests 1", "where 2 to 2 were due")
splits.refuses("^0.3 c4", "0.3 c3", "no time for 2 splits")
splits.refuses("commits 6", "commits 3", "4 lines of commits")
splits.refuses("rests 0", "rests 35184372088831", "end at")
splits.refuses("live 16", "live 15", "15 versions")
splits.refuses("live 16", "live 17", "17 versions")
splits.refuses("live 16 freed 0 back 0", "live 0 freed 16 back 17", "written back")
splits.refuses("live 16(.*)aborts 0", r"live 17\1aborts 1", "one seat alone")

# Two seats, each with a split: that of seat 0 at time 5, since the times before are those of lines, and that of seat 1 behind it.
both = Case(grow, ["add h0 1\nadd h0 2\nhas h0 1\n", "add h0 3\nadd h0 4\n"], """\
0.1 c1 yes
1.1 c2 yes
0.2 c3 yes
1.2 c4 yes
0.3 r5 yes
h0 1 2 3 4
buckets 18 splits 2
log 0 live 7 freed 0 back 0 commits 3 aborts 0 rests 0
log 1 live 8 freed 0 back 0 commits 3 aborts 0 rests 0
""")
both.refuses("r5", "r4", "no time for 2 splits")
both.refuses("live 7(.*)commits 3((.*\n)*.*)live 8(.*)commits 3", r"live 11\1commits 4\2live 4\4commits 2", "log 0: 2 splits, where 1 to 1 were due")
both.refuses("live 7", "live 6", "log 0: 6 versions")
both.refuses("live 8", "live 9", "16 versions")
both.refuses("^log 1.*\n", "", "1 log lines for 2 scripts")

# A bucket that can't be split: behind 98 adds and 48 splits all keys are in the next one. Splits 1 and 17 part 2 keys and 34.
keys = range(0, 102400, 1024)
times = [i + (i - 1) // 2 for i in range(1, 99)] + [147, 148]
crowded = Case(grow, ["".join(f"add h0 {key}\n" for key in keys)],
    "".join(f"0.{i} c{time} yes\n" for i, time in enumerate(times, 1)) + f"h0 {' '.join(map(str, keys))}\n"
    "buckets 64 splits 48\nlog 0 live 380 freed 0 back 0 commits 148 aborts 0 rests 0\n")
crowded.refuses("^buckets 64 splits 48((.*\n)*.*)commits 148", r"buckets 65 splits 49\1commits 149", "split 49 had too many keys")
crowded.refuses("^buckets 64 splits 48((.*\n)*.*)commits 148(.*)rests 0", r"buckets 63 splits 47\1commits 147\3rests 1", "no time for each")

# A set that is full: 3,071 keys, and all splits.
parted = sum(3 + len(range(place, 2 * (whole + place - 15), whole)) for whole in (16, 32, 64, 128, 256, 512) for place in range(whole))
filled = Case(grow, ["".join(f"add h0 {key}\n" for key in range(3072))],
    "".join(f"0.{i} c{i + min((i - 1) // 2, 1008)} yes\n" for i in range(1, 3072)) + "0.3072 r4079 full\n"
    f"h0 {' '.join(map(str, range(3071)))}\nbuckets 1024 splits 1008\n"
    f"log 0 live 0 freed {6142 + parted} back 0 commits 4079 aborts 0 rests 0\n")
filled.refuses("full", "yes", "and not full")
filled.refuses("^buckets 1024 splits 1008((.*\n)*.*)commits 4079", r"buckets 1025 splits 1009\1commits 4080", "1025 buckets")
filled.refuses("^buckets 1024 splits 1008((.*\n)*.*)commits 4079(.*)rests 0", r"buckets 1023 splits 1007\1commits 4078\3rests 1", "no time for each")
Case(grow, ["format 1\n"], "buckets 16 splits 0\nlog 0 live 0 freed 0 back 0 commits 0 aborts 0 rests 0\n")


def taken(check, *words):
    try:
        check(*words)
    except text.Fault:
        return False
    return True


# The generator is PCG's: its example draws these of the state 42 and the stream 54.
source = script.Pcg32(42, 54)
assert [source.draw() for _ in range(6)] == [0xa15c02b7, 0x7b47f409, 0xba1d3330, 0x83d2f293, 0xbfa4784b, 0xcbed606e]
generated = script.generated_text(7, 2).encode()
assert generated.count(b"\n") == 2000 and len(script.parse(generated)) == 2000
assert taken(text.check_gen, 7, 2, generated)
assert not taken(text.check_gen, 7, 1, generated) and not taken(text.check_gen, 7, 2, generated[:-10])
summary = text.summary(7).encode()
assert taken(text.check_work, 7, summary) and not taken(text.check_work, 8, summary)
assert not taken(text.check_work, 7, summary.replace(b"commits ", b"commits 1"))
assert not taken(text.check_work, 7, summary.replace(b"worn 0", b"worn 1"))
PYTHON

# The words are the program's own.
printf 'add l0 5\n' >a
printf '0.1 c8 yes\nl0 5\nlog 0 live 2 freed 0 back 0 commits 1 aborts 0 rests 0\n' >text
counted=$("$bench/replay" --reads run --base 7 --objects 181 a <text)
[ "$counted" = 'lines 1 commits 1 rests 0 aborts 0 turns 0 reads 1' ] || { echo "replay: counted $counted" >&2; exit 1; }
counted=$(printf '0.1 c1 yes\nl0 5\nlog 0 live 2 freed 0 back 0 commits 1 aborts 0 rests 0\n' | "$bench/replay" block a)
[ "$counted" = 'lines 1 commits 1 rests 0 aborts 0 turns 0' ] || { echo "replay: counted $counted of a block" >&2; exit 1; }
printf 'add h0 1\nadd h0 2\n' >b
counted=$(printf '0.1 c1 yes\n0.2 c2 yes\nh0 1 2\nbuckets 17 splits 1\nlog 0 live 7 freed 0 back 0 commits 3 aborts 0 rests 0\n' | "$bench/replay" grow b)
[ "$counted" = 'lines 2 commits 3 rests 0 aborts 0 turns 0 splits 1' ] || { echo "replay: counted $counted of a growing set" >&2; exit 1; }
"$bench/replay" run --base 8 a <text 2>/dev/null && { echo 'replay: a text of another base is taken' >&2; exit 1; }
echo 'replay: ok'
