# The program itself: unproved in a copy that has no out/, which takes about half a minute each time, and proved, as `rt ci` left it.

rows_of_real_runs() {
    rows_of_the_copy
    [ "$1" != unproved ] || return
    program=$top/crates/mvrlu_main/out/mvrlu_main
    [ -x "$program" ] || { fail "there is no $program: ./mvrlu build builds it"; return; }
    PATH=${PATH#"$scratch/bin:"}
    rows_of_the_sample "$top/mvrlu" ''
    rows_of_real_faults
    rows_of_real_streams
    rows_of_real_room
    rows_of_real_signals
    rows_of_time
}

# The lines of README's sample, and the text that README shows for them.
write_sample() {
    python3 - "$top/README.md" "$scratch" <<'PYTHON'
import pathlib, re, sys

page, scratch = map(pathlib.Path, sys.argv[1:])
lines, text = re.search(r"    \$ cat \S+\n((?:    .*\n)+)\n    \$ \./mvrlu run \S+\n((?:    .*\n)+)", page.read_text()).groups()
for name, block in (("lines", lines), ("text", text)):
    (scratch / name).write_text("".join(line[4:] + "\n" for line in block.splitlines()))
PYTHON
}

# README's sample from outside the folder, by the front end of a tree, which says so much on standard error.
rows_of_the_sample() {
    write_sample || fail 'README shows no sample'
    "$1" run "$scratch/lines" >"$scratch/out" 2>"$scratch/err" || fail "README's sample ends with $?"
    cmp -s "$scratch/text" "$scratch/out" || fail "README's sample prints $(cat "$scratch/out")"
    [ "$(cat "$scratch/err")" = "$2" ] || fail "README's sample says $(cat "$scratch/err")"
}

# A tree without out/: the sample as from a fresh clone, and a fault of standard input.
rows_of_the_copy() {
    local path=$PATH
    PATH=${PATH#"$scratch/bin:"}
    mkdir "$scratch/copy"
    (cd "$top" && tar -cf - --exclude=out mvrlu build tools crates crates.txt HANDLES) | tar -xf - -C "$scratch/copy"
    rows_of_the_sample "$scratch/copy/mvrlu" "$begun"
    printf 'put l0 5 7\n' | "$scratch/copy/mvrlu" run "$scratch/lines" - >"$scratch/out" 2>"$scratch/err"
    status=$?
    [ "$status" = 3 ] || fail "a fault of standard input, unproved, ends with $status"
    [ "$(cat "$scratch/err")" = "$begun
script 1 line 1: unknown command
/dev/stdin:1: can't be read again, so the line isn't shown" ] || fail "a fault of standard input, unproved: $(cat "$scratch/err")"
    [ -z "$(find "$scratch/copy" -name out -o -name __pycache__)" ] || fail 'an unproved run keeps something'
    PATH=$path
}

# A status, words, and what stands in the last line on standard error.
ends_with() {
    "$top/mvrlu" "${@:3}" </dev/null >"$scratch/out" 2>"$scratch/err"
    status=$?
    [ "$status" = "$1" ] || fail "${*:3}: status $status and not $1"
    [ "$(tail -n 1 "$scratch/err")" = "$2" ] || fail "${*:3}: $(cat "$scratch/err")"
    [ ! -s "$scratch/out" ] || fail "${*:3}: something stands on standard output"
}

# The program's own lines are those behind which the front end says more.
rows_of_real_faults() {
    local script
    for script in 'put:put l0 5 7' 'begin:begin' 'name:add L0 5' 'key:add l0 -1' 'count:move l0 5' 'short:seats 2\nobjects 3\n' \
        'seats:seats 65\n' 'call:seats 2\nobjects 3\nslots 64\nbase 0\nseat 0 comit\n' 'object:seats 2\nobjects 3\nslots 64\nbase 0\nseat 1 read 3\n'; do
        printf '%b' "${script#*:}" >"${script%%:*}"
    done
    ends_with 2 "mvrlu: 'runn' isn't a subcommand: did you mean run?" runn put
    ends_with 4 'mvrlu: SEATS is 1 to 8' pool 9 put
    ends_with 3 'mvrlu: put and get are commands of format 2: let `format 2` be the first line with words' run put
    ends_with 3 'mvrlu: begin is a line of a script of blocks: ./mvrlu block runs one' run begin
    ends_with 3 'mvrlu: the last block has no line `end`' block begin
    ends_with 3 'mvrlu: grow has the set h0 alone' grow name
    ends_with 3 'mvrlu: a KEY is 0 to 4294967295' run key
    ends_with 3 'mvrlu: the command is move SET SET KEY' run count
    ends_with 3 'mvrlu: a plan begins with the lines seats N, objects N, slots N and base N: slots N is missing' replay short
    ends_with 3 'mvrlu: seats takes 1 to 64' replay seats
    ends_with 3 "mvrlu: 'comit' isn't a call: did you mean commit?" replay call
    ends_with 3 'mvrlu: the objects are 0 to 2' replay object
    ends_with 5 'absent: No such file or directory' run absent
}

# A stream that doesn't wait gets the whole text, one file is open at a time, and a lone - is read.
rows_of_real_streams() {
    seq -f 'has l0 %.0f' 20000 >many
    python3 - "$top/mvrlu" <<'PYTHON' || fail 'a pipe that does not wait doesn'"'"'t get the whole text'
import os, subprocess, sys, time

out, into = os.pipe()
os.set_blocking(into, False)
ran = subprocess.Popen([sys.argv[1], "run", "many"], stdout=into)
os.close(into)
time.sleep(1)
text = b"".join(iter(lambda: os.read(out, 1 << 16), b""))
assert ran.wait() == 0 and text.count(b"\n") == 20001, (ran.returncode, text[-80:])
PYTHON
    python3 -c 'import os, resource, sys; resource.setrlimit(resource.RLIMIT_NOFILE, (4, 4)); os.execv(sys.argv[1], sys.argv[1:])' \
        "$program" run many many >/dev/null || fail 'two files are open at a time'
    "$top/mvrlu" run many >&- 2>"$scratch/err"
    [ "$?:$(cat "$scratch/err")" = '6:write fault' ] || fail "a closed output: $(cat "$scratch/err")"
    printf 'add l0 5\n' | "$top/mvrlu" run many - >"$scratch/out" || fail "a lone - ends with $?"
    grep -q '^1\.1 c[0-9]* yes$' "$scratch/out" || fail 'a lone - is not read'
}

# The program in little room, by a limit of ulimit and its kilobytes: its whole text, or that no memory was left.
ends_in_room() {
    (ulimit "$1" "$2" && exec "$program" run chain) >"$scratch/out" 2>"$scratch/err"
    case $? in
        0) cmp -s chained "$scratch/out" || fail "ulimit $*: another text" ;;
        7) [ "$(cat "$scratch/err")" = 'out of memory' ] && [ ! -s "$scratch/out" ] || fail "ulimit $*: $(cat "$scratch/err")" ;;
        *) fail "ulimit $*: status $? and $(cat "$scratch/err")" ;;
    esac
}

# Small stacks, and little memory from where the program can say how it is used: a tree of one long branch to the left is counted.
rows_of_real_room() {
    local key kilobytes refused=0
    for ((key = 300; key > 0; key--)); do printf 'add l0 %d\nmove l0 t0 %d\n' "$key" "$key"; done >chain
    echo 'size t0' >>chain
    "$program" run chain >chained || fail "a long branch ends with $?"
    for kilobytes in 64 128 256; do ends_in_room -s "$kilobytes"; done
    for ((kilobytes = 1024; kilobytes < 12288; kilobytes += 256)); do
        (ulimit -v "$kilobytes" && exec "$program") >/dev/null 2>&1
        [ $? = 2 ] || continue
        ends_in_room -v "$kilobytes"
        [ -s "$scratch/out" ] || refused=$((refused + 1))
    done
    [ "$refused" -gt 0 ] && [ -s "$scratch/out" ] || fail "of the runs in little memory $refused were refused"
}

# A run that waits for a pipe without a writer.
rows_of_real_signals() {
    local caller signal turn
    mkfifo pipe
    for signal in TERM INT HUP; do
        as_at_a_terminal "$top/mvrlu" run pipe &
        caller=$!
        for ((turn = 0; turn < 300; turn++)); do
            ! pgrep -f "$program run pipe" >/dev/null || break
            sleep 0.1
        done
        kill -s "$signal" "$caller"
        wait "$caller" 2>/dev/null
        status=$?
        [ "$status" = $((128 + $(kill -l "$signal"))) ] || fail "SIG$signal to the program: status $status"
        ! pgrep -f "$program run pipe" >/dev/null || fail "SIG$signal leaves the program"
    done
}

# A call takes at most 25 ms more than one of the binary alone, or three times as long as one look at all sources where the machine
# is slower than that: the least of up to 200 calls each, since others may use the machine.
rows_of_time() {
    python3 - "$top/mvrlu" "$program" "$scratch/lines" "$top/crates" <<'PYTHON' || fail 'a call takes too long'
import subprocess, sys, time

front, alone, script, sources = sys.argv[1:]


def milliseconds(*words):
    start = time.perf_counter()
    subprocess.run(words, check=True, stdout=subprocess.DEVNULL)
    return (time.perf_counter() - start) * 1000


def costs():
    look = milliseconds("find", sources, "-name", "out", "-prune", "-o", "-type", "f", "-printf", "%s %T@")
    return milliseconds(front, "run", script), milliseconds(alone, "run", script), look


least = costs()
for turn in range(200):
    least = tuple(map(min, least, costs()))
    more, limit = least[0] - least[1], max(25, 3 * least[2])
    if turn > 20 and more <= 25:
        break
print(f"mvrlu: a call takes {least[0]:.1f} ms, the binary alone {least[1]:.1f} ms, a look at all sources {least[2]:.1f} ms")
assert more <= limit
PYTHON
}
