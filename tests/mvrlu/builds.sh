# ./mvrlu build: it proves the crates in a copy of them, says how far it is, and goes on with what is kept.

rows_of_builds() {
    have_none
    rows_of_a_first_build
    rows_of_what_is_written
    rows_of_an_interrupted_build
    rows_of_a_failed_build
    rows_of_estimates
    have_program
}

rows_of_a_first_build() {
    local tree=$scratch/repository
    : >"$RT_CALLS"
    run build
    [ "$status" = 0 ] || fail "a build ends with $status"
    [ "$(grep -c '^ci ' "$RT_CALLS")" = 1 ] || fail "it proves by $(cat "$RT_CALLS")"
    proves 'low high wide mvrlu_main' 'a first build'
    head -n 1 "$scratch/err" | grep -qx 'build: 0 of 4 crates proved\(; proving low\)\?; 0 minutes so far, no estimate yet' ||
        fail "a build begins with $(cat "$scratch/err")"
    [ "$(tail -n 1 "$scratch/err")" = 'build: mvrlu_main is proved and built' ] || fail "a build ends with $(cat "$scratch/err")"
    [ "$(ls "$tree/crates/mvrlu_main/out")" = "$(printf 'mvrlu_main\nsources')" ] || fail "it leaves more than the binary and its stamp"
    [ -z "$(ls "$scratch/temporary")" ] || fail "it leaves copies: $(ls "$scratch/temporary")"
    : >"$RT_CALLS"
    run build
    [ "$(cat "$scratch/err")" = 'mvrlu: the proved program is current' ] || fail "a second build says $(cat "$scratch/err")"
    [ ! -s "$RT_CALLS" ] || fail 'a second build proves'
    run build now
    [ "$status" = 2 ] || fail "words behind build end with $status"
    "$tree/build" low 2>"$scratch/err"
    [ "$?:$(cat "$scratch/err")" = '2:build: name one of mvrlu_main' ] || fail "a library is built: $(cat "$scratch/err")"
    have_none
    (cd "$scratch/repository" && python3 -c 'import pty; pty.spawn(["./mvrlu", "build"])' </dev/null) >"$scratch/out"
    grep -q $'\r.*build: 0 of 4 crates proved' "$scratch/out" || fail "no line is rewritten on a terminal: $(cat -v "$scratch/out")"
}

# Which crates it has rt prove, in the order of crates.txt.
proves() {
    [ "$(sed -n 's/^prove //p' "$RT_CALLS" | tr '\n' ' ')" = "$1 " ] || fail "$2 proves $(cat "$RT_CALLS")"
}

# Nothing is written but in out/, also not for a while: the times of folders outside of it stay, in a build and in each kind of run.
rows_of_what_is_written() {
    local tree=$scratch/repository before
    have_none
    mkdir "$tree"/crates/{low,high,wide,mvrlu_main}/out
    before=$(list_outside)
    run run a
    run build
    run run a
    [ "$(list_outside)" = "$before" ] || fail "something is written outside of out/: $(diff <(echo "$before") <(list_outside))"
}

list_outside() {
    find "$scratch/repository" -name out -prune -o -printf '%p %s %T@\n'
}

# Ended while a crate is proved, it leaves no proof behind and no copy, and goes on later with what is kept.
rows_of_an_interrupted_build() {
    local signal building proof
    for signal in TERM INT HUP; do
        have_none
        touch "$RT_SLOW"
        start_build "$signal"
        wait "$building" 2>/dev/null
        status=$?
        proof=$(cat "$RT_SLOW.begun")
        rm -f "$RT_SLOW" "$RT_SLOW.begun"
        [ "$status" = $((128 + $(kill -l "$signal"))) ] || fail "a build that SIG$signal ends has status $status"
        [ "$(tail -n 1 "$scratch/err")" = 'build: interrupted: what rt has kept is not proved again' ] || fail "SIG$signal: $(cat "$scratch/err")"
        [ "$(ls "$RT_KEPT")" = "$(printf 'high\nlow')" ] || fail "SIG$signal loses what rt kept"
        ! kill -0 "$proof" 2>/dev/null || fail "SIG$signal leaves a proof"
        [ -z "$(ls "$scratch/temporary")" ] || fail "SIG$signal leaves copies"
    done
    run build
    is_proved 'a build behind interrupted ones'
}

# Starts a build, and sends it a signal once the last proof of a library has begun.
start_build() {
    as_at_a_terminal "$scratch/repository/mvrlu" build 2>"$scratch/err" &
    building=$!
    await "$RT_SLOW.begun"
    kill -s "$1" "$building"
}

rows_of_a_failed_build() {
    have_none
    touch "$RT_BROKEN" "$scratch/repository/crates.txt"
    run build
    [ "$status" = 1 ] || fail "a build that proves nothing ends with $status"
    [ "$(tail -n 4 "$scratch/err")" = "$(printf 'build: mvrlu_main was not built\n== low\nbroken here\nrt: low NOT PROVED')" ] ||
        fail "it doesn't show why a crate was not proved: $(cat "$scratch/err")"
    [ -z "$(ls "$scratch/temporary")" ] || fail 'it leaves copies of crates that were not proved'
    rm "$RT_BROKEN"
    mv "$scratch/repository/crates/low" "$scratch/away"
    run build
    mv "$scratch/away" "$scratch/repository/crates/low"
    [ "$status" = 1 ] && grep -q '^build: mvrlu_main was not built$' "$scratch/err" && ! grep -q Traceback "$scratch/err" ||
        fail "a crate that is not there: $(cat "$scratch/err")"
}

# 40 of 100 lines were proved in 10 minutes, and those that were kept count for nothing: 10 * 30 / 40 are left. What is being proved
# is where a process works.
rows_of_estimates() {
    PYTHONDONTWRITEBYTECODE=1 PYTHONPATH=$top/tools/front python3 - <<'PYTHON' || fail 'the estimate is another one'
import subprocess

import progress
from proving import Proof

now = [0.0]
progress.time.monotonic = lambda: now[0]
shown = progress.Progress({"kept": 30, "long": 40, "other": 20, "last": 10})
for name, seconds, is_new in (("kept", 2, False), ("long", 598, True)):
    now[0] += seconds
    shown.end(name, is_new)
with Proof({"other"}) as proof:
    (proof.crates / "other").mkdir(parents=True)
    with subprocess.Popen(["sleep", "60"], cwd=proof.crates / "other") as running:
        text = shown.text(now[0], proof.proving())
        running.kill()
assert text == "2 of 4 crates proved; proving other; 10 minutes so far, about 8 left", text
PYTHON
}
