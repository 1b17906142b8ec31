# A signal to ./mvrlu ends the program too, whether it is proved or not, and a program that a signal ends is told as such.

rows_of_signals() {
    local signal kind
    for kind in proved unproved; do
        if [ "$kind" = proved ]; then have_program; else have_none; fi
        for signal in TERM INT HUP; do
            ends_by "$signal" "$kind"
        done
    done
    have_program
}

ends_by() {
    local caller wanted program
    rm -f "$scratch/pid"
    SLEEPS=$scratch/pid as_at_a_terminal "$scratch/repository/mvrlu" run a </dev/null >/dev/null 2>&1 &
    caller=$!
    await "$scratch/pid"
    program=$(cat "$scratch/pid")
    kill -s "$1" "$caller"
    wait "$caller" 2>/dev/null
    status=$?
    wanted=$((128 + $(kill -l "$1")))
    [ "$status" = "$wanted" ] || fail "SIG$1 to a $2 run: status $status and not $wanted"
    ! kill -0 "$program" 2>/dev/null || fail "SIG$1 leaves a $2 program"
}
