# A tree of small crates with the front end of this repository, a stand-in for `rt`, and what the rows call.

fail() {
    echo "mvrlu: $1" >&2
    failed=1
}

# Notes each call with its crate. Proves crates, by `ci`, as far as they aren't kept, or fails; tries a program, by writing its words,
# the copies that it got, $SAYS and the closing lines of `rt try`, as $TRIES says; or tries tests.
write_rt() {
    cat >"$scratch/bin/rt" <<'STANDIN'
#!/bin/bash
echo "$1 $(basename "$PWD")" >>"$RT_CALLS"
prove() {
    [ ! -e must-fail ] && [ ! -e out ] && [ -d src ] || { echo "$1 is not copied as it should be"; exit 1; }
    [ ! -e "$RT_BROKEN" ] || { printf '== %s\nbroken here\nrt: %s NOT PROVED\n' "$1" "$1"; exit 1; }
    [ ! -e "$RT_SLOW" ] || [ "$1" != wide ] || { echo $$ >"$RT_SLOW.begun"; exec sleep 60; }
    mkdir out
    cp "$STANDINS/program" "out/$1"
    touch "$RT_KEPT/$1"
    printf '== %s\nrt: %s proved\n' "$1" "$1"
}
case $1 in
    ci)
        for crate in $(sed -n 's/:.*//p' crates.txt); do
            echo "prove $crate" >>"$RT_CALLS"
            [ "$crate" = mvrlu_main ] || [ ! -e "$RT_KEPT/$crate" ] || { echo "rt: $crate is kept: it was proved"; continue; }
            cd "crates/$crate" || exit 1
            prove "$crate"
            cd ../..
        done ;;
    try) . "$STANDINS/try" ;;
esac
STANDIN
    cat >"$scratch/program" <<'BINARY'
#!/bin/bash
echo "in $(pwd) with $#: $*"
cat
[ -z "${SLEEPS-}" ] || { echo $$ >"$SLEEPS"; exec sleep 60; }
echo "$SAYS" >&2
exit "$ENDS"
BINARY
    cat >"$scratch/try" <<'TRY'
if [ "$2" = --test ]; then
    [ "$(basename "$PWD")" != "${FAILS-}" ] || { echo 'test result: FAILED. 1 passed; 1 failed; 0 ignored'; exit 1; }
    echo 'test result: ok. 2 passed; 0 failed; 0 ignored'
    echo 'run=ended status=0 runners=1 races=unchecked proved=no' >&2
    exit
fi
[ -z "${SLEEPS-}" ] || { echo $$ >"$SLEEPS"; exec sleep 60; }
shift
texts=
while [ "$1" = --data ]; do
    texts+="${2%%=*}=$(cat "${2#*=}");"
    shift 2
done
shift
closing() {
    printf '%s\nraces: not looked for\n%s proved=no\n' "$1" "$2" >&2
}
case ${TRIES-ended} in
    ended)
        [ ! -e stdout ] || { cat text; closing 'checked: ended status=0' 'run=ended status=0 runners=1'; exit 0; }
        echo "unproved with $#: $* and $texts"
        [ -z "$SAYS" ] || echo "$SAYS" >&2
        closing "checked: ended status=$ENDS" "run=ended status=$ENDS runners=1"
        exit "$ENDS" ;;
    big) closing 'checked: no-answer: the program wrote more than 1048576 bytes to standard output' 'run=no-answer'; exit 6 ;;
    slow) closing 'checked: no-answer: the program did not end within the time limit' 'run=no-answer'; exit 6 ;;
    unable) closing 'checked: no-answer: AddressSanitizer cannot start here' 'run=no-answer'; exit 6 ;;
    fault) closing 'checked: fault: an index at or past the length' 'run=fault'; exit 4 ;;
    refused) echo 'src/lib.rt:1:1: error: no such name' >&2; echo 'run=none proved=no' >&2; exit 1 ;;
esac
TRY
    chmod +x "$scratch/bin/rt" "$scratch/program"
}

# The tree, and what the stand-ins look at.
make_stand_ins() {
    local crate
    mkdir -p "$scratch/bin" "$scratch/temporary" "$scratch/elsewhere" "$scratch/repository/tests" "$scratch/proved"
    for crate in low high wide mvrlu_main; do
        mkdir -p "$scratch/repository/crates/$crate"/{src,must-fail}
        echo '#[test]' >"$scratch/repository/crates/$crate/src/lib.rt"
    done
    rm "$scratch/repository/crates/mvrlu_main/src/lib.rt"
    touch "$scratch/repository/crates/mvrlu_main/src/main.rt"
    echo 'text' >"$scratch/repository/crates/mvrlu_main/text"
    cp -r "$top/mvrlu" "$top/build" "$top/check" "$top/tools" "$scratch/repository/"
    touch "$scratch/repository/HANDLES"
    printf '# Libraries\nlow:\nhigh: low std\nwide: low\nmvrlu_main: high wide low\n' >"$scratch/repository/crates.txt"
    write_rt
    export RT_CALLS=$scratch/calls RT_BROKEN=$scratch/broken RT_SLOW=$scratch/slow RT_KEPT=$scratch/proved STANDINS=$scratch
    export SAYS='' ENDS=0 TMPDIR=$scratch/temporary PATH=$scratch/bin:$PATH
    : >"$RT_CALLS"
    cd "$scratch/elsewhere" || exit 1
    printf 'add l0 5\nadd l0 x\r\n' >a
    printf '\357\273\277add l0 5' >marked
    mkdir folder
}

# Runs ./mvrlu from elsewhere with the words, and a line to read.
run() {
    echo "a line" | "$scratch/repository/mvrlu" "$@" >"$scratch/out" 2>"$scratch/err"
    status=$?
}

# How often rt was called so.
calls() {
    grep -c "^$1 " "$RT_CALLS"
}

# Leaves the program built, with a stamp.
have_program() {
    rm -f "$RT_BROKEN" "$RT_SLOW"
    "$scratch/repository/mvrlu" build 2>/dev/null || fail "the stand-in is not built"
}

# Leaves no program, and nothing that is kept.
have_none() {
    rm -rf "$scratch"/repository/crates/*/out "$scratch"/proved/*
}

# What is said behind the program's line, where a run with the words ends with that status and line: exactly the text.
says() {
    ENDS=$1 SAYS=$2
    local added=$3
    shift 3
    run "$@"
    [ "$status" = "$ENDS" ] || fail "the status is $status and not $ENDS: $*"
    [ "$(cat "$scratch/err")" = "$(printf '%s\n%s' "$SAYS" "$added")" ] || fail "$*: not behind '$SAYS': $(cat "$scratch/err")"
    head -n 1 "$scratch/out" | grep -qF " with $#: $*" || fail "standard output was changed: $*"
}

# Waits until a file has a line.
await() {
    local turn
    for ((turn = 0; turn < 300; turn++)); do
        [ ! -s "$1" ] || return 0
        sleep 0.1
    done
    fail "there is no $1"
}

# Runs ./mvrlu with the words as a shell at a terminal would, where SIGINT isn't ignored.
as_at_a_terminal() {
    exec python3 -c 'import os, signal, sys; signal.signal(signal.SIGINT, signal.SIG_DFL); os.execv(sys.argv[1], sys.argv[1:])' "$@"
}
