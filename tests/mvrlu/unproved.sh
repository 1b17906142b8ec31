# Where no proved binary is current, the words run by `rt try`: what it writes of its own is hidden, and all else is the same.

begun="mvrlu: the program isn't proved yet: this runs it unproved, with checks, about half a minute each time; \
./mvrlu build proves and builds it"

rows_of_unproved_runs() {
    have_none
    rows_of_answers
    rows_of_copies
    rows_of_what_it_cannot
    have_program
}

# A status and a line of the program, words, the words that the program gets with the copies, and what is said behind the line.
answers() {
    local text=$4 added=$5
    ENDS=$1 SAYS=$2
    # shellcheck disable=SC2086
    run $3
    [ "$status" = "$1" ] || fail "unproved, the status is $status and not $1: $3"
    [ "$(cat "$scratch/out")" = "unproved with $text" ] || fail "unproved, another text: $3: $(cat "$scratch/out")"
    [ "$(cat "$scratch/err")" = "$(printf '%s\n%s%s' "$begun" "${SAYS:+$SAYS$'\n'}" "$added")" ] || fail "unproved, $3: $(cat "$scratch/err")"
}

# Statuses, lines and what stands behind them are those of the proved program.
rows_of_answers() {
    local key='mvrlu: a KEY is 0 to 4294967295' a
    a=$(cat a)
    printf 'add l0 5\n' >good
    answers 0 '' 'run good' '2: run 1 and 1=add l0 5;' ''
    answers 2 'usage: run' 'runn a' '2: runn a and ' "mvrlu: 'runn' isn't a subcommand: did you mean run?"
    answers 3 'script 1 line 2: bad key' 'run --slots 64 good a' "5: run --slots 64 3 4 and 3=add l0 5;4=$a;" "$(printf 'a:2: add l0 x^M\n%s' "$key")"
    answers 4 'limit: seats' 'pool 9 good' '3: pool 9 2 and 2=add l0 5;' 'mvrlu: SEATS is 1 to 8'
    answers 5 'read fault: script 1' 'grow good absent good' '4: grow 1 2 3 and 1=add l0 5;' 'absent: No such file or directory'
    answers 5 'read fault: script 0' 'run folder' '2: run 1 and ' 'folder: Is a directory'
    answers 7 'out of memory' 'replay good' '2: replay 1 and 1=add l0 5;' ''
}

# Files of one name in two folders, files from elsewhere, standard input and pipes, 64 files, and no word that isn't text.
rows_of_copies() {
    local many
    mkdir -p one two
    echo first >one/script
    echo second >two/script
    answers 3 'script 1 line 1: unknown command' "block one/script $scratch/elsewhere/two/script" '3: block 1 2 and 1=first;2=second;' \
        "$(printf '%s: second\nmvrlu: %s' "$scratch/elsewhere/two/script:1" \
            "'second' isn't a command: they are add, del, has, move, pair, size, next, put, get, begin, end")"
    answers 0 '' 'run - good' '3: run 1 2 and 1=a line;2=add l0 5;' ''
    answers 0 '' 'run /dev/stdin /dev/stdin' '3: run 1 2 and 1=a line;2=;' ''
    many=$(printf 'good %.0s' {1..64})
    answers 0 '' "run $many" "65: run $(seq -s ' ' 64) and $(printf '%s=add l0 5;' {1..64})" ''
    answers 2 'usage: run' $'run \xff' '0:  and ' "mvrlu: '\xff' isn't UTF-8 text"
    head -c 1048578 /dev/zero >long
    ENDS=4 SAYS='limit: script 0 bytes' run run long good
    [ "$status" = 4 ] || fail "a file of too many bytes, unproved: $status"
    [ "$(grep -ac good "$scratch/out")" = 0 ] || fail 'a file behind one of too many bytes is read'
    rm long
}

# How `rt try` ends, words, and what is said: the status is 1, and nothing stands on standard output.
cannot() {
    export TRIES=$1
    ENDS=0 SAYS=''
    run run good
    export TRIES=ended
    [ "$status" = 1 ] || fail "$1: the status is $status"
    [ ! -s "$scratch/out" ] || fail "$1: something stands on standard output"
    [ "$(tail -n 1 "$scratch/err")" = "mvrlu: $2" ] || fail "$1: $(cat "$scratch/err")"
}

rows_of_what_it_cannot() {
    local built
    built=$(calls ci)
    cannot big 'the text has more than 1 MiB, too much for an unproved run: ./mvrlu build proves and builds the program'
    cannot slow 'it takes more than 60 s, too long for an unproved run: ./mvrlu build proves and builds the program'
    cannot fault "a check at run time failed: ./mvrlu build shows what can't be proved"
    cannot refused 'the sources could not be run unproved, as said above: ./mvrlu build proves and builds the program'
    cannot unable 'the sources could not be run unproved, as said above: ./mvrlu build proves and builds the program'
    grep -q 'AddressSanitizer cannot start' "$scratch/err" || fail "it doesn't say why: $(cat "$scratch/err")"
    "$scratch/repository/mvrlu" run good >/dev/full 2>"$scratch/err"
    status=$?
    [ "$status" = 1 ] || fail "a full device, unproved: $status"
    grep -q '^mvrlu: the text could not be written (No space left on device): ./mvrlu build ' "$scratch/err" || fail "a full device: $(cat "$scratch/err")"
    "$scratch/repository/mvrlu" run good >&- 2>"$scratch/err"
    status=$?
    [ "$status" = 1 ] || fail "a closed output, unproved: $status"
    grep -q '^mvrlu: the text could not be written (Bad file descriptor): ./mvrlu build ' "$scratch/err" || fail "a closed output: $(cat "$scratch/err")"
    "$scratch/repository/mvrlu" run good <&- >"$scratch/out" 2>&-
    [ "$?:$(cat "$scratch/out")" = '0:unproved with 2: run 1 and 1=add l0 5;' ] || fail 'other closed streams, unproved'
    env PATH=/nowhere "$(python3 -c 'import sys; print(sys.executable)')" -B "$scratch/repository/tools/front/unproved.py" absent run good 2>"$scratch/err"
    [ "$(tail -n 1 "$scratch/err")" = 'mvrlu: rt does not start (No such file or directory): this needs the Rattle kit, with rt on the path' ] ||
        fail "without rt: $(cat "$scratch/err")"
    [ "$(calls ci)" = "$built" ] || fail 'an unproved run builds'
}
