# What is said of words that are out of form, and of numbers out of their range; and the page.

rows_of_words() {
    have_program
    rows_of_wrong_words
    rows_of_limits
    rows_of_the_page
}

# Words, and what is said of the first wrong one.
rows_of_wrong_words() {
    local files='run takes options and 1 to 64 files: run [--objects N] [--slots N] [--base N] FILE..'
    wrong "'runn' isn't a subcommand: did you mean run?" runn a
    wrong "'RUN' isn't a subcommand: did you mean run?" RUN a
    wrong "'blok' isn't a subcommand: did you mean block?" blok a
    wrong "'buidl' isn't a subcommand: did you mean build?" buidl
    wrong "'nwe' isn't a subcommand: did you mean new?" nwe
    wrong "'a' isn't a subcommand: ./mvrlu run FILE.. runs scripts" a
    wrong "'sing' isn't a subcommand: they are run, gen, work, block, pool, grow, replay; ./mvrlu help says more" sing
    wrong 'name a subcommand: run, gen, work, block, pool, grow, replay; ./mvrlu help says more'
    wrong "'--object' isn't an option: did you mean --objects?" run --object 200 a
    wrong "'--objects=200' is one word: an option and its value are two, --objects 200" run --objects=200 a
    wrong "'--size' isn't an option: they are --objects, --slots, --base; a file of that name is ./--size" run --size a
    wrong "'--objects' stands behind a file: options stand before the files" run a --objects 200
    wrong "'--slots' stands twice" run --slots 64 --slots 64 a
    wrong "'--slots' has no value behind it: it takes 64 to 4096" run --slots
    wrong "'-5' isn't a number: --base takes 0 to 35184372088831" run --base -5 a
    wrong "'2e3' isn't a number: --objects takes 181 to 65535" run --objects 2e3 a
    wrong "$files" run --slots 64
    wrong "an empty word isn't a FILE: $files" run ''
    wrong "'-a' isn't an option: they are --objects, --slots, --base; a file of that name is ./-a" run a -a
    wrong "'--slots' isn't a FILE, and block takes no options: a file of that name is ./--slots" block --slots 64 a
    wrong "'\xff' isn't UTF-8 text" run $'\xff'
    wrong 'gen takes two numbers: gen NUMBER SEAT' gen 1
    wrong "'one' isn't a number: NUMBER is 1 to 20 decimal digits" gen one 1
    wrong "'3' is one word too many: gen takes two numbers: gen NUMBER SEAT" gen 1 2 3
    wrong 'work takes one number: work NUMBER' work
    wrong "'a' isn't a number: SEATS is 1 to 20 decimal digits" pool a 2
    wrong 'pool takes a number and one file: pool SEATS FILE' pool 2
    wrong "'b' is one word too many: pool takes a number and one file: pool SEATS FILE" pool 2 a b
    wrong "'b' is one word too many: replay takes one file: replay FILE" replay a b
}

wrong() {
    says 2 'usage: run FILE...' "mvrlu: $1" "${@:2}"
}

# Numbers out of their range, with the range that docs/PROGRAM.md gives.
rows_of_limits() {
    says 4 'limit: objects' 'mvrlu: --objects takes 181 to 65535' run --objects 1 a
    says 4 'limit: slots' 'mvrlu: --slots takes 64 to 4096' run --slots 1 a
    says 4 'limit: base' 'mvrlu: --base takes 0 to 35184372088831' run --base 99999999999999 a
    says 4 'limit: number' 'mvrlu: NUMBER is 0 to 18446744073709551615' work 99999999999999999999
    says 4 'limit: seat' 'mvrlu: SEAT is 0 to 3' gen 1 4
    says 4 'limit: seats' 'mvrlu: SEATS is 1 to 8' pool 9 a
    says 4 'limit: files' 'mvrlu: run takes 1 to 64 files' run a a
    says 4 'limit: files' 'mvrlu: block takes 1 to 64 files' block a a
    says 4 'limit: files' 'mvrlu: grow takes 1 to 64 files' grow a a
    says 4 'limit: script 1 bytes' 'a: a script has at most 1048576 bytes' run marked a
    says 4 'limit: script 0 line 70000 commands' 'a: a script has at most 65536 commands' run a
    says 4 'limit: script 1 line 70000 commands' 'a: a script has at most 65536 commands' grow marked a
    says 4 'limit: script 0 line 5 commands' 'a: a plan has at most 65536 steps' replay a
}

# The page stands on standard output, with every subcommand, and nothing runs. A script may be named help.
rows_of_the_page() {
    local words word before
    before=$(wc -l <"$RT_CALLS")
    for words in help --help -h 'run --help' 'run a -h' 'gen help' 'pool 2 --help' 'build --help'; do
        # shellcheck disable=SC2086
        run $words
        [ "$status" = 0 ] || fail "the page ends with $status: $words"
        [ ! -s "$scratch/err" ] || fail "the page is on standard error: $words"
        for word in run gen work block pool grow replay view build new install uninstall help; do
            grep -q "^\./mvrlu $word " "$scratch/out" || fail "the page has no $word: $words"
        done
        grep -q 'put SET KEY VALUE' "$scratch/out" || fail "the page has no put: $words"
    done
    [ "$before" = "$(wc -l <"$RT_CALLS")" ] || fail 'the page calls rt'
    touch help
    says 0 '' '' run help
    rm help
}
