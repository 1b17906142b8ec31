# What is said of a faulty line and of a file that can't be read: the file, the line, and what to do.

rows_of_lines() {
    have_program
    rows_of_places
    rows_of_scripts
    rows_of_blocks
    rows_of_plans
    rows_of_streams
}

# The name and the number of the line, and the line with other characters made visible.
rows_of_places() {
    local key='mvrlu: a KEY is 0 to 4294967295'
    says 3 'script 1 line 2: bad key' "$(printf 'a:2: add l0 x^M\n%s' "$key")" run --objects 200 --base 7 marked a
    says 3 'script 0 line 2: bad key' "$(printf 'a:2: add l0 x^M\n%s' "$key")" pool 2 a
    says 3 'script 0 line 9: bad key' "$(printf "a:9: can't be read again, so the line isn't shown\n%s" "$key")" run a
    says 5 'read fault: script 1' 'absent: No such file or directory' run --slots 64 a absent
    says 5 'read fault: script 1' 'absent: No such file or directory' grow a absent
    says 5 'read fault: script 0' 'folder: Is a directory' run folder
    says 7 'out of memory' '' run a
    says 6 'write fault' '' run a
}

# A script of one line, the fault that the program tells of it, and what is said then.
hint() {
    printf '%s\n' "$3" >script
    says 3 "script 0 line 1: $2" "$(printf 'script:1: %s\nmvrlu: %s' "$3" "$4")" $1 script
}

rows_of_scripts() {
    local sets='a SET is l0 to l9, h0 to h9 or t0 to t9'
    hint run 'unknown command' 'put l0 5 7' 'put and get are commands of format 2: let `format 2` be the first line with words'
    hint 'pool 2' 'unknown command' 'get l0 5' 'put and get are commands of format 2: let `format 2` be the first line with words'
    hint run 'unknown command' 'begin' 'begin is a line of a script of blocks: ./mvrlu block runs one'
    hint run 'unknown command' 'seats 2' 'seats is a line of a plan: ./mvrlu replay runs one'
    hint grow 'unknown command' 'put h0 1 2' 'grow has the commands add, del, has, next, size alone; run has put'
    hint grow 'unknown command' 'begin' 'grow has the commands add, del, has, next, size alone; block has begin'
    hint run 'unknown command' 'format 2' 'the format stands once, in the first line with words'
    hint run 'unknown command' 'ADD l0 5' "'ADD' isn't a command: did you mean add?"
    hint run 'unknown command' 'mvoe l0 t0 5' "'mvoe' isn't a command: did you mean move?"
    hint run 'unknown command' 'insert l0 5' "'insert' isn't a command: they are add, del, has, move, pair, size, next, put, get"
    hint run 'wrong number of words' 'move l0 5' 'the command is move SET SET KEY'
    hint run 'unknown format' 'format 3' 'the formats are 1 and 2'
    hint grow 'unknown format' 'format 2' 'a script of a growing set has format 1 alone'
    hint run 'unknown name' 'add L0 5' "$sets"
    hint grow 'unknown name' 'add l0 5' 'grow has the set h0 alone'
    hint run 'bad key' 'add l0 -1' 'a KEY is 0 to 4294967295'
    hint run 'bad value' 'put l0 1 x' 'a VALUE is 0 to 18446744073709551615'
    hint run 'same name twice' 'move l0 l0 4' 'a move takes two different sets'
    printf 'add l0 5\radd l0 6\r' >script
    says 3 'script 0 line 1: wrong number of words' "$(printf 'script:1: add l0 5^Madd l0 6^M\nmvrlu: %s' \
        "lines that end with CR alone aren't told apart: end them with LF, or with CR and LF")" run script
    says 3 'script 0 line 1: unknown command' "$(printf 'marked:1: M-oM-;M-?add l0 5\nmvrlu: %s' \
        'the file begins with a byte order mark: save it without one')" run marked
}

rows_of_blocks() {
    hint block 'nested block' 'begin' 'a block ends with a line `end` before the next one begins'
    hint block 'end without begin' 'end' 'a block begins with a line `begin`'
    hint block 'empty block' 'end' 'a block has 1 to 8 commands'
    hint block 'block too long' 'add l0 9' 'a block has at most 8 commands'
    hint block 'not in a block' 'size l0' 'size and next stand outside of blocks'
    hint block 'block without end' 'add l0 1' 'the last block has no line `end`'
}

# A plan, the number of its faulty line, which is shown, and what is said behind it.
plan() {
    printf '%b' "$3" >plan
    says 3 "script 0 line $2: $1" "$(printf 'plan:%s: %s\nmvrlu: %s' "$2" "$(sed -n "$2p" plan)" "$4")" replay plan
}

rows_of_plans() {
    local heads='seats 2\nobjects 3\nslots 64\nbase 0\n' begins='a plan begins with the lines seats N, objects N, slots N and base N:'
    plan 'unknown command' 1 'seats 2' "$begins objects N is missing"
    plan 'unknown command' 3 'seats 2\nobjects 3\nslots 64\n' "$begins base N is missing"
    plan 'unknown command' 2 'seats 2\nslots 64\n' "$begins objects N stands before 'slots'"
    plan 'unknown command' 1 'add l0 5\n' 'add is a line of a script: ./mvrlu run runs one'
    plan 'unknown command' 1 'begin\n' 'begin is a line of a script: ./mvrlu block runs one'
    plan 'unknown command' 5 "${heads}seats 2\n" 'seats N stands once, among the four first lines'
    plan 'unknown command' 5 "${heads}setp 0\n" "'setp' isn't a line of a plan: did you mean step?"
    plan 'unknown command' 5 "${heads}seat 0 comit\n" "'comit' isn't a call: did you mean commit?"
    plan 'bad number' 1 'seats 65\n' 'seats takes 1 to 64'
    plan 'bad number' 2 'seats 2\nobjects 0\n' 'objects takes 1 to 1024'
    plan 'bad number' 3 'seats 2\nobjects 3\nslots 8\n' 'slots takes 64 to 256'
    plan 'bad number' 4 'seats 2\nobjects 3\nslots 64\nbase x\n' 'base takes 0 to 35184372088831'
    plan 'bad number' 5 "${heads}seat 2 enter\n" 'the seats are 0 to 1'
    plan 'bad number' 5 "${heads}step 0 2\n" 'the seats are 0 to 1'
    plan 'bad number' 5 "${heads}seat 1 read 3\n" 'the objects are 0 to 2'
    plan 'bad number' 5 "${heads}seat 1 write 2 0 0 0 0 0 x\n" 'the words of a write are 0 to 18446744073709551615'
    plan 'wrong number of words' 5 "${heads}seat 1 write 2 0\n" 'the line is seat S write OBJECT and six words'
    plan 'wrong number of words' 5 "${heads}step\n" 'the line is step and one or more seats'
}

# A lone - is standard input, and what came from a pipe can't be shown again.
rows_of_streams() {
    local key='mvrlu: a KEY is 0 to 4294967295' again="can't be read again, so the line isn't shown"
    ENDS=3 SAYS='script 1 line 1: bad key'
    run run a -
    [ "$(cat "$scratch/err")" = "$(printf '%s\n/dev/stdin:1: %s\n%s' "$SAYS" "$again" "$key")" ] || fail "a pipe: $(cat "$scratch/err")"
    grep -qF "with 3: run a /dev/stdin" "$scratch/out" || fail "a lone - isn't handed on as standard input"
    says 3 'script 0 line 1: bad key' "$(printf '/dev/stdin:1: %s\n%s' "$again" "$key")" run /dev/stdin
}
