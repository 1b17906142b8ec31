#!/bin/bash
# The library for C: builds the archive, and runs each call of include/mvrlu.h, the bank and the list of examples/c,
# and random histories, with each compiler and sanitizer that is there, and of C++ what wants other words of a compiler
# than tests/install.sh has; an absent one is told as not run. Ends with 1 at the first that fails.
cd "$(dirname "$0")/.." || exit 1
room=$(mktemp -d) || exit 1
trap 'rm -rf "$room"' EXIT

fail() {
    echo "library: $*"
    exit 1
}

# Builds a program of these sources with these words of a compiler, and runs it; what it prints has to begin with this.
expect() {
    local name=$1 wanted=$2 said
    shift 2
    "$@" -pthread "$room/libmvrlu.a" -o "$room/program" >"$room/log" 2>&1 ||
        { cat "$room/log"; fail "$name does not build"; }
    said=$("${under[@]}" "$room/program" 2>&1) || { echo "$said"; fail "$name failed"; }
    [[ $said == "$wanted"* ]] || { echo "$said"; fail "$name says something else"; }
    run=$((run + 1))
}

# Whether a program of nothing runs with these words of gcc: not every kernel carries each sanitizer.
carries() {
    printf 'int main(void) { return 0; }\n' >"$room/nothing.c"
    gcc "$@" "$room/nothing.c" -o "$room/nothing" >/dev/null 2>&1 && "$room/nothing" >/dev/null 2>&1 && return
    echo "library: $* doesn't run here, not run"
    return 1
}

bash tests/library/archive.sh "$room/libmvrlu.a" || fail "the archive was not built"

strict=(-std=c11 -Wall -Wextra -Werror -Iinclude)
calls='calls: '
sets='sets: '
moves='moves 200000 beside pairs 100000, none wrong'
walks='walks 30000, each of one state'
table='table: '
grows='grown by '
bank='transfers 100000, each sum 64000'
tellers='transfers 200000, each sum 64000'
list='changes 40000, each walk 64 keys'
closing='closed 1061 domains, each with its last time'
grace='replaced 20000, freed 20000, read none that was freed'
under=()
run=0
sed 's/TELLERS = 2/TELLERS = 4/' examples/c/bank.c >"$room/bank.c"
for compiler in gcc clang; do
    command -v "$compiler" >/dev/null || { echo "library: $compiler isn't there, not run"; continue; }
    expect "calls by $compiler" "$calls" "$compiler" "${strict[@]}" -O2 tests/library/calls.c
    expect "bank by $compiler" "$bank" "$compiler" "${strict[@]}" -O2 examples/c/bank.c
    expect "bank of four tellers by $compiler" "$tellers" "$compiler" "${strict[@]}" -O2 "$room/bank.c"
    expect "list by $compiler" "$list" "$compiler" "${strict[@]}" -O2 examples/c/list.c
    expect "grace by $compiler" "$grace" "$compiler" "${strict[@]}" -O2 tests/library/grace.c
    expect "closing by $compiler" "$closing" "$compiler" "${strict[@]}" -O2 tests/library/closing.c
    expect "calls on sets by $compiler" "$sets" "$compiler" "${strict[@]}" -O2 tests/library/sets_calls.c
    expect "moves by $compiler" "$moves" "$compiler" "${strict[@]}" -O2 tests/library/sets_moves.c
    expect "walks by $compiler" "$walks" "$compiler" "${strict[@]}" -O2 tests/library/sets_walks.c
    expect "calls on a table by $compiler" "$table" "$compiler" "${strict[@]}" -O2 tests/library/table_calls.c
    expect "a table that grows by $compiler" "$grows" "$compiler" "${strict[@]}" -O2 tests/library/table_grows.c
done

# The programs that gcc alone builds.
by_gcc() {
    local fast=(gcc "${strict[@]}" -O2) debug=(gcc "${strict[@]}" -g) watched mixed
    if "${fast[@]}" -pthread tests/library/single_steps.c -o "$room/single" 2>/dev/null && "$room/single"; then
        expect "calls in the middle of a call" "steps: " "${fast[@]}" tests/library/sets_steps.c
        expect "calls in the middle of a call on a table" "steps of a table: " "${fast[@]}" tests/library/table_steps.c
    else
        echo "library: a thread can't be stepped here, calls in the middle of a call not run"
    fi
    expect "bank unchecked" "$bank" "${fast[@]}" -DMVRLU_UNCHECKED examples/c/bank.c
    expect "random histories" "histories 10000: " "${fast[@]}" -DHISTORIES=10000 tests/library/histories.c
    expect "random histories of sets" "histories of sets 10000: " "${fast[@]}" -DHISTORIES=10000 \
        tests/library/sets_histories.c
    expect "refused memory" "refused requests: " "${fast[@]}" tests/library/refused.c \
        -Wl,--wrap=malloc,--wrap=realloc,--wrap=free
    if carries -fsanitize=address,undefined; then
        watched=("${debug[@]}" "-fsanitize=address,undefined")
        expect "calls under the address sanitizer" "$calls" "${watched[@]}" tests/library/calls.c
        expect "calls on sets under the address sanitizer" "$sets" "${watched[@]}" tests/library/sets_calls.c
        expect "calls on a table under the address sanitizer" "$table" "${watched[@]}" tests/library/table_calls.c
        expect "grace under the address sanitizer" "$grace" "${watched[@]}" tests/library/grace.c
        expect "closing under the address sanitizer" "$closing" "${watched[@]}" tests/library/closing.c
    fi
    if carries -fsanitize=thread; then
        watched=("${debug[@]}" -O1 -fsanitize=thread)
        expect "calls under the thread sanitizer" "$calls" "${watched[@]}" tests/library/calls.c
        expect "calls on sets under the thread sanitizer" "$sets" "${watched[@]}" tests/library/sets_calls.c
        expect "bank under the thread sanitizer" "$bank" "${watched[@]}" examples/c/bank.c
        expect "bank of four tellers under the thread sanitizer" "$tellers" "${watched[@]}" "$room/bank.c"
        expect "random histories under the thread sanitizer" "histories 500: " "${watched[@]}" -DHISTORIES=500 \
            tests/library/histories.c
        expect "moves under the thread sanitizer" "moves 20000 beside pairs 10000," "${watched[@]}" -DROUNDS=5000 \
            tests/library/sets_moves.c
        expect "random histories of sets under the thread sanitizer" "histories of sets 300: " "${watched[@]}" \
            -DHISTORIES=300 tests/library/sets_histories.c
        expect "walks under the thread sanitizer" "walks 3000, " "${watched[@]}" -DROUNDS=500 \
            tests/library/sets_walks.c
        expect "a table that grows under the thread sanitizer" "$grows" "${watched[@]}" -DKEYS=3000u \
            tests/library/table_grows.c
        expect "closing under the thread sanitizer" "closed 161 domains" "${watched[@]}" -DROUNDS=100 \
            tests/library/closing.c
    fi
    if command -v valgrind >/dev/null; then
        under=(valgrind -q --error-exitcode=9 --leak-check=full)
        expect "calls under valgrind" "$calls" "${debug[@]}" tests/library/calls.c
        expect "calls on sets under valgrind" "$sets" "${debug[@]}" tests/library/sets_calls.c
        expect "closing under valgrind" "closed 81 domains" "${debug[@]}" -DROUNDS=20 tests/library/closing.c
        under=()
    else
        echo "library: valgrind isn't there, not run"
    fi
    # A call of one part on a handle of another does not compile.
    for mixed in 'static mvrlu_sets it; return mvrlu_enter(&it);' \
        'static mvrlu_seat it; return mvrlu_sets_add(&it, 0, 0, NULL);' \
        'static mvrlu_table it; return mvrlu_write(&it, 0, NULL);' \
        'static mvrlu_table it; return mvrlu_sets_add(&it, 0, 0, NULL);' \
        'static mvrlu_table it; return mvrlu_raw_sets_add(&it.raw, 0, 0, NULL);' \
        'static mvrlu_sets it; return mvrlu_table_add(&it, 0, NULL);' \
        'static mvrlu_seat it; return mvrlu_table_split(&it, NULL);'; do
        printf '#include <mvrlu.h>\nint main(void) { %s }\n' "$mixed" >"$room/mixed.c"
        "${fast[@]}" -c "$room/mixed.c" -o "$room/mixed.o" 2>/dev/null && fail "compiles: $mixed"
    done
    return 0
}

if command -v gcc >/dev/null; then
    by_gcc
else
    echo "library: gcc isn't there, what it alone builds not run"
fi
cat >"$room/header.cpp" <<'EOF'
#include <mvrlu.h>
int main() {
    mvrlu_seat seat = {};
    mvrlu_sets sets = {};
    mvrlu_table table = {};
    return mvrlu_enter(&seat) == MVRLU_CLOSED && mvrlu_sets_has(&sets, 0, 0, NULL) == MVRLU_CLOSED
        && mvrlu_table_has(&table, 0, NULL) == MVRLU_CLOSED ? 0 : 1;
}
EOF

# The programs that g++ alone builds.
by_gxx() {
    local strict=(g++ -std=c++17 -Wall -Wextra -Werror -Iinclude)
    expect "the header as C++" "" "${strict[@]}" "$room/header.cpp"
    expect "refused memory of C++" "refused to C++: " "${strict[@]}" -O2 tests/library/refused.cpp \
        -Wl,--wrap=malloc,--wrap=realloc,--wrap=free
    carries -fsanitize=thread || return 0
    expect "a table of C++ under the thread sanitizer" "table: " "${strict[@]}" -g -O1 -fsanitize=thread \
        -DTHREADS_ALONE=true tests/install/table.cpp
}

if command -v g++ >/dev/null; then
    by_gxx
else
    echo "library: g++ isn't there, not run"
fi
echo "library: $run programs ok"
