# ./check fast runs tests and programs unproved, and says how many passed and that nothing was proved.

rows_of_fast() {
    local last='nothing was proved: ./check proves'
    : >"$RT_CALLS"
    (cd "$scratch/repository" && printf 'text\n' >crates/mvrlu_main/stdout && ./check fast wide) >"$scratch/out" 2>&1
    status=$?
    [ "$status" = 0 ] || fail "check fast ends with $status: $(cat "$scratch/out")"
    [ "$(sort "$RT_CALLS")" = "$(printf 'try mvrlu_main\ntry wide')" ] || fail "check fast wide tries $(cat "$RT_CALLS")"
    tail -n 1 "$scratch/out" | grep -qE "^fast: 3 passed, 0 failed in [0-9]+ s; $last\$" || fail "check fast says $(tail -n 1 "$scratch/out")"
    (cd "$scratch/repository" && FAILS=wide ./check fast low) >"$scratch/out" 2>&1 && fail 'a failed test passes'
    grep -q '^fast: tests of wide: 1 passed, 1 failed$' "$scratch/out" || fail "it doesn't tell what failed: $(cat "$scratch/out")"
    tail -n 1 "$scratch/out" | grep -qE "^fast: 6 passed, 1 failed in [0-9]+ s; $last\$" || fail "check fast low says $(tail -n 1 "$scratch/out")"
    (cd "$scratch/repository" && printf 'other\n' >crates/mvrlu_main/stdout && ./check fast mvrlu_main) >"$scratch/out" 2>&1 && fail 'another text passes'
    (cd "$scratch/repository" && ./check fast absent) >/dev/null 2>&1
    [ "$?" = 2 ] || fail 'check fast takes a crate that is none'
    (cd "$scratch/repository" && ./check slow) >/dev/null 2>&1
    [ "$?" = 2 ] || fail 'check takes another word'
}
