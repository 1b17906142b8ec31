# What `./mvrlu new` makes: a repository of one's own with the counter under the folder's name, and what it refuses.

rows_of_new() {
    rows_of_a_new_folder
    rows_of_refused_folders
}

# The folder lists each crate that it has, and no others; its sources name no counter; nothing runs.
rows_of_a_new_folder() {
    local before listed there
    before=$(wc -l <"$RT_CALLS")
    "$top/mvrlu" new "$scratch/made/tally" >"$scratch/out" 2>"$scratch/err" || fail "new ends with $?: $(cat "$scratch/err")"
    grep -q '^mvrlu: .*/made/tally has the crate tally and its program tally_main' "$scratch/out" || fail "new says $(cat "$scratch/out")"
    listed=$(sed -n 's/^\([a-z_]*\):.*/\1/p' "$scratch/made/tally/crates.txt" | sort)
    there=$(cd "$scratch/made/tally/crates" && printf '%s\n' * | sort)
    [ "$listed" = "$there" ] || fail "new lists $listed, and made $there"
    grep -qx 'tally: client_run .*' "$scratch/made/tally/crates.txt" || fail 'new lists no crate of its own'
    grep -qx 'tally_main: tally mv_history' "$scratch/made/tally/crates.txt" || fail 'new lists no program'
    cmp -s "$top/HANDLES" "$scratch/made/tally/HANDLES" || fail 'new leaves HANDLES out'
    ! grep -rqE 'Rattle\.counter\.|use counter::' "$scratch/made/tally" || fail 'new leaves the name of the counter'
    ! grep -rqE '`counter(_main)?`' "$scratch/made/tally"/crates/tally{,_main} || fail 'new leaves the name of the counter'
    cmp -s "$top/crates/counter_main/stdout" "$scratch/made/tally/crates/tally_main/stdout" || fail 'new leaves what the program prints out'
    [ -z "$(find "$scratch/made/tally" -name out -o -name must-fail)" ] || fail 'new copies what was made, or wrong bodies'
    [ "$before" = "$(wc -l <"$RT_CALLS")" ] || fail 'new calls rt'
}

# Words that are out of form, and folders that can't be made, leave nothing.
rows_of_refused_folders() {
    local words
    mkdir -p "$scratch/made/there"
    for words in '' 'a b' '--help-me' "$scratch/made/there" "$scratch/made/mvrlu" "$scratch/made/Tally" "$scratch/made/5"; do
        # shellcheck disable=SC2086
        "$top/mvrlu" new $words >"$scratch/out" 2>"$scratch/err"
        [ "$?" = 2 ] || fail "new takes '$words'"
        [ "$(grep -c '^mvrlu: ' "$scratch/err")" = 1 ] && [ ! -s "$scratch/out" ] || fail "new says of '$words': $(cat "$scratch/err")"
    done
    [ -z "$(ls "$scratch/made/there")" ] && [ ! -e "$scratch/made/mvrlu" ] && [ ! -e "$scratch/made/Tally" ] || fail 'new made a refused folder'
}
