# Which binary is current: the one whose stamp is that of the sources, by size and time, or that is newer than all of them.

rows_of_stamps() {
    have_none
    have_program
    is_proved 'it was built'
    "$scratch/repository/mvrlu" run a </dev/null >&- 2>/dev/null
    [ "$?" = 5 ] || fail 'a closed output changes the status'
    change_each_source
    is_kept_where_nothing_changed
    rows_of_other_binaries
    rows_of_places_of_the_front
}

# That a call runs the proved binary, and says nothing of its own.
is_proved() {
    ENDS=5 SAYS='to err'
    run run "a b"
    [ "$status" = 5 ] || fail "$1: the status is $status, not the program's"
    [ "$(cat "$scratch/out")" = "$(printf 'in %s with 2: run a b\na line' "$(pwd -P)")" ] || fail "$1: folder, words or input were changed"
    [ "$(cat "$scratch/err")" = "to err" ] || fail "$1: $(cat "$scratch/err")"
}

# That a call says that the binary is older, and runs unproved.
is_older() {
    ENDS=0 SAYS=''
    run run "a b"
    [ "$(head -n 1 "$scratch/err")" = "mvrlu: the proved program is older than its sources: this runs them unproved, with checks, \
about half a minute each time; ./mvrlu build proves and builds them" ] || fail "$1: $(cat "$scratch/err")"
    grep -q '^unproved with 2: run 1' "$scratch/out" || fail "$1: $(cat "$scratch/out")"
}

# A source of another size, of an older time, a new one and one that is gone: each makes the binary older until it is undone.
change_each_source() {
    local tree=$scratch/repository source
    for source in crates/mvrlu_main/src/main.rt crates/low/src/lib.rt crates.txt HANDLES; do
        cp -p "$tree/$source" "$scratch/kept"
        touch -d '-2 days' "$tree/$source"
        is_older "an older time of $source"
        echo '# more' >>"$tree/$source"
        touch -r "$scratch/kept" "$tree/$source"
        is_older "another size of $source"
        cp -p "$scratch/kept" "$tree/$source"
        is_proved "$source as it was"
    done
    touch "$tree/crates/high/src/more.rt"
    is_older 'a source more'
    rm "$tree/crates/high/src/more.rt"
    mkdir "$tree/crates/low/specs"
    touch "$tree/crates/low/specs/Lib.antt"
    is_older 'a folder of sources more'
    rm -r "$tree/crates/low/specs"
    mv "$tree/crates/high/src/lib.rt" "$scratch/kept"
    is_older 'a source less'
    mv "$scratch/kept" "$tree/crates/high/src/lib.rt"
    is_proved 'the sources as they were'
}

# What isn't a source of the program changes nothing, and neither does another order of the files.
is_kept_where_nothing_changed() {
    local tree=$scratch/repository
    mkdir -p "$tree/crates/other/src" "$tree/crates/low/out"
    touch "$tree/crates/other/src/lib.rt" "$tree/crates/low/out/more.rt"
    is_proved 'a crate on which the program does not stand'
    sort -r -o "$tree/crates/mvrlu_main/out/sources" <(tail -n +2 "$tree/crates/mvrlu_main/out/sources") || fail 'no stamp'
    sed -i "1i $(echo crates/{low,wide,high,mvrlu_main}/{src,specs,proofs})" "$tree/crates/mvrlu_main/out/sources"
    is_proved 'another order of the stamp'
}

# A binary that `rt` left by itself is current where no source is newer, and has a stamp from then on.
rows_of_other_binaries() {
    local tree=$scratch/repository
    cp "$scratch/program" "$tree/crates/mvrlu_main/out/mvrlu_main"
    touch -d '+2 seconds' "$tree/crates/mvrlu_main/out/mvrlu_main"
    is_proved 'a binary that rt left'
    touch -d '-2 days' "$tree/crates/low/src/lib.rt"
    is_older 'a source of an older time, behind that'
    rm "$tree/crates/mvrlu_main/out/sources"
    touch -d '+9 seconds' "$tree/crates/low/src/lib.rt"
    is_older 'a newer source, and no stamp'
    touch "$tree/crates/low/src/lib.rt"
    have_program
}

# By a link, by a relative path, and in a folder in which nothing can be written.
rows_of_places_of_the_front() {
    ln -s "$scratch/repository/mvrlu" link
    ENDS=0 SAYS='' ./link run x </dev/null 2>/dev/null | grep -q 'with 2: run x' || fail 'by a link it finds no program'
    (cd "$scratch" && CDPATH=/usr repository/mvrlu run x </dev/null 2>/dev/null | grep -q 'with 2: run x') || fail 'by a path below'
    (cd "$scratch" && ENDS=0 bash -c 'cd repository && bash mvrlu run x' </dev/null 2>/dev/null | grep -q 'with 2: run x') || fail 'by its name alone'
    rm link
}
