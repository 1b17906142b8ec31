# What isn't built is built first: on copies of the front end, in a tree of small crates with a stand-in for rt.

# A kit whose commands note what they prove: rt proves crates, or fails, and the compiler leaves the archive.
write_rt() {
    local kit=$room/stand-ins/kit
    mkdir -p "$kit"/{bin,c}
    cp "$(dirname "$(rt doc)")/c/liblibc_c.a" "$kit/c/"
    cat >"$room/stand-ins/rt" <<'STANDIN'
#!/bin/bash
[ "$1" = ci ] || exec echo "$KIT/page"
for crate in $(sed -n 's/:.*//p' crates.txt); do
    echo "$crate" >>"$RT_CALLS"
    [ ! -e "$RT_BROKEN" ] || { printf '== %s\nbroken here\nrt: %s NOT PROVED\n' "$crate" "$crate"; exit 1; }
    [ ! -e "$RT_SLOW" ] || { echo $$ >"$RT_SLOW.begun"; exec sleep 60; }
    mkdir -p "crates/$crate/out/rlib"
    [ ! -e "crates/$crate/src/main.rt" ] || cp /bin/true "crates/$crate/out/$crate"
    printf '== %s\nrt: %s proved\n' "$crate" "$crate"
done
STANDIN
    cat >"$kit/bin/rattle" <<'STANDIN'
#!/bin/bash
basename "$PWD" >>"$RT_CALLS"
[[ "$*" == "build --crate-name mvrlu_c src/lib.rt --crate-type staticlib "*" --extern low=../low/out/rlib/low.rlib "* ]] || exit 2
cp "$ARCHIVE" out/libmvrlu_c.a
STANDIN
    chmod +x "$room/stand-ins/rt" "$kit/bin/rattle"
    export KIT=$kit RT_CALLS=$room/calls RT_BROKEN=$room/broken RT_SLOW=$room/slow ARCHIVE=$room/libmvrlu.a
}

make_tree() {
    local crate
    tree=$room/tree
    for crate in low mvrlu_c mvrlu_main; do
        mkdir -p "$tree/crates/$crate/src"
        touch "$tree/crates/$crate/src/lib.rt"
    done
    mv "$tree/crates/mvrlu_main/src/lib.rt" "$tree/crates/mvrlu_main/src/main.rt"
    mkdir "$tree/docs"
    cp -r mvrlu build tools include "$tree/"
    cp -r docs/man "$tree/docs/"
    touch "$tree/HANDLES"
    printf 'low:\nmvrlu_c staticlib: low\nmvrlu_main: low\n' >"$tree/crates.txt"
}

rows_of_first_builds() {
    local tree target=$room/built
    write_rt
    make_tree
    top=$tree as=(env "PATH=$room/stand-ins:$PATH")
    rows_of_builds_that_end "$target"
    rows_of_builds_that_fail "$target"
    top=$PWD as=()
}

# What was proved: each crate, in the order of the calls.
proves() {
    [ "$(cat "$RT_CALLS" 2>/dev/null)" = "$1" ] || fail "$2 proves $(cat "$RT_CALLS")"
    : >"$RT_CALLS"
}

rows_of_builds_that_end() {
    run install --library "$1"
    [ "$status" = 0 ] || fail "a first install ends with $status: $(cat "$room/err")"
    [ "$(head -n 1 "$room/err")" = "mvrlu: the library for C isn't proved as it is: this proves and builds it first, which takes minutes" ] ||
        fail "a first install begins with $(cat "$room/err")"
    grep -q '^build: 0 of 1 crates proved\(; proving low\)\?; 0 minutes so far' "$room/err" || fail "it doesn't say how far it is"
    proves $'low\nmvrlu_c' 'a first install of the library'
    says 0 'is installed in' install --library "$1"
    proves '' 'a second install'
    run install "$1"
    [ "$status" = 0 ] || fail "an install of both ends with $status: $(cat "$room/err")"
    proves $'low\nmvrlu_main' 'an install of both'
    [ -x "$1/bin/mvrlu" ] && [ -e "$1/lib/libmvrlu.a" ] && [ -e "$1/share/man/man1/mvrlu.1" ] || fail "not both: $(find "$1")"
    run install --library "$1"
    [ ! -e "$1/bin" ] && [ ! -e "$1/share/man/man1" ] && [ -e "$1/lib/libmvrlu.a" ] || fail "not the library alone: $(find "$1")"
    run uninstall "$1"
    rmdir "$1" || fail 'uninstall leaves something'
}

rows_of_builds_that_fail() {
    local signal installing proof
    touch "$RT_BROKEN" -d '+2 seconds' "$tree/crates/mvrlu_c/src/lib.rt"
    run install --library "$1"
    [ "$status" = 1 ] && [ "$(tail -n 1 "$room/err")" = 'mvrlu: the library for C was not built, as said above: nothing was installed' ] ||
        fail "a proof that fails: $(cat "$room/err")"
    grep -q 'broken here' "$room/err" || fail "it doesn't show why: $(cat "$room/err")"
    [ ! -e "$1" ] || fail 'a proof that fails leaves the prefix'
    rm "$RT_BROKEN"
    for signal in TERM INT HUP; do
        touch "$RT_SLOW"
        "${as[@]}" python3 -c 'import os, signal, sys; signal.signal(signal.SIGINT, signal.SIG_DFL); os.execv(sys.argv[1], sys.argv[1:])' \
            "$top/mvrlu" install --library "$1" 2>"$room/err" &
        installing=$!
        for ((proof = 0; proof < 300; proof++)); do [ ! -s "$RT_SLOW.begun" ] || break; sleep 0.1; done
        kill -s "$signal" "$installing"
        wait "$installing" 2>/dev/null
        status=$?
        [ "$status" = $((128 + $(kill -l "$signal"))) ] || fail "an install that SIG$signal ends has status $status"
        ! kill -0 "$(cat "$RT_SLOW.begun")" 2>/dev/null || fail "SIG$signal leaves a proof"
        [ ! -e "$1" ] || fail "SIG$signal leaves the prefix"
        rm -f "$RT_SLOW" "$RT_SLOW.begun"
    done
}
