#!/bin/bash
# Stores, sections, seats and handles must be spent, and once: each text of tests/misuse/ is tried as a crate over mv_history and
# mvrlu, before any proof, and the compiler must refuse each function under a line '// refused: WORDS' with these words. The same
# without the misuse is the crate must_be_spent, which the gate proves; its edits are the calls whose conditions don't hold.
set -u
here=$(cd "$(dirname "$0")/.." && pwd)
scratch=$(mktemp -d) || exit 1
trap 'rm -rf "$scratch"' EXIT
mkdir "$scratch/crates"
cp "$here/HANDLES" "$scratch/"
below="mv_history mv_layout mv_core version_chain commit_clock reader_marks seat_log object_lock commit_abort log_reclaim mvrlu"
for crate in $below; do
    mkdir "$scratch/crates/$crate"
    for folder in src specs proofs; do
        [ ! -d "$here/crates/$crate/$folder" ] || cp -rp "$here/crates/$crate/$folder" "$scratch/crates/$crate/"
    done
    grep "^$crate:" "$here/crates.txt"
done > "$scratch/crates.txt"

# Prints, for each line '// refused: WORDS', its number, the number of the next one or a great one, and the words.
list_wanted() {
    awk '/^\/\/ refused: / { if (at) print at, NR, words; at = NR; words = substr($0, 13) }
        END { if (at) print at, 1000000, words }' "$1"
}

# Whether the log names a line between these two, with the words.
is_refused() {
    awk -v from="$1" -v to="$2" -v words="$3" '
        index($0, words) && match($0, /src\/lib\.rt:[0-9]+/) {
            line = substr($0, RSTART + 11, RLENGTH - 11) + 0
            if (from < line && line < to) found = 1
        }
        END { exit !found }' "$scratch/log"
}

refused=0
status=0
for text in "$here"/tests/misuse/*.txt; do
    name=$(basename "$text" .txt)
    mkdir -p "$scratch/crates/misuse_$name/src"
    cp "$text" "$scratch/crates/misuse_$name/src/lib.rt"
    echo "misuse_$name: mvrlu mv_history" >> "$scratch/crates.txt"
    (cd "$scratch/crates/misuse_$name" && rt try --test) > "$scratch/log" 2>&1
    list_wanted "$text" > "$scratch/wanted"
    while read -r from to words; do
        if is_refused "$from" "$to" "$words"; then
            refused=$((refused + 1))
        else
            echo "misuse: line $from of $name must be refused with $words, and is not:"
            tail -n 20 "$scratch/log"
            status=1
        fi
    done < "$scratch/wanted"
    [ -s "$scratch/wanted" ] || { echo "misuse: $name says of no function that it must be refused"; status=1; }
done
echo "misuse: $refused refused"
exit $status
