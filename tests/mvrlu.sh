#!/bin/bash
# What ./mvrlu, ./mvrlu build and ./check fast do for a person: which program runs, what is said before and behind its line, how
# interrupts and streams are handled, and how long a call takes. Most rows stand on copies of the front end in a tree of small
# crates, with a stand-in for `rt`, so nothing is proved by them. The rows of mvrlu/real.sh run the program itself: unproved, which
# tests/mvrlu.sh stand-ins leaves out, and proved, as `rt ci` left it, which tests/mvrlu.sh unproved leaves out too.
# Reads and writes that are interrupted are rows of tests/refused.sh.
set -u
top=$(cd "$(dirname "$0")/.." && pwd)
scratch=$(mktemp -d) || exit 1
trap 'rm -rf "$scratch"' EXIT
for part in "$top"/tests/mvrlu/*.sh; do
    # shellcheck source=/dev/null
    . "$part"
done

failed=0
make_stand_ins
rows_of_words
rows_of_lines
rows_of_unproved_runs
rows_of_stamps
rows_of_builds
rows_of_signals
rows_of_fast
rows_of_new
[ "${1-}" = stand-ins ] || rows_of_real_runs "${1-}"
[ -z "$(ls "$TMPDIR")" ] || fail "temporary files are left: $(ls "$TMPDIR")"
[ "$failed" = 0 ] && echo 'mvrlu: ok'
exit "$failed"
