#!/bin/bash
# ./mvrlu install and ./mvrlu uninstall, of the archive that ./build makes: what stands below a prefix, what is refused, and that the
# examples of C and C++ build by what was installed. The program is installed too, where its proved binary is current. That what isn't
# built is built first stands on copies of the front end in a tree of small crates, with a stand-in for rt.
set -u
export LC_ALL=C
cd "$(dirname "$0")/.." || exit 1
top=$PWD
room=$(mktemp -d) || exit 1
trap 'rm -rf "$room"' EXIT
prefix=$room/prefix
failed=0
for part in tests/install/*.sh; do
    # shellcheck source=/dev/null
    . "$part"
done

fail() {
    echo "install: $*" >&2
    failed=1
}

# Calls ./mvrlu with the words, by the command in `as`, and leaves its status.
as=()
run() {
    "${as[@]}" "$top/mvrlu" "$@" >"$room/out" 2>"$room/err"
    status=$?
}

# That a call ends with a status, and one line that has this text.
says() {
    local wanted=$1 text=$2
    shift 2
    run "$@"
    [ "$status" = "$wanted" ] || fail "$*: the status is $status, not $wanted: $(cat "$room/err")"
    [ "$(wc -l <"$room/err")" = 1 ] && grep -qF -- "$text" "$room/err" || fail "$*: not '$text': $(cat "$room/err")"
    [ ! -s "$room/out" ] || fail "$*: it writes on standard output"
}

# All that is in a folder, with what it is, and the times of its files.
list() {
    (cd "$1" && find . -mindepth 1 \( -type d -printf '%p %m\n' -o -printf '%p %y %m %s %T@ %l\n' \) | sort)
}

bash tests/library/archive.sh "$room/libmvrlu.a" || { echo "install: the archive was not built"; exit 1; }
rows_of_what_is_installed
rows_of_a_second_install
rows_of_uninstall
rows_of_bad_prefixes
rows_of_failures
rows_of_pages
rows_of_programs
rows_of_cmake
rows_of_the_program
rows_of_first_builds
[ "$failed" = 0 ] && echo 'install: ok'
exit "$failed"
