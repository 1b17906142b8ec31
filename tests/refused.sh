#!/bin/bash
# Each allocation, opening, read and write of the built programs is refused in turn, until a run passes: the status, the line on
# standard error and what was written must be those of that refusal. Every block that `mvrlu` took must be freed at the end, also of
# a run that passes, whose domain is left as a closing. Streams that fail by themselves are tried too.
# tests/refused.sh PROGRAM tries another program than the one that rt ci left.
set -u
top=$(cd "$(dirname "$0")/.." && pwd)
program=$(readlink -f "${1:-$top/crates/mvrlu_main/out/mvrlu_main}")
[ -x "$program" ] || { echo "refused: there is no $program: ./mvrlu build builds it" >&2; exit 1; }
scratch=$(mktemp -d) || exit 1
trap 'rm -rf "$scratch"' EXIT
clang=$(dirname "$(rt doc)")/toolchain/bin/clang
"$clang" -shared -fPIC -O1 -nostdlib -fuse-ld=lld -o "$scratch/refuse.so" "$top/tests/refused/refuse.c" || exit 1
cd "$scratch" || exit 1
printf 'add l0 5\nhas l0 5\n' >script
printf 'begin\nadd l0 5\nmove l0 t0 5\nend\nhas t0 5\n' >blocks
printf 'add h0 5\nadd h0 21\nhas h0 21\n' >growing
printf 'seats 1\nobjects 1\nslots 64\nbase 0\nseat 0 enter\nseat 0 leave\nstep 0 0 0 0 0\n' >plan
: >empty
failed=0

fail() {
    echo "refused: $1" >&2
    failed=1
}

# Runs the program with the words, and what comes before them in the environment.
run() {
    rm -f left
    env "$@" >out 2>err
    status=$?
}

# Runs a program with the words of which this call of the kind is refused, with at most so many bytes a call.
refuse() {
    run REFUSE_KIND="$1" REFUSE_AT="$2" REFUSE_MOST="$3" REFUSE_LEFT=left LD_PRELOAD="$scratch/refuse.so" "${@:4}"
}

# That the last run, which this was, freed every block that it took.
must_free() {
    [ "$(cat left)" = 0 ] || fail "$1: $(cat left) blocks are left"
}

# That the last run ended so: its status, its line on standard error, and on standard output so many bytes of the text.
must() {
    [ "$status" = "$1" ] || fail "$2: status $status and not $1"
    [[ "$(cat err)" =~ ^$3$ ]] || fail "$2: '$(cat err)' on standard error"
    head -c "$4" text | cmp -s - out || fail "$2: '$(cat out)' on standard output"
}

# How many calls of a kind the first file of the words takes: its opening; its reads of so many bytes, and the one that finds its end.
calls_of_first() {
    local kind=$1 most=$2 word
    shift 2
    for word in "$@"; do
        [ -f "$word" ] || continue
        case $kind in
            open) echo 1 ;;
            *) echo $((($(wc -c <"$word") + most - 1) / most + 1)) ;;
        esac
        return
    done
}

# Refuses call after call of a kind in runs of the words, until one passes or a fault is found; each must end with the status
# and the line, in which N stands for the number of the file whose call it was. Where a write is refused, the bytes are there
# that the writes before it moved.
sweep() {
    local kind=$1 most=$2 wanted=$3 line=$4 at before=0 first
    shift 4
    first=$(calls_of_first "$kind" "$most" "$@")
    "$program" "$@" >text 2>/dev/null || { fail "no text: $*"; return; }
    for ((at = 1; at <= 1000 && failed == 0; at++)); do
        refuse "$kind" "$at" "$most" "$program" "$@"
        must_free "$kind $at of $*"
        [ "$status" = 0 ] && break
        [ "$kind" = write ] && before=$((most * (at - 1)))
        must "$wanted" "$kind $at of $*" "${line/N/$((at > first))}" "$before"
    done
    [ "$failed" = 0 ] || return
    [ "$at" -gt 1 ] || fail "no $kind of $* was refused"
    must 0 "$*" '' "$(wc -c <text)"
    counts+=", $((at - 1)) of $kind"
}

counts=
for words in 'run script' 'run script empty' 'block blocks empty' 'pool 1 script' 'grow growing empty' 'replay plan'; do
    # shellcheck disable=SC2086
    {
        sweep alloc 1000000 7 'out of memory' $words
        sweep open 1000000 5 'read fault: script N' $words
        sweep read 3 5 'read fault: script N' $words
        sweep write 3 6 'write fault' $words
        sweep write 1000000 6 'write fault' $words
    }
done

# Two files so long that two threads put their lines in order and render them. Where these get no memory, one thread does it, and the
# text is whole; all lines are reads of time 0, so there is one text. Other allocations are refused as in a short run.
sweep_parts() {
    local at whole=0 refused=0
    for ((at = 0; at < 2100; at++)); do echo 'has l0 5'; done >long
    "$program" run long long >text 2>/dev/null || { fail 'no text of long files'; return; }
    for ((at = 1; at <= 400 && failed == 0; at++)); do
        refuse alloc "$at" 1000000 "$program" run long long
        must_free "alloc $at of long files"
        if [ "$status" = 0 ]; then
            must 0 "alloc $at of long files" '' "$(wc -c <text)"
            whole=$((whole + 1))
        else
            must 7 "alloc $at of long files" 'out of memory' 0
            refused=$((refused + 1))
        fi
    done
    [ "$refused" -gt 0 ] && [ "$whole" -gt 0 ] || fail 'no alloc of long files was refused'
    counts+=", $refused of alloc with long files"
}
sweep_parts

# A call that a signal interrupts (4), or that would wait (11), is made again: the text is whole.
pass_again() {
    local kind error at
    "$program" "$@" >text || { fail "no text: $*"; return; }
    for kind in open read write; do
        for error in 4 11; do
            for at in 1 2 3; do
                REFUSE_ERROR=$error refuse "$kind" "$at" 3 "$program" "$@"
                must_free "$kind $at of $* again"
                must 0 "$kind $at of $* with the error $error" '' "$(wc -c <text)"
            done
        done
    done
}
pass_again run script

# The program over eight accounts: where its domain, its seats or its workers get no memory, nothing is written. What it takes
# later on comes after the whole report.
sweep_accounts() {
    local accounts=$top/crates/accounts_main/out/accounts_main at refused=0
    [ -x "$accounts" ] || { fail "there is no $accounts"; return; }
    for ((at = 1; at <= 1000; at++)); do
        refuse alloc "$at" 1000000 "$accounts"
        case $status in
            0) break ;;
            1) ;;
            *) fail "alloc $at of accounts: status $status"; return ;;
        esac
        if [ -s out ]; then
            cmp -s out "$top/crates/accounts_main/stdout" || { fail "alloc $at of accounts: '$(cat out)' on standard output"; return; }
        else
            [ "$(cat err)" = 'no memory for the domain' ] || { fail "alloc $at of accounts: '$(cat err)' on standard error"; return; }
            refused=$((refused + 1))
        fi
    done
    cmp -s out "$top/crates/accounts_main/stdout" || fail 'accounts: another text'
    [ "$refused" -gt 0 ] || fail 'no alloc of accounts was refused'
    counts+=", $refused of alloc in accounts"
}
sweep_accounts

# Standard output that takes nothing, a folder, and a standard error that can't be written, which changes no status.
: >out
"$program" run script >/dev/full 2>err
status=$?
must 6 'a full device' 'write fault' 0
run "$program" run .
must 5 'a folder' 'read fault: script 0' 0
run "$program" run script .
must 5 'a folder behind a file' 'read fault: script 1' 0
run "$program" run script absent
must 5 'no file' 'read fault: script 1' 0
# A name that stands twice is told by its first place.
run "$program" run script script absent absent
must 5 'no file twice' 'read fault: script 2' 0
refuse open 3 1000000 "$program" run empty script script
must 5 'the second opening of a file' 'read fault: script 1' 0
refuse write 1 1000000 "$program"
must 2 'no standard error' '' 0

[ "$failed" = 0 ] && echo "refused: ok${counts}"
exit "$failed"
