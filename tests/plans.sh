#!/bin/bash
# The schedules of crates/runtime_tests and of tests/plans/stops as plans, which tests/plans/write makes of these tables: whatever the program's replay of a
# plan prints but steps is what the table says, the answers of the calls that end, and the last line too where the table says what
# CLOCK is then. tests/plans.sh PROGRAM tries another program than the one that rt ci left.
set -u
top=$(cd "$(dirname "$0")/.." && pwd)
program=$(readlink -f "${1:-$top/crates/mvrlu_main/out/mvrlu_main}")
[ -x "$program" ] || { echo "plans: there is no $program: ./mvrlu build builds it" >&2; exit 1; }
scratch=$(mktemp -d) || exit 1
trap 'rm -rf "$scratch"' EXIT
failed=0
"$top/tests/plans/write" "$scratch" || failed=1
cd "$scratch" || exit 1
for plan in */*.plan; do
    wanted=$(<"${plan%.plan}.answers") || failed=1
    # The line of a step begins with two numbers.
    answered=$("$program" replay "$plan" | grep -vE '^[0-9]+ [0-9]')
    [[ $wanted == *$'\n'end\ * ]] || answered=${answered%$'\n'end *}
    [ "$answered" = "$wanted" ] && continue
    echo "plans: the answers of $plan are other ones:" >&2
    diff <(echo "$answered") <(echo "$wanted") >&2
    failed=1
done
[ "$failed" = 0 ] && echo 'plans: ok'
exit "$failed"
