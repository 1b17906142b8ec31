#!/bin/bash
# What `./mvrlu view` shows and checks. With python3 alone: the model's text of each plan of samples/replay is the stored one, and
# what calls answer in its runs of the schedules of crates/runtime_tests, as plans of tests/plans/write, is what stands there; stored
# texts with one word, line or answer changed are refused; wrong input has one line and no page; each fact that is checked is broken
# by some wrong call; colours have their contrast; the pictures of docs are those that --svg makes. Where node is there, the page's
# tables are compared with the model's; where Chromium is there, the pages are gone through by key. tests/view.sh PROGRAM compares
# the texts of all plans with those of a program too, as it is done where rt ci left one.
set -u
top=$(cd "$(dirname "$0")/.." && pwd)
program=$(readlink -f "${1:-$top/crates/mvrlu_main/out/mvrlu_main}")
scratch=$(mktemp -d) || exit 1
trap 'rm -rf "$scratch"' EXIT
failed=0
export PYTHONDONTWRITEBYTECODE=1 PYTHONPATH="$top/tools:$top/tests/view"

"$top/tests/plans/write" "$scratch/plans" || failed=1
for part in stored sabotage wrong_input wrong_calls looks runs front; do
    python3 "$top/tests/view/$part.py" "$top" "$scratch" || { echo "view: $part failed" >&2; failed=1; }
done
if [ -x "$program" ]; then
    python3 "$top/tests/view/texts.py" "$scratch" "$program" || failed=1
else
    echo 'view: not run: the texts of a program, for there is none'
fi
if command -v node >/dev/null; then
    python3 "$top/tests/view/scenes.py" "$top" "$scratch/scenes.json" && node "$top/tests/view/tables.js" "$top" "$scratch/scenes.json" || failed=1
else
    echo 'view: not run: the tables of a page, for there is no node'
fi
browser=$(command -v chromium || command -v chromium-browser || command -v google-chrome)
if [ -n "$browser" ]; then
    python3 "$top/tests/view/browser.py" "$top" "$scratch" "$browser" || failed=1
else
    echo 'view: not run: the pages in a browser, for there is no Chromium'
fi
[ "$failed" = 0 ] && echo 'view: ok'
exit "$failed"
