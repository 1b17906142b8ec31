#!/bin/bash
# Each plan of samples/replay has the text beside it that the program prints, and what docs/REPLAY.md shows of a text stands in
# it, in that order. What docs/PROGRAM.md and README.md show behind a command is what that command prints; of a pool, whose text may
# be another one, that bench/replay takes both. tests/samples.sh PROGRAM tries another program than the one that rt ci left.
set -u
top=$(cd "$(dirname "$0")/.." && pwd)
program=$(readlink -f "${1:-$top/crates/mvrlu_main/out/mvrlu_main}")
[ -x "$program" ] || { echo "samples: there is no $program: ./mvrlu build builds it" >&2; exit 1; }
scratch=$(mktemp -d) || exit 1
trap 'rm -rf "$scratch"' EXIT
cd "$top/samples/replay" || exit 1
failed=0
for plan in *.plan; do
    "$program" replay "$plan" | cmp - "${plan%.plan}.text" >&2 || { echo "samples: the text of $plan is another one" >&2; failed=1; }
done
python3 - "$top/docs/REPLAY.md" <<'PYTHON' || failed=1
import pathlib, re, sys

wrong = []
shown = set()
for section in pathlib.Path(sys.argv[1]).read_text().split("\n## ")[1:]:
    named = re.match(r".*\n\n`([a-z-]+)`\.", section)
    if not named:
        continue
    name = named[1]
    shown.add(name)
    lines = iter(pathlib.Path(f"{name}.text").read_text().splitlines())
    wrong += [f"{name}: {line}" for line in re.findall(r"^    (.*)", section, re.M) if line != "..." and line not in lines]
wrong += [f"{path.stem} isn't shown" for path in pathlib.Path(".").glob("*.plan") if path.stem not in shown]
for line in wrong:
    print(f"samples: docs/REPLAY.md: {line}", file=sys.stderr)
sys.exit(bool(wrong))
PYTHON

ln -s "$program" "$scratch/mvrlu"
ln -s "$top/samples" "$scratch/samples"
cd "$scratch" || exit 1
python3 - "$top" <<'PYTHON' || failed=1
import pathlib, re, subprocess, sys

top = pathlib.Path(sys.argv[1])
checker = top / "bench/replay"

def run(words, **given):
    return subprocess.run(words, capture_output=True, text=True, **given)

def is_printed(command, text):
    """Whether the last command of a shown block prints this text."""
    printed = run(["bash", "-c", command]).stdout
    words = command.split()
    if words[1] == "pool":
        return all(run([checker, *words[1:]], input=it).returncode == 0 for it in (printed, text))
    return printed == text

def shows(page):
    """Looks at each command that a page shows with its text: the subcommands, and what is printed otherwise than shown."""
    shown, wrong = set(), []
    for block in re.findall(r"(?:^    .*\n)+", (top / page).read_text(), re.M):
        lines = [line[4:] for line in block.splitlines()]
        commands = [line[2:] for line in lines if line.startswith("$ ")]
        if not commands:
            continue
        for command in commands[:-1]:
            run(["bash", "-c", command], check=True)
        shown.add(commands[-1].split()[1])
        if not is_printed(commands[-1], "".join(f"{line}\n" for line in lines[len(commands):])):
            wrong.append(f"{page}: another text is printed by {commands[-1]}")
    return shown, wrong

wanted = {"docs/PROGRAM.md": {"run", "block", "pool", "grow", "replay"}, "README.md": {"run"}}
wrong = []
for page, words in wanted.items():
    shown, others = shows(page)
    wrong += others + [f"{page}: nothing is shown of {word}" for word in words - shown]
for line in wrong:
    print(f"samples: {line}", file=sys.stderr)
sys.exit(bool(wrong))
PYTHON
[ "$failed" = 0 ] && echo 'samples: ok'
exit "$failed"
