"""Texts of runs: those that docs/PROGRAM.md shows of stored scripts hold, and changed ones are refused."""
import json
import pathlib
import re
import sys

from given import finish, view

top, scratch = (pathlib.Path(word) for word in sys.argv[1:3])
wrong = []


def shown(command):
    """The text that the page shows behind a command."""
    page = (top / "docs/PROGRAM.md").read_text()
    behind = page[page.index(f"    $ ./mvrlu {command}\n"):].split("\n")[1:]
    lines = []
    for line in behind:
        if not line.startswith("    "):
            break
        lines.append(line[4:])
    return "".join(f"{line}\n" for line in lines)


(scratch / "a").write_text("add l0 5\nhas l0 5\n")
(scratch / "b").write_text("add l0 5\nhas l0 5\nadd l0 6\n")
CASES = [
    ("run a", ["run", scratch / "a"], "c1 yes", "c1 no", 1),
    ("block samples/blocks.txt", ["block", top / "samples/blocks.txt"], "0.3 c1 no yes", "0.3 c1 yes no", 1),
    ("pool 2 a", ["pool", "2", scratch / "b"], "0.2 r1", "0.2 r0", 2),
    ("grow samples/grow.txt", ["grow", top / "samples/grow.txt"], "0.6 r6 33", "0.6 r6 34", 6),
]
for command, words, old, new, line in CASES:
    text = shown(command)
    stored = scratch / "stored"
    stored.write_text(text)
    if (ran := view("--text", stored, "--check", *words)) != (0, "", ""):
        wrong.append(f"{command}: the shown text is refused: {ran}")
    model = json.loads(view("--text", stored, "--model", *words)[1])
    rows = [f"{seat}.{number} {'c' if commit else 'r'}{time} {reply}" for seat, number, commit, time, reply, *_ in model["lines"]]
    if rows != [row for row in text.splitlines() if re.match(r"\d+\.", row)] or not all(row[6] for row in model["lines"]):
        wrong.append(f"{command}: other lines are shown")
    stored.write_text(text.replace(old, new, 1))
    status, out, err = view("--text", stored, "--check", *words)
    if (status, out) != (1, "") or not err.startswith(f"view: {stored}{f':{line}' if line else ''}: "):
        wrong.append(f"{command}: a changed text: status {status}: {err}")
    page = view("--text", stored, *words)[1]
    if "</html>" not in page:
        wrong.append(f"{command}: no page")
    stored.write_text(text[:text.rindex("log 0")])
    if view("--text", stored, *words)[:2] != (3, ""):
        wrong.append(f"{command}: a text that was cut is taken")
# Adds of rising keys to a tree: the tenth finds 9, and the eleventh may write 12 objects more.
(scratch / "rising").write_text("".join(f"add t0 {key}\n" for key in range(1, 12)))
for words in (["run", scratch / "rising"], ["pool", "1", scratch / "rising"]):
    for live, status in ((42, 0), (54, 0), (55, 1), (41, 1)):
        rows = [*(f"0.{n} c{n} yes" for n in range(1, 12)), "t0 1 2 3 4 5 6 7 8 9 10 11"]
        rows.append(f"log 0 live {live} freed 0 back 0 commits 11 aborts 0 rests 0")
        stored.write_text("".join(f"{row}\n" for row in rows))
        if (ran := view("--text", stored, "--check", *words)).status != status:
            wrong.append(f"{words[0]} of rising keys with {live} versions: {ran}")
finish(wrong, f"{len(CASES)} texts of runs hold, and changed ones are refused")
