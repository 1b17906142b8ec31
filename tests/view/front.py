"""`./mvrlu view` itself: it hands its words on, and runs ./mvrlu where no text is stored. A stand-in for the program prints a stored text."""
import pathlib
import shutil
import subprocess
import sys

from given import finish

top, scratch = (pathlib.Path(word) for word in sys.argv[1:3])
tree, plan, text = scratch / "tree", top / "samples/replay/held-log.plan", top / "samples/replay/held-log.text"
wrong = []
for folder in ("tools/view", "bench/checker"):
    shutil.copytree(top / folder, tree / folder, ignore=shutil.ignore_patterns("__pycache__"))
stand_in = tree / "mvrlu"
stand_in.write_text(f'#!/bin/bash\n[ "$*" = "replay {plan}" ] && exec cat {text}\necho "wrong words: $*" >&2\nexit 4\n')
stand_in.chmod(0o755)


def ran(*words):
    done = subprocess.run([str(word) for word in words], capture_output=True, text=True, check=False)
    return done.returncode, done.stdout, done.stderr


page = ran(top / "mvrlu", "view", "replay", plan, text)
if page[0] or page[2] or "</html>" not in page[1]:
    wrong.append(f"./mvrlu view makes no page: {page[0]} {page[2]}")
if ran(sys.executable, "-B", tree / "tools/view", "replay", plan) != page:
    wrong.append("the page of a run is another one than that of the stored text")
if ran(top / "mvrlu", "view", "--check", "replay", plan, text) != (0, "", ""):
    wrong.append("./mvrlu view --check refuses the stored text")
told = ran(sys.executable, "-B", tree / "tools/view", "run", "--slots", "1", "a")
if (told[0], told[1]) != (4, "") or "wrong words: run --slots 1 a\n" not in told[2]:
    wrong.append(f"a program's status isn't handed on: {told}")
if ran(top / "mvrlu", "view", "help")[0] or ran(top / "mvrlu", "view")[0] != 2:
    wrong.append("the page of the words ends with another status")
finish(wrong, "./mvrlu view hands its words on")
