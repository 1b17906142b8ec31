"""Pages in a headless Chromium, with no driver: a script that is added to each goes through it by key, and compares what it shows with the
model's JSON. At 360, 1,000 and 2,000 pixels, light and dark; nothing may stand beyond the page's width."""
import json
import pathlib
import re
import subprocess
import sys
from concurrent.futures import ThreadPoolExecutor

from given import finish, samples
from view.page import page_of
from view.replay_model import replay_model, scene_at
from view.runs import run_model
from view.scene import people

SIZES = ("360,740", "1000,800", "2000,1200")
top, scratch, browser = pathlib.Path(sys.argv[1]), pathlib.Path(sys.argv[2]), sys.argv[3]
ACTS = (top / "tests/view/acts.js").read_text()
EARLY = "<script>window.errors = []; addEventListener('error', event => errors.push(event.message));</script>"


def expected(model):
    """For each step the texts that have to be seen."""
    found = []
    for step in range(len(model["steps"]) + 1):
        table, texts = scene_at(model, step), []
        for key, held in table.items():
            match key.split(".")[0]:
                case "clock":
                    texts.append(f"CLOCK: {held[0]}")
                case "seat":
                    texts += [held[0], f"MARK {held[1]}", *[text for text in held[2:5] if text]]
                case "version":
                    texts += [f"version {held[1]} of seat {held[0]}", held[5], f"STAMP {held[6]}; SUPER {held[7]}", " ".join(held[8:])]
                case "head":
                    texts.append(f"HEAD{held[0]}")
                case "master":
                    texts.append(" ".join(held))
                case "who":
                    texts += [says for some in people(table, model["seats"], int(key[4:])).values() for _, says, _ in some]
        found.append(sorted(set(texts)))
    return found


def run(path, size):
    words = [browser, "--headless=new", "--no-sandbox", "--disable-gpu", f"--user-data-dir={scratch}/profile-{size}", f"--window-size={size}",
             "--virtual-time-budget=20000", "--dump-dom", path.as_uri()]
    said = subprocess.run(words, capture_output=True, text=True, timeout=180, check=False).stdout
    title = re.search(r"<title>(.*?)</title>", said)
    return title[1] if title else "no page"


def tried(name, page, wanted):
    """A page at each size and in each theme."""
    acts = f"<script>const WANTED = {json.dumps(wanted)};\n{ACTS}</script>"
    path = scratch / f"{name}.html"
    path.write_text(page.replace("<body>", f"<body>{EARLY}", 1).replace("</body>", f"{acts}</body>", 1))
    with ThreadPoolExecutor(len(SIZES)) as pool:
        said = pool.map(lambda size: run(path, size), SIZES)
    return [f"{name} at {size}: {title}" for size, title in zip(SIZES, said) if not title.startswith("FINE")]


wrong, pages = [], 0
for name, plan, _ in samples(top):
    model = replay_model(name, plan)
    wrong += tried(name, page_of(model), expected(model))
    pages += 1
text = "".join(f"0.{number} c{number} yes\n" for number in range(1, 61)) + f"l0 {' '.join(map(str, range(60)))}\n"
script = scratch / "script"
script.write_text("".join(f"add l0 {key}\n" for key in range(60)))
logs = "log 0 live 120 freed 0 back 0 commits 60 aborts 0 rests 0\n"
wrong += tried("run", page_of(run_model("run", [str(script)], "text", text + logs)), [])
finish(wrong, f"{pages + 1} pages were gone through by key, at {len(SIZES)} sizes, light and dark")
