"""Colours, the size of a page, and the pictures of the documents."""
import pathlib
import re
import sys
import xml.etree.ElementTree as Tree

from given import finish, samples
from view import colours
from view.page import page_of
from view.picture import picture_of
from view.plan import read_plan
from view.replay_model import replay_model

LEAST_CONTRAST = 4.5
MOST_BYTES = 400_000
PAPERS = ("ground", "panel", "faint")
UNREAD = (*PAPERS, "rule", "free", "on")  # no text has these colours

top = pathlib.Path(sys.argv[1])
wrong = []
for name, own, seats in (("light", colours.LIGHT, colours.SEATS_LIGHT), ("dark", colours.DARK, colours.SEATS_DARK)):
    inks = {ink: colour for ink, colour in own.items() if ink not in UNREAD} | {f"seat {at}": colour for at, colour in enumerate(seats)}
    for ink, colour in inks.items():
        wrong += [f"{name}: {ink} on {paper}" for paper in PAPERS if colours.contrast(colour, own[paper]) < LEAST_CONTRAST]
        if colours.contrast(colour, own["on"]) < LEAST_CONTRAST and ink not in ("ink", "soft", "cursor"):
            wrong.append(f"{name}: a tag of {ink}")
if abs(colours.contrast("#000000", "#ffffff") - 21) > 1e-9 or abs(colours.contrast("#777777", "#ffffff") - 4.478) > 0.001:
    wrong.append("the contrast is another one than that of the guidelines")

# A plan of 1,000 turns, in which two seats lock, write, commit, read and reclaim.
calls = "".join(f"seat {seat} {call}\n" for _ in range(16) for seat in (0, 1)
                for call in ("enter", "read 0", "lock 1", "write 1 1 2 3 4 5 18446744073709551615", "commit", "abort", "tidy"))
turns = "".join(f"step {' '.join(str(number // 7 % 2) for number in range(row * 20, row * 20 + 20))}\n" for row in range(50))
model = replay_model("long", read_plan("long", f"seats 2\nobjects 2\nslots 64\nbase 0\n{calls}{turns}"))
page = page_of(model)
if len(model["steps"]) < 900 or len(page.encode()) >= MOST_BYTES:
    wrong.append(f"a page of {len(model['steps'])} steps has {len(page.encode())} bytes")
if re.search(r"(src|href)=.?https?:|@import|fetch\(|XMLHttpRequest", page):
    wrong.append("the page names something of the network")

models = {name: replay_model(name, plan) for name, plan, _ in samples(top)}
count = 0
for path in sorted((top / "docs/pictures").glob("*.svg")):
    name, step = re.fullmatch(r"(.*)-(\d+)", path.stem).groups()
    count += 1
    drawn = Tree.parse(path).getroot()
    if "prefers-color-scheme:dark" not in path.read_text() or not drawn.findtext("{http://www.w3.org/2000/svg}title").startswith(f"Step {step}: seat"):
        wrong.append(f"{path.name} isn't dark at night, or doesn't say which step it is of")
    if picture_of(models[name], int(step)) != path.read_text():
        wrong.append(f"{path.name} is another picture than ./mvrlu view --svg {step} replay samples/replay/{name}.plan makes")
shown = set()
for page_name in ("docs/REPLAY.md", "README.md"):
    shown |= {pathlib.PurePath(link).name for link in re.findall(r"\(([^)]*\.svg)\)", (top / page_name).read_text())}
wrong += [f"{path.name} is shown nowhere" for path in (top / "docs/pictures").glob("*.svg") if path.name not in shown]
finish(wrong, f"colours have their contrast, a page of {len(model['steps'])} steps has {len(page.encode())} bytes, and {count} pictures are current")
