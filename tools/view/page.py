"""The page: one file of the model, the styles and the scripts, which needs no network."""
import html
import json
import pathlib

from . import colours

PARTS = pathlib.Path(__file__).resolve().parent / "page"
COMMON = ("elements.js", "faults.js")
SCRIPTS = {
    "replay": (*COMMON, "tables.js", "lanes.js", "list.js", "times.js", "chains.js", "rings.js", "now.js", "replay.js"),
    "run": (*COMMON, "run_chart.js", "run.js"),
}


def script_text(model):
    """JSON that may stand in a page."""
    held = json.dumps(model, separators=(",", ":"))
    return held.replace("<", "\\u003c").replace(">", "\\u003e").replace("&", "\\u0026")


def page_of(model):
    page = (PARTS / "page.html").read_text()
    scripts = "".join((PARTS / name).read_text() for name in SCRIPTS[model["form"]])
    parts = {
        "TITLE": html.escape(model["name"]), "STYLE": colours.style() + (PARTS / "page.css").read_text(), "SEATS": str(colours.SEATS),
        "SCRIPTS": scripts, "MODEL": script_text(model),
    }
    for name, part in parts.items():
        page = page.replace(f"<!--{name}-->", part, 1)
    return page
