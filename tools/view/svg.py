"""Elements of a picture: text that is wrapped, boxes and arrows, in an SVG that is light or dark as the reader's system is."""
import textwrap
from xml.sax.saxutils import escape, quoteattr

from . import colours

FONT = "system-ui, 'DejaVu Sans', 'Segoe UI', sans-serif"
LETTER = 0.54  # how wide a letter is, on average, in parts of its size; DejaVu is among the widest
BOLD = 1.14  # and of bold text


def element(name, inner="", **attributes):
    said = "".join(f" {key.replace('_', '-')}={quoteattr(str(value))}" for key, value in attributes.items() if value is not None)
    return f"<{name}{said}>{inner}</{name}>" if inner else f"<{name}{said}/>"


def text(x, y, said, size=12, fill="ink", weight=None, anchor=None):
    return element("text", escape(said), x=round(x, 1), y=round(y, 1), font_size=size, fill=f"var(--{fill})", font_weight=weight, text_anchor=anchor)


def rect(x, y, width, height, **attributes):
    return element("rect", x=round(x, 1), y=round(y, 1), width=round(width, 1), height=round(height, 1), **attributes)


def line(x1, y1, x2, y2, stroke="rule", width=1, **attributes):
    places = {"x1": round(x1, 1), "y1": round(y1, 1), "x2": round(x2, 1), "y2": round(y2, 1)}
    return element("line", **places, stroke=f"var(--{stroke})", stroke_width=width, **attributes)


def path(drawn, **attributes):
    return element("path", d=drawn, **attributes)


def seat_colour(seat):
    return f"seat{seat % colours.SEATS}"


def width_of(said, size=12, weight=None):
    return len(said) * size * LETTER * (BOLD if weight else 1)


def wrapped(said, width, size=12, weight=None):
    """The lines of a text in a width."""
    return textwrap.wrap(said, int(width / width_of("m", size, weight))) or [""]


def arrow(x, y, width):
    """An arrow to the right."""
    return line(x, y, x + width - 4, y, "soft", 1.4) + path(f"M{x + width - 6:.1f} {y - 4:.1f}l6 4l-6 4z", fill="var(--soft)")


def drawing(width, height, title, parts):
    """The whole picture, with what it shows in words."""
    light, dark = colours.variables(colours.LIGHT, colours.SEATS_LIGHT), colours.variables(colours.DARK, colours.SEATS_DARK)
    style = f"svg{{{light}}}@media (prefers-color-scheme:dark){{svg{{{dark}}}}}"
    head = element("title", escape(title), id="title") + element("style", style)
    ground = rect(0.5, 0.5, width - 1, height - 1, rx=8, fill="var(--ground)", stroke="var(--rule)")
    inner = "\n".join([head, ground, *parts])
    size = {"viewBox": f"0 0 {width} {height}", "width": width, "height": height}
    return element("svg", f"\n{inner}\n", xmlns="http://www.w3.org/2000/svg", **size, role="img", aria_labelledby="title", font_family=FONT) + "\n"
