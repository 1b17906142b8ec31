"""The colours of the page and of pictures, by day and by night.

The seats' are made of the eight of Okabe and Ito, which readers with any colour vision can tell apart; they are darker by day and
lighter by night, so that text in each of them has a contrast of 4.5 or more. No fact is told by colour alone."""

LIGHT = {
    "ground": "#fbfbf9", "panel": "#ffffff", "ink": "#1c1d20", "soft": "#565b64", "rule": "#d3d6da", "faint": "#eef0f2", "cursor": "#111111",
    "fault": "#b3261e", "help": "#7a2fd6", "back": "#0a658d", "entry": "#8a4a00", "fine": "#1a6e32", "free": "#e4e7ea", "on": "#ffffff",
    "built": "#7a6600", "held": "#b23c0a", "named": "#7a2fd6", "stamped": "#1a6e32", "dead": "#566173",
    "yes": "#1a6e32", "no": "#a14a00", "mixed": "#0a658d", "full": "#b3261e", "worn": "#7a2fd6", "none": "#566173", "number": "#1d4ed8",
}
DARK = {
    "ground": "#15171a", "panel": "#1d2024", "ink": "#e8e9eb", "soft": "#a9afb9", "rule": "#3a4048", "faint": "#272b31", "cursor": "#ffffff",
    "fault": "#ff8f86", "help": "#c9a8ff", "back": "#6cc7ee", "entry": "#ffb25e", "fine": "#6fd08c", "free": "#343a42", "on": "#111316",
    "built": "#e0cf45", "held": "#ffa07a", "named": "#c9a8ff", "stamped": "#6fd08c", "dead": "#a3adbd",
    "yes": "#6fd08c", "no": "#f0b35c", "mixed": "#6cc7ee", "full": "#ff8f86", "worn": "#c9a8ff", "none": "#a3adbd", "number": "#8fb4ff",
}
SEATS_LIGHT = ("#0067a5", "#ad4a00", "#007254", "#963c80", "#6b5d00", "#4545b0", "#7d4325", "#35701a")
SEATS_DARK = ("#62bdf2", "#f5a866", "#45d3aa", "#e39bcf", "#e2d14c", "#acacff", "#d8ab8f", "#99d776")
SEATS = len(SEATS_LIGHT)


def variables(colours, seats):
    named = {**colours, **{f"seat{number}": colour for number, colour in enumerate(seats)}}
    return ";".join(f"--{name}:{colour}" for name, colour in named.items())


def style(scope=":root"):
    """The colours as variables: by day, by night where the reader's system says so, and as the page is told; on paper by day."""
    light, dark = variables(LIGHT, SEATS_LIGHT), variables(DARK, SEATS_DARK)
    return (f"{scope}{{color-scheme:light;{light}}}@media (prefers-color-scheme:dark){{{scope}{{color-scheme:dark;{dark}}}}}"
            f"{scope}[data-theme=light]{{color-scheme:light;{light}}}{scope}[data-theme=dark]{{color-scheme:dark;{dark}}}"
            f"@media print{{{scope},{scope}[data-theme]{{color-scheme:light;{light}}}}}")


def luminance(colour):
    parts = [int(colour[at:at + 2], 16) / 255 for at in (1, 3, 5)]
    red, green, blue = (part / 12.92 if part <= 0.03928 else ((part + 0.055) / 1.055) ** 2.4 for part in parts)
    return 0.2126 * red + 0.7152 * green + 0.0722 * blue


def contrast(one, other):
    """The contrast of two colours, as the Web Content Accessibility Guidelines have it: 1 to 21."""
    light, dark = sorted((luminance(one), luminance(other)), reverse=True)
    return (light + 0.05) / (dark + 0.05)
