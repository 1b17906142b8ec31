"""The picture of one step of a replay: what it does, the lanes of all steps, the seats, and each object's chain."""
from .replay_model import Row, scene_at
from .scene import MARK_AT, MASTER, STAMP_AT, SUPER_AT, WORDS_AT, people
from .svg import arrow, drawing, line, path, rect, seat_colour, text, width_of, wrapped
from .words import WORDS

WIDTH, EDGE = 760, 14
INNER = WIDTH - 2 * EDGE
LANE, LEFT = 26, 66
ARROW = 22
LEAST = 54  # how wide a box is inside
SIGNS = {"helped": ("★", "help"), "stamped": ("☆", "help"), "lost": ("✕", "fault")}


class Box:
    """Lines of text in a frame: each with its colour and weight. `chips` are who reads it or stands there."""

    def __init__(self, frame, dashes=None):
        self.frame, self.dashes, self.lines, self.chips, self.marked = frame, dashes, [], [], None

    def say(self, said, fill="ink", weight=None, marked=False):
        if marked:
            self.marked = len(self.lines)
        self.lines.append((said, fill, weight))

    def size(self):
        said = [width_of(one, 12, weight) for one, _, weight in self.lines]
        chips = [width_of(one, 11) + 14 for _, one, _ in self.chips]
        return max(LEAST, *said, *chips) + 16, 10 + 16 * len(self.lines) + 20 * len(self.chips)

    def draw(self, x, y, height):
        width, _ = self.size()
        parts = [rect(x, y, width, height, rx=6, fill="var(--panel)", stroke=f"var(--{self.frame})", stroke_width=2, stroke_dasharray=self.dashes)]
        if self.marked is not None:
            parts.append(rect(x + 4, y + 5 + 16 * self.marked, width - 8, 17, rx=3, fill="none", stroke="var(--cursor)", stroke_width=1.6))
        for at, (said, fill, weight) in enumerate(self.lines):
            parts.append(text(x + 8, y + 18 + 16 * at, said, 12, fill, weight))
        top = y + 8 + 16 * len(self.lines)
        for at, (seat, said, stands) in enumerate(self.chips):
            colour, chip = seat_colour(seat), top + 20 * at
            fill = f"var(--{colour})" if stands else "none"
            parts.append(rect(x + 8, chip, width_of(said, 11) + 12, 16, rx=8, fill=fill, stroke=f"var(--{colour})", stroke_width=1.4))
            parts.append(text(x + 14, chip + 12, said, 11, "on" if stands else colour))
        return parts


class Picture:
    """Draws from top to bottom."""

    def __init__(self, model, step):
        self.model, self.number, self.table = model, step, scene_at(model, step)
        self.parts, self.y = [], EDGE
        self.steps = [Row(*row) for row in model["steps"]]
        self.step = self.steps[step - 1] if step else None

    def sentence(self):
        """What the step does."""
        texts, step = self.model["texts"], self.step
        place = texts[step.place] if step.word < 0 else f"{texts[step.place]}, word {step.word}"
        offered = texts[step.offered] if step.offered >= 0 else ""
        return self.model["sentences"][step.access].format(place=place, found=texts[step.found], offered=offered)

    def is_of(self, key, *parts):
        return self.step is not None and self.model["texts"][self.step.key] == key and self.step.part in parts

    def title(self):
        if self.step is None:
            return "A domain that is just opened"
        return f"Step {self.number}: seat {self.step.seat} {self.sentence()}."

    def put_lines(self, lines, size, fill="ink", weight=None):
        for said in lines:
            self.parts.append(text(EDGE + 10, self.y + size, said, size, fill, weight))
            self.y += round(size * 1.35)

    def put_sentence(self):
        top = self.y
        self.put_lines(wrapped(self.title(), INNER - 20, 14.5, 600), 14.5, weight=600)
        if self.step:
            name, why = self.model["kinds"][self.step.kind]
            self.put_lines(wrapped(f"{name}. {why}", INNER - 20, 12), 12, "soft")
            self.parts.append(rect(EDGE, top, 4, self.y - top + 2, rx=2, fill=f"var(--{seat_colour(self.step.seat)})"))
        self.y += 12

    # the lanes

    def x(self, step):
        return EDGE + LEFT + (step - 0.5) * (INNER - LEFT) / max(1, len(self.steps))

    def put_lanes(self):
        model, top, width = self.model, self.y, (INNER - LEFT) / max(1, len(self.steps))
        middle = [top + 24 + LANE * seat + LANE / 2 for seat in range(model["seats"])]
        self.parts.append(text(EDGE, top + 15, "history", 11, "soft"))
        self.parts.append(line(EDGE + LEFT, top + 11, WIDTH - EDGE, top + 11))
        for seat, y in enumerate(middle):
            self.parts += [rect(EDGE, y - 7, 4, 14, fill=f"var(--{seat_colour(seat)})"), text(EDGE + 9, y + 4, f"seat {seat}", 11.5),
                           line(EDGE + LEFT, y, WIDTH - EDGE, y)]
        for seat, first, last, _ in model["sections"]:
            self.parts.append(rect(self.x(first) - width / 2, middle[seat] - LANE / 2 + 1, self.x(last) - self.x(first) + width, LANE - 2, rx=4,
                                   fill=f"var(--{seat_colour(seat)})", opacity=0.2))
        for call in model["calls"]:
            self.put_call(call, middle[call[0]], width)
        self.put_signs(top, middle)
        self.y = top + 24 + LANE * model["seats"] + 12

    def put_call(self, call, y, width):
        seat, first, last, name, _, refused = call
        x, wide = self.x(first) - width * 0.4, self.x(last) - self.x(first) + width * 0.8
        self.parts.append(rect(x, y - 7, max(1.5, wide), 14, rx=3, fill="var(--panel)", stroke=f"var(--{'fault' if refused else seat_colour(seat)})",
                               stroke_width=1.4))
        said = name.split()[0] + (" ✗" if refused else "")
        if wide > width_of(said, 10.5) + 4:
            self.parts.append(text(x + 4, y + 4, said, 10.5))

    def put_signs(self, top, middle):
        """The entries, what stands out of steps, and the current step."""
        for time, seat, step, objects in self.model["history"][1:]:
            x, colour = self.x(step), seat_colour(seat) if objects else "soft"
            self.parts += [line(x, top + 11, x, middle[seat] - 7, "entry", 1.3, stroke_dasharray=None if objects else "2 2"),
                           path(f"M{x:.1f} {top + 3}l8 8l-8 8l-8 -8z", fill=f"var(--{colour if objects else 'panel'})", stroke=f"var(--{colour})",
                                stroke_width=1.5), text(x + 11, top + 15, str(time), 11)]
        for number, step in enumerate(self.steps, 1):
            if step.tag in SIGNS:
                sign, colour = SIGNS[step.tag]
                self.parts.append(text(self.x(number), middle[step.seat] - 6, sign, 13, colour, 700, "middle"))
            elif step.tag == "back":
                self.parts.append(rect(self.x(number) - 3, middle[step.seat] + 7, 6, 4, fill="var(--back)"))
        x = self.x(self.number or 0.5)
        self.parts.append(line(x, top, x, top + 24 + LANE * len(middle), "cursor", 1.8))

    # what is seen behind the step

    def put_row(self, boxes, between=10, arrows=0):
        """Boxes side by side, in as many rows as they need; `arrows` of them from the first on are joined."""
        rows, x = [[]], EDGE
        for at, box in enumerate(boxes):
            width, _ = box.size()
            if rows[-1] and x + width > WIDTH - EDGE:
                rows.append([])
                x = EDGE + (ARROW if at < arrows else 0)
            rows[-1].append((box, x, at))
            x += width + (ARROW if at + 1 < arrows else between)
        for row in rows:
            height = max(box.size()[1] for box, _, _ in row)
            for box, left, at in row:
                self.parts += box.draw(left, self.y, height)
                if 0 < at < arrows:
                    self.parts.append(arrow(left - ARROW + 2, self.y + height / 2, ARROW - 4))
            self.y += height + 10

    def put_shared(self):
        clock, grace = Box("rule"), Box("rule")
        said, stamp, _ = self.table["clock"]
        clock.say("CLOCK", weight=600)
        clock.say(f"{said}; {stamp}" if stamp else said, marked=self.is_of("clock", 0))
        grace.say("GRACE", weight=600)
        grace.say(f"time {self.table['grace'][0]}", marked=self.is_of("grace", 0))
        self.put_row([clock, grace])

    def put_seats(self):
        boxes = []
        for seat in range(self.model["seats"]):
            phase, mark, call, stands, holds, _, _ = self.table[f"seat.{seat}"]
            box = Box(seat_colour(seat))
            box.say(f"seat {seat}: {phase}", seat_colour(seat), 600)
            box.say(f"MARK {mark}", marked=self.is_of(f"seat.{seat}", MARK_AT))
            for said in (call, stands, holds):
                if said:
                    box.say(said, "soft")
            boxes.append(box)
        self.put_row(boxes)

    def version_box(self, name, around, apart):
        key = f"version.{name}"
        seat, position, slot, _, sort, note, stamp, newer, *words = self.table[key]
        box = Box(sort, "5 3" if apart else None)
        box.say(f"version {position} of seat {seat}", seat_colour(seat), 600, marked=self.is_of(key, 0))
        box.say(f"slot {slot}; {note}", "soft")
        box.say(f"STAMP {stamp}", marked=self.is_of(key, STAMP_AT))
        if newer != "none":
            box.say(f"SUPER time {newer}", marked=self.is_of(key, SUPER_AT))
        box.say(" ".join(words), marked=self.is_of(key, *range(WORDS_AT, WORDS_AT + WORDS)))
        box.chips = around.get(name, [])
        return box

    def put_object(self, number):
        head, chain, apart, _ = self.table[f"head.{number}"]
        around = people(self.table, self.model["seats"], number)
        first, last = Box("soft"), Box("soft")
        first.say(f"HEAD of object {number}", weight=600)
        first.say(head, marked=self.is_of(f"head.{number}", 0))
        last.say("master", weight=600)
        last.say(" ".join(self.table[f"master.{number}"]), marked=self.is_of(f"master.{number}", *range(WORDS)))
        last.chips = around.get(MASTER, [])
        boxes = [first, *[self.version_box(name, around, False) for name in chain], last]
        self.put_row(boxes, arrows=len(boxes))
        if apart:
            self.parts.append(text(EDGE, self.y + 12, "in no chain:", 12, "soft"))
            self.y += 20
            self.put_row([self.version_box(name, around, True) for name in apart])

    def draw(self):
        self.put_sentence()
        self.put_lanes()
        self.put_shared()
        self.put_seats()
        for key in sorted((key for key in self.table if key.startswith("head.")), key=lambda key: int(key[5:])):
            self.put_object(int(key[5:]))
        return drawing(WIDTH, round(self.y + 4), self.title(), self.parts)


def picture_of(model, step):
    """The SVG of what is seen behind a step; step 0 is the opening."""
    return Picture(model, step).draw()
