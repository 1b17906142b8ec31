/* The lines of a run: seats as lanes over the times of the history. Only what is in view is drawn. */
const RUN_LEFT = 62, RUN_TOP = 34, LANE = 46, MOST_IN_VIEW = 3000, WIDEST = 26;
const EVERY_TIME = [1, 2, 5, 10, 20, 50, 100, 200, 500, 1000, 2000, 5000, 10000, 20000, 50000, 100000];

class Chart {
    constructor(page) {
        this.page = page;
        this.lines = page.lines;
        this.first = Math.min(page.model.base, ...this.lines.slice(0, 1).map(line => line.time));
        this.last = Math.max(this.first + 1, ...this.lines.slice(-1).map(line => line.time));
        this.inner = el("div", { style: "position:relative" });
        this.place = el("div", { id: "chart", tabindex: 0, "aria-label": "seats as lanes over the times of the history",
            on: { scroll: () => this.draw() } }, this.inner);
    }

    y(seat) { return RUN_TOP + LANE * this.page.model.seats.indexOf(seat); }
    x(time) { return RUN_LEFT + this.width * (time - this.first) - this.place.scrollLeft; }

    /* How wide a time is: at least so that the lines in view can be drawn. */
    zoom(part) {
        const wide = Math.max(260, this.place.clientWidth) - RUN_LEFT - 12, times = this.last - this.first + 1;
        const least = Math.max(wide / times, wide / times * this.lines.length / MOST_IN_VIEW);
        const middle = this.width ? (this.place.scrollLeft + wide / 2) / this.width : 0;
        this.width = Math.max(least, least + (WIDEST - least) * part);
        this.inner.style.width = `${RUN_LEFT + this.width * times + 12}px`;
        this.inner.style.height = `${RUN_TOP + LANE * this.page.model.seats.length + 22}px`;
        this.place.scrollLeft = middle * this.width - wide / 2;
        this.draw();
    }

    /* The number of the first line at a time or later. */
    find(time) {
        let low = 0, high = this.lines.length;
        while (low < high) { const middle = (low + high) >> 1; if (this.lines[middle].time < time) low = middle + 1; else high = middle; }
        return low;
    }

    draw() {
        const wide = this.place.clientWidth, height = RUN_TOP + LANE * this.page.model.seats.length + 22;
        const from = Math.floor(this.first + this.place.scrollLeft / this.width) - 1, to = Math.min(this.last, Math.ceil(from + wide / this.width) + 2);
        const drawn = svg("svg", { width: wide, height, style: `position:absolute;left:${this.place.scrollLeft}px`, role: "img",
            "aria-label": `times ${from} to ${to}` });
        drawn.append(svg("text", { x: 2, y: 18, "font-size": 11, class: "soft" }, "history"), ...this.frame(wide, height, Math.max(this.first, from), to));
        const seen = this.lines.slice(this.find(from), this.find(to + 1)), stacks = new Map();
        for (const line of seen) if (!line.commit) stacks.set(`${line.seat}:${line.time}`, [...stacks.get(`${line.seat}:${line.time}`) ?? [], line]);
        for (const stack of stacks.values()) drawn.append(...this.stack(stack));
        for (const line of seen) if (line.commit) drawn.append(this.commit(line));
        drawn.append(svg("rect", { x: 0, y: RUN_TOP, width: RUN_LEFT - 4, height: height - RUN_TOP, fill: "var(--panel)" }),
            ...this.page.model.seats.flatMap(seat => this.name(seat)));
        this.inner.replaceChildren(drawn);
    }

    name(seat) {
        const y = this.y(seat);
        return [svg("rect", { x: 2, y: y + 12, width: 4, height: 20, fill: seatColour(seat) }),
            svg("text", { x: 10, y: y + 27, "font-size": 12 }, `seat ${seat}`)];
    }

    /* Whose commit each time is, the lanes, and the times. */
    frame(wide, height, from, to) {
        const found = this.page.model.seats.map(seat => svg("rect",
            { x: 0, y: this.y(seat) + 2, width: wide, height: LANE - 6, fill: seatColour(seat), opacity: 0.07 }));
        const every = EVERY_TIME.find(step => step * this.width > 44) ?? 500000;
        for (let time = from; time <= to; time++) {
            const owner = this.page.owner.get(time), x = this.x(time);
            if (x < RUN_LEFT - 1) continue;
            const says = time === this.page.model.base ? "the opening" : "an entry without a line: a rest, or a split";
            const width = Math.max(0.6, this.width - (this.width > 4 ? 1 : 0)), colour = owner === undefined ? "var(--free)" : seatColour(owner);
            found.push(tipped(svg("rect", { x, y: 6, width, height: 16, fill: colour }),
                `time ${time}: ${owner === undefined ? says : `a commit of seat ${owner}`}`));
            if (time % every === 0) found.push(svg("text", { x, y: height - 6, "font-size": 10.5, class: "soft" }, String(time)));
        }
        const chosen = this.page.chosen;
        if (chosen) found.push(svg("line", { x1: this.x(chosen.time), x2: this.x(chosen.time), y1: 2, y2: height - 18, stroke: "var(--cursor)",
            "stroke-dasharray": "3 3" }));
        return found;
    }

    hooked(made, line) {
        tipped(made, this.page.describe(line));
        made.style.cursor = "pointer";
        made.addEventListener("click", () => this.page.choose(line));
        return made;
    }

    /* The reads of one state by one seat. */
    stack(lines) {
        const high = Math.min(7, (LANE - 14) / lines.length);
        return lines.map((line, at) => {
            const width = Math.max(1.2, this.width * 0.82 - 1), height = Math.max(0.7, high - (high > 2 ? 1 : 0));
            const box = { x: this.x(line.time) + Math.min(this.width * 0.18, 4), y: this.y(line.seat) + 5 + at * high, width, height };
            const on = line === this.page.chosen;
            return this.hooked(svg("rect", { ...box, fill: `var(--${line.sort})`, stroke: on ? "var(--cursor)" : null,
                "stroke-width": on ? 2.5 : null }), line);
        });
    }

    commit(line) {
        const on = line === this.page.chosen, r = Math.max(1.8, Math.min(5, this.width * 0.45));
        return this.hooked(svg("circle", { cx: this.x(line.time) + Math.min(this.width / 2, 1.8), cy: this.y(line.seat) + LANE - 10, r,
            fill: `var(--${line.sort})`,
            stroke: on ? "var(--cursor)" : "var(--panel)", "stroke-width": on ? 2.5 : this.width > 5 ? 1 : 0 }), line);
    }

    /* Scrolls to a line. */
    show(line) {
        const at = RUN_LEFT + this.width * (line.time - this.first), wide = this.place.clientWidth;
        if (at < this.place.scrollLeft + RUN_LEFT + 20 || at > this.place.scrollLeft + wide - 40) this.place.scrollLeft = at - wide / 2;
        this.draw();
    }
}
