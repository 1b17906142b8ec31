/* All steps at once, or as many as fit around the current one: the history above, and a lane for each seat. */
const LEAST = 1.2, LEFT = 62, TOP = 26;

class Lanes {
    constructor(model, steps, go) {
        Object.assign(this, { model, steps, go, first: 0, last: steps.count });
        this.place = el("section", { id: "over", "aria-label": "all steps, a lane for each seat" });
        this.height = model.seats > 12 ? 16 : 30;
        this.entries = new Map(model.history.map(([time, , step], at) => [step, { time, next: model.history[at + 1]?.[2] ?? Infinity }]));
    }

    y(seat) { return TOP + this.height * seat + this.height / 2; }
    x(step) { return LEFT + (step - this.first - 0.5) * this.width; }

    /* Draws the steps around one. */
    draw(cursor) {
        const wide = Math.max(280, this.place.clientWidth - 28), room = Math.floor((wide - LEFT - 8) / LEAST), count = this.steps.count;
        this.first = Math.max(0, Math.min(count - room, Math.round(cursor - room / 2)));
        this.last = Math.min(count, this.first + room);
        this.width = (wide - LEFT - 8) / Math.max(1, this.last - this.first);
        const height = TOP + this.height * this.model.seats + 4;
        this.svg = svg("svg", { viewBox: `0 0 ${wide} ${height}`, height, role: "img", "aria-label": "the lanes of all seats" }, ...this.frame(wide));
        this.svg.append(...this.sections(), ...this.calls());
        for (let number = this.first + 1; number <= this.last; number++) this.svg.append(...this.marks(this.steps.at(number)));
        this.arc = svg("path", { fill: "none", stroke: "var(--cursor)", "stroke-width": 1.6, "marker-end": "url(#tip-of-arc)" });
        this.line = svg("line", { y1: 0, y2: height, stroke: "var(--cursor)", "stroke-width": 1.5 });
        const point = svg("path", { d: "M0 0L8 4L0 8z", fill: "var(--cursor)" });
        const marker = svg("marker", { id: "tip-of-arc", viewBox: "0 0 8 8", refX: 7, refY: 4, markerWidth: 7, markerHeight: 7, orient: "auto" }, point);
        this.svg.append(svg("defs", {}, marker), this.arc, this.line);
        this.listen(wide);
        this.place.replaceChildren(this.svg, this.legend());
    }

    legend() {
        const shown = this.last - this.first < this.steps.count ? `; steps ${this.first + 1} to ${this.last} of ${this.steps.count}` : "";
        return el("div", { class: "legend" }, "◆ commit, ◇ rest, ★ helped, ☆ found it stamped, ✕ lost exchange, ▬ write-back, ▲ cut, ○ freed; "
            + `the shade is a section, a box a call, ✗ a refused one${shown}`);
    }

    frame(wide) {
        const lines = [svg("text", { x: 4, y: 17, "font-size": 11, class: "soft" }, "history"),
            svg("line", { x1: LEFT, x2: wide - 8, y1: 13, y2: 13, stroke: "var(--rule)" })];
        for (let seat = 0; seat < this.model.seats; seat++) {
            const y = this.y(seat);
            lines.push(svg("rect", { x: 0, y: y - 7, width: 4, height: 14, fill: seatColour(seat) }),
                svg("text", { x: 8, y: y + 4, "font-size": 11.5 }, `seat ${seat}`),
                svg("line", { x1: LEFT, x2: wide - 8, y1: y, y2: y, stroke: "var(--rule)" }));
        }
        return lines;
    }

    span(from, to) { return to > this.first && from <= this.last ? [Math.max(from, this.first + 0.5), Math.min(to, this.last)] : null; }

    sections() {
        return this.model.sections.flatMap(([seat, from, to, time]) => {
            const span = this.span(from, to);
            if (!span) return [];
            const says = `seat ${seat}, steps ${from} to ${to}: ${time === null ? "marked, no time was taken" : `a section at time ${time}`}`;
            const at = { x: this.x(span[0]) - this.width / 2, y: this.y(seat) - this.height / 2 + 1, width: this.x(span[1]) - this.x(span[0]) + this.width };
            return [tipped(svg("rect", { ...at, height: this.height - 2, rx: 4, fill: seatColour(seat), opacity: 0.2 }), says)];
        });
    }

    calls() {
        return this.model.calls.flatMap(([seat, from, to, call, answer, refused]) => {
            const span = this.span(from, to);
            if (!span) return [];
            const x = this.x(span[0]) - this.width * 0.4, width = Math.max(1.5, this.x(span[1]) - this.x(span[0]) + this.width * 0.8);
            const text = call.split(" ")[0] + (refused ? " ✗" : ""), y = this.y(seat);
            const box = svg("rect", { x, y: y - 7, width, height: 14, rx: 3, fill: "var(--panel)",
                stroke: refused ? "var(--fault)" : seatColour(seat), "stroke-width": 1.4 });
            const label = svg("text", { x: x + 4, y: y + 4, "font-size": 10.5, "pointer-events": "none" }, text);
            tipped(box, `seat ${seat}, steps ${from} to ${to}: ${call}${answer ? `: ${answer}` : ""}`);
            return width > 6.6 * text.length + 4 && this.height > 24 ? [box, label] : [box];
        });
    }

    /* What stands out of a step. */
    marks(step) {
        const x = this.x(step.number), y = this.y(step.seat), found = [];
        const sign = (text, dy, size, colour) => svg("text", { x, y: y + dy, "font-size": size, "font-weight": 700, "text-anchor": "middle",
            style: `fill:var(--${colour})` }, text);
        if (step.tag === "commit" || step.tag === "rest") found.push(...this.entry(step, x, y));
        if (step.tag === "helped") found.push(sign("★", -6, 17, "help"));
        if (step.tag === "stamped") found.push(sign("☆", -6, 13, "help"));
        if (step.tag === "lost") found.push(sign("✕", -6, 13, "fault"));
        if (step.tag === "back") found.push(svg("rect", { x: x - this.width / 2, y: y + 8, width: Math.max(1, this.width), height: 4, fill: "var(--back)" }));
        if (step.tag === "cut") found.push(svg("path", { d: `M${x - 4} ${y + 14}l4 -7l4 7z`, fill: "var(--back)" }));
        if (step.tag === "freed") found.push(svg("circle", { cx: x, cy: y + 11, r: 3.2, fill: "var(--panel)", stroke: "var(--fine)", "stroke-width": 2 }));
        if (this.steps.wrong.has(step.number)) found.push(svg("rect",
            { x: x - 3, y: y - this.height / 2, width: 6, height: this.height, fill: "var(--fault)" }));
        return found;
    }

    entry(step, x, y) {
        const rest = step.tag === "rest", { time, next } = this.entries.get(step.number);
        const roomy = (next - step.number) * this.width > 19 + 7 * String(time).length;
        const colour = rest ? "var(--soft)" : seatColour(step.seat);
        return [svg("line", { x1: x, x2: x, y1: 13, y2: y - 7, stroke: "var(--entry)", "stroke-width": 1.3, "stroke-dasharray": rest ? "2 2" : null }),
            tipped(svg("path", { d: `M${x} 5l8 8l-8 8l-8 -8z`, fill: rest ? "var(--panel)" : colour, stroke: colour, "stroke-width": 1.5 }),
                `step ${step.number}: time ${time}, a ${step.tag} of seat ${step.seat}`),
            svg("text", { x: x + 11, y: 17, "font-size": 11 }, roomy ? String(time) : "")];
    }

    listen(wide) {
        const pick = event => {
            const box = this.svg.getBoundingClientRect();
            this.go(Math.round(this.first + ((event.clientX - box.left) * wide / box.width - LEFT) / this.width + 0.5));
        };
        const drawn = this.svg;
        drawn.addEventListener("pointerdown", event => { pick(event); drawn.onpointermove = pick; });
        for (const end of ["pointerup", "pointerleave"]) drawn.addEventListener(end, () => { drawn.onpointermove = null; });
    }

    /* Marks a step, and from where it has the word that it found. */
    show(cursor) {
        if (!this.svg || cursor && (cursor <= this.first || cursor > this.last)) this.draw(cursor);
        const x = this.x(cursor || 0.5);
        this.line.setAttribute("x1", x);
        this.line.setAttribute("x2", x);
        this.arc.setAttribute("d", cursor ? this.arcTo(this.steps.at(cursor)) : "");
    }

    arcTo(step) {
        const from = step.writer && step.access !== "store" && step.writer !== step.number ? this.steps.at(step.writer) : null;
        if (!from || from.seat === step.seat) return "";
        const x1 = this.x(Math.max(from.number, this.first)), x2 = this.x(step.number), y1 = this.y(from.seat);
        const y2 = this.y(step.seat) + (from.seat < step.seat ? -8 : 8), middle = (y1 + y2) / 2;
        return `M${x1} ${y1}C${x1 + (x2 - x1) * 0.3} ${middle} ${x1 + (x2 - x1) * 0.7} ${middle} ${x2} ${y2}`;
    }
}
