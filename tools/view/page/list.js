/* The steps as lines: six words as one, with the plan's remarks and the answers between. Lines are made as they come into view. */
const ROW = 22, REMARK = 42, BEYOND = 12;
const MOST_WIDE = 112;  // the lanes of all seats, in a line
const GROUPED = ["load DATA", "load MASTER", "store into a built slot", "store DATA of a held slot", "store MASTER"];

class List {
    constructor(model, steps, go) {
        Object.assign(this, { model, steps, go, grouped: true, cursor: 0 });
        this.rows = el("div", { class: "rows", role: "list" });
        this.place = el("div", { id: "list", tabindex: 0, class: steps.count < 1000 ? "" : "long", "aria-label": "the steps" }, this.rows);
        this.place.addEventListener("scroll", () => this.draw());
        this.many = new Set(model.kinds.flatMap(([name], kind) => GROUPED.includes(name) ? [kind] : []));
        this.lane = model.seats > 8 ? Math.min(7, MOST_WIDE / model.seats) : 16;
        this.gather();
    }

    /* What the lines are, and where each begins. */
    gather() {
        this.lines = [];
        this.lineOf = [];
        let at = 0;
        const notes = this.model.notes, note = number => {
            for (; at < notes.length && notes[at][0] <= number; at++) this.lines.push({ note: notes[at], from: number, to: number });
        };
        note(0);
        for (let number = 1; number <= this.steps.count; number++) {
            const [seat, kind] = this.model.steps[number - 1], last = this.lines[this.lines.length - 1];
            const joins = this.grouped && last && !last.note && this.many.has(kind) && last.kind === kind && last.seat === seat;
            if (joins && !this.steps.wrong.has(number)) last.to = number;
            else this.lines.push({ seat, kind, from: number, to: number });
            this.lineOf[number] = this.lines.length - 1;
            note(number);
        }
        this.tops = [0];
        for (const line of this.lines) this.tops.push(this.tops[this.tops.length - 1] + (line.note?.[1] === "remark" ? REMARK : ROW));
        this.rows.style.height = `${this.tops[this.lines.length]}px`;
    }

    /* The line at a height. */
    find(top) {
        let low = 0, high = this.lines.length - 1;
        while (low < high) {
            const middle = (low + high + 1) >> 1;
            if (this.tops[middle] <= top) low = middle; else high = middle - 1;
        }
        return low;
    }

    draw() {
        const from = Math.max(0, this.find(this.place.scrollTop) - BEYOND);
        const to = Math.min(this.lines.length, this.find(this.place.scrollTop + this.place.clientHeight) + BEYOND);
        const made = [];
        for (let at = from; at < to; at++) {
            const row = this.row(this.lines[at]);
            row.style.top = `${this.tops[at]}px`;
            row.style.height = `${this.tops[at + 1] - this.tops[at]}px`;
            made.push(row);
        }
        this.rows.replaceChildren(...made);
    }

    row(line) {
        const now = !line.note && line.from <= this.cursor && this.cursor <= line.to, later = line.from > this.cursor;
        const row = line.note ? this.noteRow(line) : this.stepRow(line);
        row.setAttribute("role", "listitem");
        if (now) row.setAttribute("aria-current", "step");
        row.classList.toggle("later", later);
        if (line.note?.[1] !== "remark") row.addEventListener("click", () => this.go(line.to));
        return row;
    }

    noteRow({ note: [, sort, seat, text, refused], from }) {
        if (sort === "remark") return el("div", { class: "row remark" }, el("span", {}, text));
        const sign = seat === null ? null : svg("path", { d: `M${this.x(seat) - 4} 7h8M${this.x(seat)} 7v6`, stroke: seatColour(seat),
            "stroke-width": 2, fill: "none" });
        const what = el("span", { class: "what", style: seat === null ? null : `color:${seatColour(seat)}` }, text, refused ? tagOf("refused") : null);
        return el("div", { class: "row answer" }, el("span", { class: "no" }), this.lanes(from + 0.5, sign), what);
    }

    stepRow(line) {
        const first = this.steps.at(line.from), one = line.from === line.to, [kind] = this.model.kinds[first.kind];
        const words = [];
        for (let number = line.from; number <= line.to; number++) { const step = this.steps.at(number); words.push(step.offered || step.found); }
        const place = kind === "store into a built slot" ? "a version is built" : first.base;
        const text = one ? told(this.model.short[first.access], first) : `${place}: ${words.join(", ").replace(/(\d), (?=\d)/g, "$1 ")}`;
        const wrong = this.steps.wrong.has(line.from), no = one ? String(line.from) : `${line.from}-${line.to}`;
        const what = el("span", { class: "what", title: `${kind}. ${this.model.kinds[first.kind][1]}` }, text, this.steps.tags(first).map(tagOf));
        return el("div", { class: `row${wrong ? " wrong" : ""}` }, el("span", { class: "no" }, no), this.lanes(line.to, this.sign(first)), what);
    }

    x(seat) { return this.lane * seat + this.lane / 2 + 2; }

    /* The sections that are open at a step, and a sign in a seat's lane. */
    lanes(number, sign) {
        const lines = this.openAt(number).map(([seat, from, to]) => svg("line", { x1: this.x(seat), x2: this.x(seat), y1: from === number ? 11 : 0,
            y2: to === number ? 11 : ROW, stroke: seatColour(seat), "stroke-width": Math.min(5, this.lane * 0.45), opacity: 0.4 }));
        return svg("svg", { width: this.lane * this.model.seats + 4, height: ROW, "aria-hidden": true }, ...lines, sign);
    }

    openAt(number) {
        const all = this.model.sections;
        let low = 0, high = all.length;
        while (low < high) { const middle = (low + high) >> 1; if (all[middle][1] <= number) low = middle + 1; else high = middle; }
        const open = new Map();
        for (let at = low - 1; at >= 0 && open.size < this.model.seats && low - at < 8 * this.model.seats; at--) {
            if (!open.has(all[at][0])) open.set(all[at][0], all[at]);
        }
        return [...open.values()].filter(section => section[2] >= number);
    }

    /* What a step is: a load a circle, a store a square, an exchange a diamond, a fetch_max a triangle. */
    sign(step) {
        const x = this.x(step.seat), y = 11, r = this.lane > 8 ? 4.5 : 3, colour = seatColour(step.seat);
        if (step.access === "load") return svg("circle", { cx: x, cy: y, r: r - 0.5, fill: "var(--panel)", stroke: colour, "stroke-width": 1.8 });
        if (step.access === "store") return svg("rect", { x: x - r, y: y - r, width: 2 * r, height: 2 * r, fill: colour });
        if (step.access === "max") return svg("path", { d: `M${x} ${y - r - 1}l${r + 1} ${2 * r}h${-2 * r - 2}z`, fill: colour });
        const won = step.access === "won", side = r + 2;
        return svg("path", { d: `M${x} ${y - side}l${side} ${side}l${-side} ${side}l${-side} ${-side}z`, fill: won ? colour : "var(--panel)",
            stroke: won ? colour : "var(--fault)", "stroke-width": 1.8 });
    }

    show(cursor) {
        this.cursor = cursor;
        const at = cursor ? this.lineOf[cursor] : 0, top = this.tops[at], high = this.place.clientHeight;
        if (top < this.place.scrollTop + 50 || top > this.place.scrollTop + high - 90) this.place.scrollTop = Math.max(0, top - high * 0.4);
        this.draw();
    }

    regroup() { this.grouped = !this.grouped; this.gather(); this.show(this.cursor); }
}
