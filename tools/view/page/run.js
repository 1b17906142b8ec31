/* The page of a run: its chart, the line that was chosen, the seats' counts, and the sets at the end. */
const SORTED = { yes: "yes", no: "no", mixed: "yes and no", full: "full", worn: "worn", none: "none", number: "a number" };
const HINT = "Point at a mark, or tap it. A circle is a commit, at its time; a bar is a read of the state of its time. The colour is the reply. "
    + "Left and right go along a seat's lines, up and down along all lines, Escape lets go, t is light or dark.";

class RunPage {
    constructor(model) {
        this.model = model;
        this.chosen = null;
        this.lines = model.lines.map(([seat, number, commit, time, reply, sort, command], at) => ({ seat, number, commit, time, reply, sort, command, at }));
        this.owner = new Map(this.lines.filter(line => line.commit).map(line => [line.time, line.seat]));
        this.chart = new Chart(this);
        this.info = el("section", { class: "card", "aria-live": "polite", style: "min-height:64px" });
        const chart = card("Seats as lanes over the times of the history", this.chart.place, this.legend());
        document.body.append(this.header(), ...[faultsBar(model.faults, null)].filter(bar => bar),
            el("div", { class: "runs" }, chart, this.info, this.countsCard(), this.setsCard()), tip);
        this.listen();
    }

    header() {
        const first = this.lines[0]?.time ?? this.model.base, last = this.lines[this.lines.length - 1]?.time ?? this.model.base;
        const seats = `${this.model.seats.length} seat${this.model.seats.length > 1 ? "s" : ""}`;
        this.zoomed = el("input", { type: "range", min: 0, max: 100, value: 0, "aria-label": "zoom",
            on: { input: () => this.chart.zoom(this.zoomed.value / 100) } });
        return el("header", {}, el("h1", {}, this.model.name),
            el("span", { class: "title" }, `${this.lines.length} lines of ${seats}, times ${first} to ${last}`),
            el("span", { class: "buttons" }, "zoom ", this.zoomed, button("◐", "light or dark (t)", turnTheme)));
    }

    legend() {
        const used = [...new Set(this.lines.map(line => line.sort))];
        return el("div", { class: "legend" }, "● commit, ▬ read; reply:", used.flatMap(sort => [el("i", { style: `background:var(--${sort})` }), SORTED[sort]]),
            "; above: whose commit each time is, grey an entry that has no line");
    }

    describe(line) {
        const what = line.command ? `${line.command}: ` : "";
        return `seat ${line.seat}, command ${line.number}: ${what}${line.reply}, ${line.commit ? "the commit of" : "read the state of"} time ${line.time}`;
    }

    choose(line) {
        this.chosen = line;
        if (!line) {
            this.info.replaceChildren(HINT);
            this.chart.draw();
            return;
        }
        const owner = this.owner.get(line.time);
        const by = line.commit ? "" : owner === undefined ? "That state was made by an entry that has no line, or is the opening."
            : `That state was made by seat ${owner}${owner === line.seat ? " itself" : ""}.`;
        this.info.replaceChildren(el("b", { style: `color:${seatColour(line.seat)}` }, `${this.describe(line)}. `), by, el("br"),
            el("span", { class: "soft" }, `line ${line.at + 1} of the text`));
        this.chart.show(line);
    }

    /* What each seat did. */
    countsCard() {
        const commits = this.lines.filter(line => line.commit);
        const changes = commits.filter((line, at) => at > 0 && commits[at - 1].seat !== line.seat).length;
        const heads = ["seat", "lines", "commits", "reads", "longest run of own commits", "reads of another seat's state",
            ...this.model.counts.filter(name => name !== "commits")];
        return card("Overlap", el("p", {}, `${commits.length} commits; ${changes} of them come behind one of another seat. `,
            "A text says in which order the commits are, and not when each began: where the colours above change often, the seats ran side by side."),
        el("table", {}, el("tr", {}, heads.map(name => el("th", {}, name))), this.model.seats.map(seat => this.countsOf(seat, commits))));
    }

    countsOf(seat, commits) {
        const own = this.lines.filter(line => line.seat === seat), reads = own.filter(line => !line.commit);
        let run = 0, most = 0;
        for (const line of commits) { run = line.seat === seat ? run + 1 : 0; most = Math.max(most, run); }
        const others = reads.filter(line => this.owner.has(line.time) && this.owner.get(line.time) !== seat).length;
        const log = this.model.logs.find(counts => counts[0] === seat) ?? [];
        const logged = this.model.counts.flatMap((name, at) => name === "commits" ? [] : [log[at + 1] ?? ""]);
        const counts = [own.length, own.length - reads.length, reads.length, most, others, ...logged];
        return el("tr", {}, el("td", { style: `color:${seatColour(seat)};font-weight:700` }, String(seat)), counts.map(count => el("td", {}, String(count))));
    }

    setsCard() {
        return card("The sets at the end", el("div", { class: "mono" },
            this.model.sets.map(row => el("div", { style: "overflow-wrap:anywhere" }, row)), this.model.sets.length ? null : "all are empty"));
    }

    listen() {
        const pick = (own, by) => () => {
            const among = own && this.chosen ? this.lines.filter(line => line.seat === this.chosen.seat) : this.lines;
            const at = this.chosen ? among.indexOf(this.chosen) + by : 0;
            if (among.length) this.choose(among[Math.max(0, Math.min(among.length - 1, at))]);
        };
        onKeys({ ArrowRight: pick(true, 1), ArrowLeft: pick(true, -1), ArrowDown: pick(false, 1), ArrowUp: pick(false, -1),
            Escape: () => this.choose(null), t: turnTheme });
        addEventListener("resize", () => this.chart.zoom(this.zoomed.value / 100));
        addEventListener("hashchange", () => this.linked());
        this.chart.zoom(0);
        this.choose(null);
        this.linked();
    }

    /* A link #94 leads to the line of this number. */
    linked() {
        const line = this.lines[(parseInt(location.hash.slice(1), 10) || 0) - 1];
        if (line) this.choose(line);
    }
}
const page = new RunPage(MODEL);
