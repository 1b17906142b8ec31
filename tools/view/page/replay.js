/* The page of a replay: what goes where, and how a reader goes through it. */
const PLAY = 450;

class ReplayPage {
    constructor(model) {
        this.model = model;
        this.steps = new Steps(model);
        this.tables = new Tables(model);
        this.cursor = 0;
        this.playing = null;
        const go = step => this.go(step);
        this.lanes = new Lanes(model, this.steps, go);
        this.list = new List(model, this.steps, go);
        this.state = el("div", { id: "state", tabindex: 0, "aria-label": "what is seen behind the step" });
        this.live = el("div", { id: "live", "aria-live": "polite", "aria-atomic": true });
        this.rest = el("div");
        this.fixed = el("div", {}, checkedCard(model), kindsCard(model));
        this.state.append(this.live, this.rest, this.fixed);
        document.body.append(this.header(), ...[faultsBar(model.faults, go)].filter(bar => bar), this.lanes.place,
            el("main", {}, this.list.place, this.state), tip);
        this.listen();
    }

    header() {
        this.count = el("span", { class: "count" });
        this.slider = el("input", { type: "range", min: 0, max: this.steps.count, "aria-label": "step",
            on: { input: () => this.go(Number(this.slider.value)) } });
        this.play = button("▶", "play or stop (space)", () => this.turnPlay());
        return el("header", {}, el("h1", {}, this.model.name), el("span", { class: "title" }, this.model.title), el("span", { class: "buttons" },
            button("←", "one step back (left)", () => this.go(this.cursor - 1)), button("→", "one step on (right)", () => this.go(this.cursor + 1)),
            this.play, this.slider, this.count, button("‹ event", "the event before (p)", () => this.seek(-1, step => this.isEvent(step))),
            button("event ›", "the next event (n): a help, a lost exchange, an entry, a cut or a free", () => this.seek(1, step => this.isEvent(step))),
            button("group", "six words as one line (g)", () => this.list.regroup()), button("◐", "light or dark (t)", turnTheme)));
    }

    isEvent(step) { return this.steps.tags(step).some(tag => tag !== "back"); }

    seek(by, wanted) {
        for (let number = this.cursor + by; number >= 1 && number <= this.steps.count; number += by) {
            if (wanted(this.steps.at(number))) { this.go(number); return; }
        }
    }

    turnPlay() {
        if (this.playing) clearInterval(this.playing);
        this.playing = this.playing ? null : setInterval(() => { if (this.cursor < this.steps.count) this.go(this.cursor + 1); else this.turnPlay(); }, PLAY);
        this.play.textContent = this.playing ? "❚❚" : "▶";
    }

    listen() {
        const ends = new Set(this.model.calls.map(call => call[2]));
        const on = by => event => { if (event.shiftKey) this.seek(by, step => ends.has(step.number)); else this.go(this.cursor + by); };
        onKeys({ ArrowRight: on(1), ArrowLeft: on(-1), Home: () => this.go(0), End: () => this.go(this.steps.count), " ": () => this.turnPlay(),
            n: () => this.seek(1, step => this.isEvent(step)), p: () => this.seek(-1, step => this.isEvent(step)),
            f: () => this.seek(1, step => this.steps.wrong.has(step.number)), g: () => this.list.regroup(), t: turnTheme });
        addEventListener("hashchange", () => this.go(this.linked()));
        addEventListener("resize", () => { this.lanes.draw(this.cursor); this.go(this.cursor); });
        this.lanes.draw(0);
        this.go(this.linked());
    }

    linked() { return parseInt(location.hash.slice(1), 10) || 0; }

    /* Whether a text of the table is of the word of this step, and how it is shown. */
    isAt(key) { return this.cursor > 0 && this.steps.at(this.cursor).key === key; }
    mark(key, part) {
        if (!this.isAt(key)) return "";
        const step = this.steps.at(this.cursor);
        return step.part !== part ? "" : step.loads ? "found" : "changed";
    }

    /* Shows what is behind a step. */
    go(step) {
        this.cursor = Math.max(0, Math.min(this.steps.count, step));
        const table = this.tables.at(this.cursor), scrolled = this.state.scrollTop;
        this.slider.value = this.cursor;
        this.count.textContent = `step ${this.cursor} of ${this.steps.count}`;
        this.lanes.show(this.cursor);
        this.list.show(this.cursor);
        this.live.textContent = spoken(this);
        this.rest.replaceChildren(nowCard(this, table), seatsCard(this, table), timesCard(this, table), objectsCard(this, table), logsCard(this, table));
        this.state.scrollTop = scrolled;
        if (this.linked() !== this.cursor) history.replaceState(null, "", `#${this.cursor}`);
    }
}
const page = new ReplayPage(MODEL);
