/* What the step does, in a sentence; the seats; and what is checked. */
const KEYS = "Keys: → a step on, ← a step back, with Shift a call; n and p the next and the last event; f a fault; g six words as one line; "
    + "space plays; t light or dark.";
const MARK_AT = 1;  // in the texts of a seat
const TEXT_HOLDS = "each line of the text is that of its turn: the step that the call makes next, the word that was stored there last, "
    + "and the answer that follows";

/* What a screen reader is told: the step, and the answers that come with it. */
function spoken({ model, steps, cursor }) {
    if (!cursor) return "A domain that is just opened.";
    const step = steps.at(cursor), ends = (steps.ends.get(cursor) ?? []).map(end => ` ${endText(end)}`);
    const wrong = steps.wrong.has(cursor) ? " There is a fault." : "";
    return `Step ${cursor}: seat ${step.seat} ${told(model.sentences[step.access], step)}.${wrong}${ends.join("")}`;
}

const endText = ({ sort, seat, text }) => sort === "skip" ? `Then seat ${seat} skips ${text}.` : `Seat ${seat}'s call ends: ${text}.`;

function nowCard(page, table) {
    const { model, steps, cursor } = page;
    if (!cursor) {
        const seats = `${model.seats} seat${model.seats > 1 ? "s" : ""}`, objects = `${model.objects} object${model.objects > 1 ? "s" : ""} of six words`;
        return el("section", { class: "card", id: "now" }, el("p", { class: "big" }, "A domain that is just opened"),
            el("p", {}, `${seats}, ${objects}, logs of ${model.slots} slots; the time is ${table.get("clock")[2]}. Each object is six zeros in its master.`),
            el("p", { class: "soft" }, KEYS));
    }
    const step = steps.at(cursor), [kind, why] = model.kinds[step.kind];
    const faults = model.faults.filter(fault => fault.step === cursor);
    const ends = (steps.ends.get(cursor) ?? []).map(end => el("b", { style: `color:${seatColour(end.seat)}` }, ` ${endText(end)}`));
    return el("section", { class: "card", id: "now", style: `border-left-color:${seatColour(step.seat)}` },
        el("p", { class: "big" }, `Step ${cursor}: seat ${step.seat} ${told(model.sentences[step.access], step)}. `, steps.tags(step).map(tagOf)),
        faults.map(fault => el("p", { style: "color:var(--fault);font-weight:600" }, `Fault${fault.line ? ` in line ${fault.line}` : ""}: ${fault.said}.`)),
        el("p", { class: "soft" }, el("b", {}, `${kind}. `), why, step.tag === "helped" ? " Here it is done for the seat that made the commit." : ""),
        el("p", {}, writerOf(page, step), ends), el("p", { class: "mono" }, step.line));
}

/* Who stored the word that a step found. */
function writerOf(page, step) {
    if (step.access === "store") return "";
    if (!step.writer) return "No step had stored what it found.";
    const by = page.steps.at(step.writer).seat;
    return el("span", {}, "What it found was stored at step ", el("a", { href: `#${step.writer}`, style: "color:inherit" }, String(step.writer)),
        ` by seat ${by}${by === step.seat ? " itself" : ""}.`);
}

function seatsCard(page, table) {
    const acting = page.cursor ? page.steps.at(page.cursor).seat : null;
    const boxes = [...Array(page.model.seats).keys()].map(seat => {
        const [phase, mark, call, stands, holds] = table.get(`seat.${seat}`), colour = seatColour(seat);
        return el("div", { class: `seat${acting === seat ? " acts" : ""}`, style: `border-left-color:${colour}` },
            el("b", { style: `color:${colour}` }, `seat ${seat} `), phase,
            el("div", {}, el("span", { class: page.mark(`seat.${seat}`, MARK_AT) }, `MARK ${mark}`)),
                el("div", { class: "soft" }, [call, stands, holds].filter(text => text).join("; ")));
    });
    return card("Seats", el("div", { class: "seats" }, boxes));
}

function checkedCard(model) {
    const inText = model.faults.some(fault => fault.line);
    const broken = name => model.faults.some(fault => !fault.line && fault.said.endsWith(`(${name})`));
    const line = (holds, says) => el("li", { class: holds ? "" : "no" }, `${holds ? "✓" : "✗ not so:"} ${says}`);
    return card("Checked", el("ul", { class: "facts", style: "list-style:none" },
        line(!inText, TEXT_HOLDS),
        Object.entries(model.facts).map(([name, says]) => line(!broken(name), `behind each step ${says} (${name})`))));
}

function kindsCard(model) {
    const counts = model.kinds.map(() => 0);
    for (const step of model.steps) counts[step[1]]++;
    return el("details", { class: "card" }, el("summary", {}, "The kinds of step, and how often each is made here"), el("table", {},
        model.kinds.map(([name, why], kind) => el("tr", {}, el("td", {}, String(counts[kind])), el("td", {}, el("b", {}, name)), el("td", {}, why)))));
}
