/* CLOCK, the history and GRACE: each section on one axis of times. */
const TIME = 96, TIMES_LEFT = 62;

function timesCard(page, table) {
    const [clock, stamp, now] = table.get("clock"), [grace] = table.get("grace"), { model } = page;
    const room = Math.max(2, Math.floor((page.state.clientWidth - 120) / TIME)), last = model.history[model.history.length - 1][0];
    const from = Math.max(model.base, Math.min(now - room + 2, last - room + 1)), to = Math.min(last, from + room - 1);
    const inside = seatsInside(model, table), width = TIMES_LEFT + TIME * (to - from + 1) + 90, height = 66 + 19 * Math.max(1, inside.length);
    const x = time => TIMES_LEFT + TIME * (Math.min(Math.max(time, from), to) - from);
    const drawn = svg("svg", { viewBox: `0 0 ${width} ${height}`, width, height, role: "img", "aria-label": `the history up to time ${now}` });
    for (let time = from; time <= to; time++) drawn.append(...entryBox(model.history[time - model.base], x(time), now));
    drawn.append(label(2, 23, "entries"), label(2, 52, "GRACE"), ...graceFlag(x(grace), grace));
    inside.forEach((seat, row) => drawn.append(...sectionBar(seat, 60 + 19 * row, x)));
    const words = el("p", {}, el("span", { class: page.mark("clock", 0) }, `CLOCK: ${clock}${stamp ? `; ${stamp}` : ""}`), ". ",
        el("span", { class: page.mark("grace", 0) }, `GRACE: time ${grace}`), ".");
    return card("Clock, history and watermark", words, drawn);
}

const label = (x, y, text) => svg("text", { x, y, "font-size": 11, class: "soft" }, text);

function seatsInside(model, table) {
    const found = [];
    for (let seat = 0; seat < model.seats; seat++) {
        const [, , , , , low, time] = table.get(`seat.${seat}`);
        if (low !== null) found.push({ seat, low, time });
    }
    return found;
}

function entryBox([time, seat, , objects], x, now) {
    const made = time <= now, commit = objects.length > 0;
    const says = !made ? "" : seat === null ? "opening" : commit ? `seat ${seat}: object ${objects.join(",")}` : `rest of seat ${seat}`;
    const box = { x: x + 2, y: 2, width: TIME - 4, height: 34, rx: 5, fill: !made ? "none" : commit ? seatColour(seat) : "var(--faint)" };
    return [svg("rect", { ...box, "fill-opacity": commit ? 0.16 : 1, stroke: time === now ? "var(--cursor)" : "var(--rule)",
        "stroke-width": time === now ? 2 : 1,
        "stroke-dasharray": made ? null : "3 3" }),
    made ? svg("text", { x: x + 8, y: 16, "font-size": 12, "font-weight": 700 }, `time ${time}`) : label(x + 8, 16, `time ${time}`),
    svg("text", { x: x + 8, y: 30, "font-size": 10.5 }, says)];
}

const graceFlag = (x, grace) => [svg("rect", { x: TIMES_LEFT, y: 43, width: Math.max(0, x - TIMES_LEFT), height: 9, fill: "var(--fine)", opacity: 0.3 }),
    svg("path", { d: `M${x + 4} 42v12M${x + 4} 42l9 4.5l-9 4.5`, stroke: "var(--fine)", fill: "var(--fine)", "stroke-width": 2 }),
    svg("text", { x: x + 18, y: 52, "font-size": 11 }, `${grace}: no section is below`)];

function sectionBar({ seat, low, time }, y, x) {
    const colour = seatColour(seat), at = time ?? low;
    const box = { x: x(at) + 2, y, width: TIME - 4, height: 14, rx: 4, stroke: colour };
    const says = time === null ? `${low} or later` : low < time ? `at ${time}, mark ${low}` : `at ${time}`;
    return [label(2, y + 11, `seat ${seat}`),
        low < at ? svg("line", { x1: x(low) + 4, x2: x(at) + 4, y1: y + 7, y2: y + 7, stroke: colour, "stroke-dasharray": "3 2" }) : svg("g"),
        svg("rect", { ...box, fill: time === null ? "none" : colour, "fill-opacity": 0.16, "stroke-dasharray": time === null ? "3 2" : null }),
        svg("text", { x: x(at) + 8, y: y + 11, "font-size": 10.5 }, says)];
}
