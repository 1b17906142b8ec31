/* Logs: the ring of slots of each seat, with the versions that live there. */
const RING = { outer: 66, inner: 46, centre: 90 };

function point(slot, slots, far) {
    const turn = 2 * Math.PI * slot / slots - Math.PI / 2;
    return [RING.centre + far * Math.cos(turn), RING.centre + far * Math.sin(turn)].map(at => at.toFixed(1));
}

function wedge(slot, slots) {
    const { outer, inner } = RING, at = (k, far) => point(k, slots, far).join(" ");
    const out = `M${at(slot, inner)}L${at(slot, outer)}A${outer} ${outer} 0 0 1 ${at(slot + 1, outer)}`;
    return `${out}L${at(slot + 1, inner)}A${inner} ${inner} 0 0 0 ${at(slot, inner)}z`;
}

function ring(page, table, seat, versions) {
    const { slots, sorts } = page.model, [freed, next] = table.get(`log.${seat}`), { centre } = RING;
    const says = `the log of seat ${seat}: ${next - freed} live, the next position is ${next}`;
    const drawn = svg("svg", { width: 2 * centre, height: 2 * centre, viewBox: `0 0 ${2 * centre} ${2 * centre}`, role: "img", "aria-label": says });
    drawn.append(svg("circle", { cx: centre, cy: centre, r: (RING.outer + RING.inner) / 2, fill: "none", stroke: "var(--free)",
        "stroke-width": RING.outer - RING.inner }));
    for (const [, position, slot, object, sort, note] of versions) {
        const hit = page.isAt(`version.${seat}.${position}`);
        drawn.append(tipped(svg("path", { d: wedge(slot, slots), fill: `var(--${sort})`, stroke: hit ? "var(--cursor)" : "var(--panel)",
            "stroke-width": hit ? 2.5 : 0.7 }),
            `slot ${slot}: version ${position} of object ${object}, ${sorts[sort]}: ${note}`));
        const [x, y] = point(slot + 0.5, slots, RING.outer + 11);
        drawn.append(svg("text", { x, y: Number(y) + 4, "font-size": 10.5, "text-anchor": "middle" }, String(position)));
    }
    const at = (k, far) => point(next % slots + k, slots, far).join(" ");
    drawn.append(svg("path", { d: `M${at(0.5, RING.inner - 2)}L${at(-0.1, RING.inner - 11)}L${at(1.1, RING.inner - 11)}z`, fill: "var(--ink)" }));
    const text = (dy, words, weight) => svg("text", { x: centre, y: centre + dy, "font-size": 12, "text-anchor": "middle", "font-weight": weight }, words);
    drawn.append(text(-8, `seat ${seat}`, 700), text(7, `${next - freed} live`), text(21, `next ${next}`));
    return drawn;
}

function logsCard(page, table) {
    const bySeat = new Map();
    for (const [key, texts] of table) {
        if (!key.startsWith("version.")) continue;
        if (!bySeat.has(texts[0])) bySeat.set(texts[0], []);
        bySeat.get(texts[0]).push(texts);
    }
    const seats = [...Array(page.model.seats).keys()].filter(seat => page.model.seats <= 8 || table.get(`log.${seat}`)[1] || bySeat.has(seat));
    const legend = Object.entries(page.model.sorts).flatMap(([sort, says]) => [el("i", { style: `background:var(--${sort})` }), says]);
    return card("Logs", el("div", { class: "rings" }, seats.map(seat => ring(page, table, seat, bySeat.get(seat) ?? []))),
        el("div", { class: "legend" }, "a slot is:", legend, "; the pointer is at the slot of the next position"));
}
