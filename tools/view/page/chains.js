/* Each object: HEAD, its versions from the newest down, and the master; then the versions that are in no chain. */
const MOST_IN_CHAIN = 6, MOST_OBJECTS = 24;
/* Where what stands in the texts of a version, and of a seat. */
const STAMP_AT = 6, SUPER_AT = 7, WORDS_AT = 8, WORDS = 6, TIME_AT = 6;

const arrow = text => el("span", { class: "arrow", "aria-hidden": true }, text);

/* All who are at an object, by the names of its versions: who stands there, who writes one back, and who reads which one. */
function peopleAt(page, table, number) {
    const found = new Map(Object.entries(table.get(`who.${number}`)).map(([name, some]) => [name, [...some]]));
    for (let seat = 0; seat < page.model.seats; seat++) {
        const time = table.get(`seat.${seat}`)[TIME_AT], sees = table.get(`sees.${seat}.${number}`);
        if (time === null || !sees) continue;
        const [name, own] = sees, says = told(page.model.sees[own], { seat, time });
        found.set(name, [...found.get(name) ?? [], [seat, says, false]]);
    }
    return found;
}

function chips(people) {
    return el("div", {}, (people ?? []).map(([seat, says, stands]) => {
        const colour = seatColour(seat), style = `border-color:${colour};${stands ? `background:${colour}` : `color:${colour}`}`;
        return el("span", { class: `chip${stands ? " stands" : ""}`, style }, says);
    }));
}

function versionBox(page, table, name, people, apart) {
    const key = `version.${name}`, texts = table.get(key), [seat, position, slot, , sort, note, stamp, newer] = texts;
    const words = texts.slice(WORDS_AT, WORDS_AT + WORDS).flatMap((word, at) => [el("span", { class: page.mark(key, WORDS_AT + at) }, word), " "]);
    return el("div", { class: `version${apart ? " apart" : ""}`, style: `border-color:var(--${sort})` },
        el("div", { class: "top" }, el("span", { class: page.mark(key, 0), style: `color:${seatColour(seat)}` }, `version ${position} of seat ${seat}`),
            el("span", { class: "soft" }, `slot ${slot}`)),
        el("div", {}, el("span", { class: page.mark(key, STAMP_AT) }, `STAMP ${stamp}`), "; ",
            el("span", { class: page.mark(key, SUPER_AT) }, `SUPER ${newer}`)),
        el("div", { class: "soft" }, note), el("div", { class: "words" }, words), chips(people.get(name)));
}

function masterBox(page, table, number, people) {
    const words = table.get(`master.${number}`).flatMap((word, at) => [el("span", { class: page.mark(`master.${number}`, at) }, word), " "]);
    return el("div", { class: "version", style: "border-color:var(--soft)" }, el("div", { class: "top" }, "master"),
        el("div", { class: "words" }, words), chips(people.get("master")));
}

function objectBox(page, table, number) {
    const [head, chain, apart, freed] = table.get(`head.${number}`), people = peopleAt(page, table, number);
    const kids = [el("div", { class: `version small ${page.mark(`head.${number}`, 0)}` }, el("b", {}, "HEAD"), el("div", {}, head))];
    let hidden = 0;
    chain.forEach((name, at) => {
        const needed = at < 2 || at === chain.length - 1 || people.has(name) || page.isAt(`version.${name}`);
        if (chain.length > MOST_IN_CHAIN && !needed) { hidden++; return; }
        if (hidden) kids.push(arrow(`→ ${hidden} more`));
        hidden = 0;
        kids.push(arrow("→"), versionBox(page, table, name, people, false));
    });
    if (freed) kids.push(arrow("→"), el("div", { class: "version small apart" }, `${freed}, freed: no section goes here`));
    kids.push(arrow(freed ? " " : "→"), masterBox(page, table, number, people));
    const others = apart.length ? el("div", { class: "chain" }, arrow("in no chain:"),
        apart.flatMap(name => [versionBox(page, table, name, people, true), arrow(" ")])) : null;
    return el("div", {}, el("h3", {}, `object ${number}`), el("div", { class: "chain" }, kids), others);
}

/* The objects that steps came to last. */
function shownObjects(page, table) {
    const found = [...table.keys()].filter(key => key.startsWith("head.")).map(key => Number(key.slice(5)));
    if (found.length <= MOST_OBJECTS) return found.sort((a, b) => a - b);
    const last = new Set();
    for (let number = page.cursor; number > 0 && last.size < MOST_OBJECTS; number--) {
        for (const key of Object.keys(page.model.changes[number - 1])) if (key.startsWith("head.")) last.add(Number(key.slice(5)));
    }
    return [...last].sort((a, b) => a - b);
}

function objectsCard(page, table) {
    const shown = shownObjects(page, table), all = [...table.keys()].filter(key => key.startsWith("head.")).length;
    const more = all > shown.length ? `${all - shown.length} more objects, which steps came to earlier, aren't drawn. ` : "";
    const beyond = page.model.unshown ? `A page draws ${page.model.most} objects at most; ${page.model.unshown} of this plan are never drawn.` : "";
    const none = all ? null : el("p", { class: "soft" }, "No step has come to an object yet; each has six zeros in its master.");
    return card("Objects, from the newest version down to the master", none, ...shown.map(number => objectBox(page, table, number)),
        more || beyond ? el("p", { class: "soft" }, more + beyond) : null);
}
