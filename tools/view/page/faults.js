/* What is wrong with the text, above all else. */
function faultsBar(faults, go) {
    if (!faults.length) return null;
    const place = fault => fault.line ? `line ${fault.line}` : `step ${fault.step}`;
    const line = fault => go ? el("a", { href: `#${fault.step}`, on: { click: () => go(fault.step) } }, place(fault)) : el("b", {}, `${place(fault)}: `);
    const title = `${faults.length} fault${faults.length > 1 ? "s" : ""}: the text doesn't hold.`;
    return el("section", { id: "faults", role: "alert" }, el("b", {}, title), ...faults.slice(0, 200).map(fault => el("div", {}, line(fault), fault.said)));
}
