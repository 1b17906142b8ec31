/* Elements of the page, its theme, and what is told where the pointer is. */
const SVG = "http://www.w3.org/2000/svg";

function fill(made, attributes, kids) {
    for (const [name, value] of Object.entries(attributes)) {
        if (name === "on") for (const [event, act] of Object.entries(value)) made.addEventListener(event, act);
        else if (value !== null && value !== undefined && value !== false) made.setAttribute(name, value === true ? "" : value);
    }
    made.append(...kids.flat().filter(kid => kid !== null && kid !== undefined && kid !== ""));
    return made;
}
const el = (tag, attributes = {}, ...kids) => fill(document.createElement(tag), attributes, kids);
const svg = (tag, attributes = {}, ...kids) => fill(document.createElementNS(SVG, tag), attributes, kids);

/* Seats beyond the eighth have the colours of the first ones again: each is named wherever it is shown. */
const seatColour = seat => `var(--seat${seat % SEATS})`;

const root = document.documentElement;
const isDark = () => root.dataset.theme ? root.dataset.theme === "dark" : matchMedia("(prefers-color-scheme: dark)").matches;
const turnTheme = () => { root.dataset.theme = isDark() ? "light" : "dark"; };
for (const theme of ["dark", "light"]) if (location.hash.includes(theme)) root.dataset.theme = theme;

const tip = el("div", { id: "tip", role: "tooltip" });
function showTip(event, text) {
    tip.textContent = text;
    tip.style.display = "block";
    tip.style.left = `${Math.max(4, Math.min(event.clientX + 14, innerWidth - tip.offsetWidth - 8))}px`;
    tip.style.top = `${event.clientY > innerHeight - 120 ? event.clientY - tip.offsetHeight - 10 : event.clientY + 16}px`;
}
/* What is told of an element, by pointer or tap. */
function tipped(made, text) {
    made.addEventListener("pointermove", event => showTip(event, text));
    made.addEventListener("pointerdown", event => showTip(event, text));
    made.addEventListener("pointerleave", () => { tip.style.display = "none"; });
    return made;
}
const card = (title, ...kids) => el("section", { class: "card" }, el("h2", {}, title), ...kids);
const button = (text, title, act) => el("button", { title, "aria-label": title, on: { click: act } }, text);

/* Keys that belong to a field, or go with Control or Alt, are the browser's. */
function onKeys(keys) {
    document.addEventListener("keydown", event => {
        const taken = event.target.tagName === "INPUT" && /^(Arrow|Home|End)/.test(event.key) || event.target.tagName === "BUTTON" && event.key === " ";
        if (taken || event.ctrlKey || event.metaKey || event.altKey || !keys[event.key]) return;
        event.preventDefault();
        keys[event.key](event);
    });
}
