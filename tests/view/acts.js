// What a reader does in a page, by keys; behind each key what is seen is looked at. The title says how it went.
const MOST_ERRORS = 4;
const EACH = innerWidth > 800 && innerWidth < 1500 ? 1 : 9;  // in a narrow or wide page fewer steps are looked at
const expect = (holds, text) => { if (!holds && errors.length < MOST_ERRORS) errors.push(text); };
const press = (key, shiftKey = false) => document.dispatchEvent(new KeyboardEvent("keydown", { key, shiftKey, bubbles: true, cancelable: true }));
const seen = place => place.textContent.replace(/\s+/g, " ");

function fits(where) {
    expect(document.documentElement.scrollWidth <= innerWidth + 1, `${where}: ${document.documentElement.scrollWidth} pixels in ${innerWidth}`);
    expect(!/undefined|NaN|\[object/.test(seen(page.state ?? document.querySelector(".runs"))), `${where}: an unfit word`);
}

function looksAt(step, count) {
    expect(document.querySelector(".count").textContent === `step ${step} of ${count}`, `step ${step}: ${document.querySelector(".count").textContent}`);
    const state = seen(page.state);
    for (const text of WANTED[step]) expect(state.includes(text.replace(/\s+/g, " ")), `step ${step}: ${text} isn't seen`);
    const current = document.querySelectorAll(".row[aria-current]").length;
    expect(!step || current === 1, `step ${step}: ${current} lines are current`);
    const spoken = seen(page.live);
    expect(!step || spoken.startsWith(`Step ${step}: seat`) && state.includes(spoken.slice(0, spoken.indexOf(". ") + 1)), `step ${step} isn't told`);
    expect(!document.querySelector(".facts .no"), `step ${step}: a fact is broken`);
}

function replayActs() {
    const count = MODEL.steps.length;
    expect(document.querySelector("[aria-live=polite]") === page.live, "the current step isn't told to a screen reader");
    looksAt(0, count);
    for (let step = EACH; step <= count; step += EACH) {
        for (let key = 0; key < EACH; key++) press("ArrowRight");
        looksAt(step, count);
        if (step % 3 === 0) fits(`step ${step}`);
    }
    press("End");
    press("ArrowRight");
    looksAt(count, count);
    for (const key of ["p", "p", "g", "n", "g", "t"]) press(key);
    fits("the other theme");
    press("ArrowLeft", true);
    press("Home");
    looksAt(0, count);
    press("End");
    looksAt(count, count);
    location.hash = "#7";
    page.go(page.linked());
    looksAt(7, count);
}

function runActs() {
    expect(document.querySelectorAll("#chart circle").length > 0, "no commit is drawn");
    for (let at = 0; at < Math.min(80, MODEL.lines.length); at++) {
        press("ArrowDown");
        expect(seen(page.info).includes(`command ${at + 1}:`), `line ${at + 1} isn't told`);
    }
    fits("the last line");
    for (const key of ["t", "ArrowLeft", "ArrowUp", "Escape"]) press(key);
    fits("the other theme");
}

if (MODEL.form === "replay") replayActs(); else runActs();
document.title = errors.length ? `FAULT ${errors.join("; ")}` : "FINE";
