/* What is seen behind each step: the opening table with what each step changes. Every so often one is kept. */
const EVERY = 256;

class Tables {
    constructor(model) {
        this.changes = model.changes;
        this.kept = [new Map(Object.entries(model.opening))];
    }

    at(step) {
        const from = Math.min(Math.floor(step / EVERY), this.kept.length - 1);
        const table = new Map(this.kept[from]);
        for (let made = from * EVERY; made < step; made++) {
            for (const [key, texts] of Object.entries(this.changes[made])) {
                if (texts === null) table.delete(key);
                else table.set(key, texts);
            }
            if ((made + 1) % EVERY === 0 && this.kept.length === (made + 1) / EVERY) this.kept.push(new Map(table));
        }
        return table;
    }
}

/* The steps, by their numbers from 1. */
class Steps {
    constructor(model) {
        this.model = model;
        this.count = model.steps.length;
        this.wrong = new Set(model.faults.map(fault => fault.step));
        this.ends = new Map();
        for (const [after, sort, seat, text] of model.notes) {
            if (sort !== "answer" && sort !== "skip") continue;
            if (!this.ends.has(after)) this.ends.set(after, []);
            this.ends.get(after).push({ sort, seat, text });
        }
    }

    at(number) {
        const texts = this.model.texts;
        const [seat, kind, access, base, word, found, offered, writer, tag, key, part, line] = this.model.steps[number - 1];
        return { number, seat, kind, access, base: texts[base], word, place: word < 0 ? texts[base] : `${texts[base]}, word ${word}`, found: texts[found],
            offered: offered < 0 ? "" : texts[offered], writer, tag, key: texts[key], part, line, loads: access === "load" || access === "lost" };
    }

    tags(step) { return [...step.tag ? [step.tag] : [], ...this.wrong.has(step.number) ? ["fault"] : []]; }
}

const told = (sentence, step) => sentence.replace(/\{(\w+)\}/g, (_, name) => step[name]);
const TAGS = { stamped: "was stamped", back: "write-back", commit: "commit", rest: "rest", helped: "helped", lost: "lost", cut: "cut", freed: "freed",
    fault: "fault" };
const tagOf = name => el("span", { class: `tag ${name}` }, TAGS[name] ?? name);
