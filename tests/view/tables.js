// What a page makes of the changes of each step is what the model has: node tables.js TOP SCENES. Steps are asked for in no order.
"use strict";
const fs = require("fs"), assert = require("assert"), path = require("path");
const [top, scenes] = process.argv.slice(2);
const source = fs.readFileSync(path.join(top, "tools/view/page/tables.js"), "utf8").replace(/const tagOf[^\n]*\n/, "");
const Tables = new Function(`${source}\nreturn Tables;`)();
const samples = JSON.parse(fs.readFileSync(scenes, "utf8"));
let looked = 0;
for (const sample of samples) {
    const tables = new Tables(sample);
    for (const step of sample.steps) {
        const table = Object.fromEntries(tables.at(step));
        assert.deepStrictEqual(table, sample.tables[step], `${sample.name} behind step ${step}`);
        looked++;
    }
}
console.log(`view: ${looked} tables of the page are those of the model`);
