// The same calls by V8: one line each, name and nanoseconds, the best of 40 rounds. Inputs come as lines on standard input:
// `text T`, `time MS`, `fields Y M D H MIN S MS`.
import { readFileSync } from "node:fs";

const inputs = { text: [], time: [], fields: [] };
for (const line of readFileSync(0, "utf8").split("\n")) {
    const [kind, ...rest] = line.split(" ");
    if (kind === "text") inputs.text.push(rest[0]);
    if (kind === "time") inputs.time.push(Number(rest[0]));
    if (kind === "fields") inputs.fields.push(rest.map(Number));
}
const { text, time, fields } = inputs;
const dates = time.map((t) => new Date(t));

const calls = {
    read: (i) => Date.parse(text[i]),
    iso: (i) => dates[i].toISOString(),
    utc: (i) => dates[i].toUTCString(),
    build: (i) => { const [y, m, d, h, min, s, ms] = fields[i]; return Date.UTC(y, m, d, h, min, s, ms); },
    hours: (i) => dates[i].setUTCHours(fields[i][3]),
};

let sink = 0; // what the rounds add up, so that no call is dropped
for (const [name, call] of Object.entries(calls)) {
    let best = Infinity;
    for (let round = 0; round < 40; round++) {
        const start = process.hrtime.bigint();
        for (let i = 0; i < text.length; i++) {
            const answer = call(i);
            sink += typeof answer === "string" ? answer.length : answer % 7;
        }
        best = Math.min(best, Number(process.hrtime.bigint() - start) / text.length);
    }
    console.log(name, best.toFixed(1));
}
console.log("version", process.versions.v8, Number.isFinite(sink) ? "" : sink);
