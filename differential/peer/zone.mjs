// Cases in a real zone: its list of offsets from 1970 to 2100, as V8 has them, and local calls about its changes and elsewhere.
//   TZ=ZONE node differential/peer/zone.mjs N FOLDER        FOLDER/stdin gets N cases of each local function (README.md, "Lines")
import { writeFileSync } from "node:fs";

const [count, folder] = [Number(process.argv[2]), process.argv[3]];
const hour = 3_600_000;
const [first, last] = [0, Date.UTC(2100, 0, 1)];
const offset = (t) => -60 * new Date(t).getTimezoneOffset();

// The second from which the offset is another, between two times that differ in it.
function change(before, after) {
    while (after - before > 1000) {
        const middle = 1000 * Math.floor((before + after) / 2000);
        if (offset(middle) === offset(before)) before = middle;
        else after = middle;
    }
    return after;
}

const changes = [];
for (let t = first; t < last; t += 3 * hour) {
    if (offset(t) !== offset(t + 3 * hour)) changes.push(change(t, t + 3 * hour));
}
const list = Buffer.concat(
    [first, ...changes].map((t) => {
        const record = Buffer.alloc(12);
        record.writeBigInt64LE(BigInt(t / 1000), 0);
        record.writeInt32LE(offset(t), 8);
        return record;
    }),
).toString("hex");

// The same numbers each time: a linear congruence modulo 2^32, its high bits.
let state = 1;
function below(n) {
    state = (Math.imul(state, 1_664_525) + 1_013_904_223) >>> 0;
    return Math.floor((state / 2 ** 32) * n);
}

// A time, half of them within 30 hours of a change.
function time() {
    if (changes.length > 0 && below(2) === 0) return changes[below(changes.length)] + below(60 * hour) - 30 * hour;
    return 48 * hour + below(last - first - 96 * hour);
}

const word = (x) => {
    const bytes = Buffer.alloc(8);
    bytes.writeDoubleBE(x, 0);
    return bytes.toString("hex");
};
// A record of the fields, the first `absent` of them left out.
const record = (fields, absent = 0) => {
    const given = fields.slice(absent);
    const bytes = Buffer.alloc(1 + 8 * given.length);
    bytes[0] = ((1 << given.length) - 1) << absent;
    given.forEach((x, i) => bytes.writeDoubleLE(x, 1 + 8 * i));
    return bytes.toString("hex");
};

// Where a setter's fields begin among year, month, date, hour, minute, second and millisecond, and how many it has.
const setters = { LMIL: [6, 1], LSEC: [5, 2], LMIN: [4, 3], LHOU: [3, 4], LDAT: [2, 1], LMON: [1, 2], LFYR: [0, 3] };
const lines = [];
for (let i = 0; i < count; i++) {
    const clock = new Date(time()); // read off the clock, as if it were UTC
    const text = clock.toISOString().slice(0, [16, 19, 21, 22, 23][below(5)]); // to the minute, the second, with one to three decimals
    lines.push(`READ ${list} ${Buffer.from(text).toString("hex")}`);
    lines.push(`WLOC ${list} ${word(time())} ${"7e".repeat(36)}`);
    const day = [clock.getUTCFullYear(), clock.getUTCMonth(), clock.getUTCDate()];
    const fields = [...day, clock.getUTCHours(), clock.getUTCMinutes(), clock.getUTCSeconds(), clock.getUTCMilliseconds()];
    lines.push(`BLOC ${list} ${record(fields.slice(0, 2 + below(6)))}`);
    for (const [tag, [start, most]] of Object.entries(setters)) {
        const from = clock.getTime() + below(48 * hour) - 24 * hour;
        lines.push(`${tag} ${list} ${word(from)} ${record(fields.slice(start, start + 1 + below(most)), below(2))}`);
    }
}
writeFileSync(`${folder}/stdin`, lines.join("\n") + "\n");
