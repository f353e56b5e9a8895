// A second, independent peer: V8's Date, by node, on stored lines of the original's answers (README.md, "Lines").
//   TZ=ZONE node differential/peer/peer.mjs FOLDER        FOLDER/stdin has the cases, FOLDER/stdout the answers
// UTC calls are asked, and local ones whose list is the zone's. Each case is compared; a difference of a known class (docs/DIFFERENCES.md) is
// counted with its first input, any other one fails the run. The original's answer to fewer than three decimals, which it refuses and V8 reads,
// is the one to the text with the missing zeros.
import { readFileSync } from "node:fs";

const folder = process.argv[2];
const utc = process.env.TZ === "UTC";
const lines = (name) => readFileSync(`${folder}/${name}`, "latin1").trimEnd().split("\n");
const cases = lines("stdin");
const answers = lines("stdout");

const bytes = (hex) => (hex === "-" ? Buffer.alloc(0) : Buffer.from(hex, "hex"));
const float = (hex) => Buffer.from(hex, "hex").readDoubleBE(0);
const same = (a, b) => (Number.isNaN(a) && Number.isNaN(b)) || a === b; // -0 and 0 are one time value

// A field record: the arguments by bit, undefined where absent.
function fields(hex) {
    const record = bytes(hex);
    const found = [];
    let at = 1;
    for (let bit = 0; bit < 8; bit++) {
        if ((record[0] >> bit) & 1) {
            found[bit] = record.readDoubleLE(at);
            at += 8;
        }
    }
    return found;
}

// A zone list: the instants of its changes in milliseconds, with the offset from each on.
function zoneList(hex) {
    const list = bytes(hex);
    const found = [];
    for (let at = 0; at < list.length; at += 12) {
        found.push({ from: 1000 * Number(list.readBigInt64LE(at)), offset: 1000 * list.readInt32LE(at + 8) });
    }
    return found;
}
const offsetAt = (list, t) => (list.findLast((record) => record.from <= t) ?? list[0]).offset;

// The setters by the last three letters of the tag; `setUTC` and `set` stand before.
const setters = { MIL: "Milliseconds", SEC: "Seconds", MIN: "Minutes", HOU: "Hours", DAT: "Date", MON: "Month", FYR: "FullYear" };

// What 01 says of an absent field is written in. Of a gap V8 has no call; of a setter's absent first argument V8 makes NaN, as ECMA-262 does,
// where 01 keeps the present value. `time` is read off the clock; V8's setFullYear starts from 0 where it is NaN, its other setters give NaN.
function filled(name, time, given) {
    const now = new Date(Number.isNaN(time) ? 0 : time);
    const present = {
        MIL: [now.getUTCMilliseconds()],
        SEC: [now.getUTCSeconds(), now.getUTCMilliseconds()],
        MIN: [now.getUTCMinutes(), now.getUTCSeconds(), now.getUTCMilliseconds()],
        HOU: [now.getUTCHours(), now.getUTCMinutes(), now.getUTCSeconds(), now.getUTCMilliseconds()],
        DAT: [now.getUTCDate()],
        MON: [now.getUTCMonth(), now.getUTCDate()],
        FYR: [now.getUTCFullYear(), now.getUTCMonth(), now.getUTCDate()],
        UTC: [NaN, 0, 1, 0, 0, 0, 0],
        LOC: [NaN, 0, 1, 0, 0, 0, 0],
    }[name];
    return present.map((value, bit) => (given[bit] === undefined ? value : given[bit]));
}

// What V8 answers, and for a local call `clock`: the local time that is to be turned into an instant.
function asked(tag, words) {
    const name = tag.slice(1);
    switch (tag) {
        case "READ": {
            const text = bytes(words[1]).toString("latin1");
            return { text, peer: Date.parse(text), clock: utc ? undefined : Date.parse(text + "Z") };
        }
        case "WISO":
            return { peer: new Date(float(words[0])).toISOString() };
        case "WUTC":
            return { peer: new Date(float(words[0])).toUTCString() };
        case "WLOC":
            return { peer: new Date(float(words[1])).toString().replace(/ \(.*\)$/, "") };
        case "BUTC": {
            const given = filled(name, NaN, fields(words[0]));
            return { given, peer: Date.UTC(...given) };
        }
        case "BLOC": {
            const given = filled(name, NaN, fields(words[1]));
            return { peer: new Date(...given).getTime(), clock: Date.UTC(...given) };
        }
    }
    if (tag.startsWith("U")) {
        const time = float(words[0]);
        const given = filled(name, time, fields(words[1]));
        return { given, peer: new Date(time)[`setUTC${setters[name]}`](...given) };
    }
    const time = float(words[1]);
    const shifted = time + offsetAt(zoneList(words[0]), time);
    const given = filled(name, shifted, fields(words[2]));
    return {
        peer: new Date(time)[`set${setters[name]}`](...given),
        clock: new Date(shifted)[`setUTC${setters[name]}`](...given),
    };
}

// The changes between whose instant and the end of its skipped or repeated hour the clock stands: docs/DIFFERENCES.md's local rule.
function changesAbout(list, clock) {
    return list.slice(1).filter((record, i) => {
        const end = record.from + Math.max(list[i].offset, record.offset);
        return Math.min(record.from, end) <= clock && clock < Math.max(record.from, end);
    });
}

const LOCAL = "a local time is read as an instant";
const SUFFIX = "the suffix is looked up at the local time";

// The class that a local call must differ by, or undefined where the two must agree.
function localClass(tag, words, call) {
    const list = zoneList(words[0]);
    if (tag === "WLOC") {
        const time = float(words[1]);
        const offset = offsetAt(list, time);
        return offsetAt(list, time + offset) === offset ? undefined : SUFFIX;
    }
    return changesAbout(list, call.clock).length > 0 ? LOCAL : undefined;
}

// A local difference is its class's: the suffix alone, or the instant by the other offset of the change.
function localExplains(name, words, call, ours) {
    if (name === SUFFIX) return ours.slice(0, -5) === call.peer.slice(0, -5);
    const list = zoneList(words[0]);
    const [change] = changesAbout(list, call.clock);
    const by = Math.abs(change.offset - list[list.indexOf(change) - 1].offset);
    return ours === call.clock - offsetAt(list, call.clock) && Math.abs(ours - call.peer) === by;
}

// The day number of a month's first day, by a year of the same calendar that V8 has in its range.
function monthStart(year, month) {
    const since = year + Math.floor(month / 12) - 2000;
    const cycles = Math.floor(since / 400);
    return Date.UTC(2000 + since - 400 * cycles, month - 12 * Math.floor(month / 12), 1) / 86_400_000 + 146_097 * cycles;
}

// The class of V8's own MakeDay that a difference belongs to, or undefined. Year, month and date are as they go into it.
function makeDayClass([year, month, date], ours, peer) {
    if (Number.isNaN(peer) && (Math.abs(year) > 1e6 || Math.abs(month) > 1e7)) return "V8's MakeDay has limits of its own";
    const late = ours + 86_400_000;
    if (year + Math.floor(month / 12) < -399_999 && same(peer, late > 8.64e15 ? NaN : late)) return "V8 is a day late before year -399999";
    const start = monthStart(year, month);
    if (start - 1 + date !== start + date - 1) return "V8 adds the date to the day before";
    return undefined;
}

// Fourth and further decimals, which V8 reads and leaves out.
function readWithThree({ text, peer }) {
    const three = text.replace(/(:\d\d\.\d{3})\d+/, "$1");
    return three !== text && same(peer, Date.parse(three));
}

// Known classes of difference in UTC, by the case: the name, or undefined where the two must agree.
function known(tag, words, call, refused, ours) {
    if (tag === "READ") {
        if (refused === 6 && readWithThree(call)) return "V8 reads more than three decimals";
        if (refused !== 0) return "V8 reads forms of its own (legacy parser)";
        if (/[+-]\d\d$/.test(call.text) && call.text.includes("T")) return "an offset without minutes is Boa's extension";
    }
    const given = call.given?.map(Math.trunc);
    if (tag === "BUTC" || tag === "UFYR") return makeDayClass(given, ours, call.peer);
    if (tag === "UMON") return makeDayClass([new Date(float(words[0])).getUTCFullYear(), ...given], ours, call.peer);
    return undefined;
}

// What V8 can be asked: of UTC a list that is UTC throughout, ASCII texts, accepted calls of the writers, builder and setters.
function canBeAsked(tag, words, refused) {
    if (tag !== "READ") return refused === 0;
    return !(utc && words[0] !== "0".repeat(24)) && refused !== 1 && !/[^\x20-\x7e]/.test(bytes(words[1]).toString("latin1"));
}

let compared = 0;
let skipped = 0;
const short = { read: 0, refused: 0 }; // texts with one or two decimals
const classes = new Map();
const failures = [];
cases.forEach((line, i) => {
    const [tag, ...words] = line.split(" ");
    const [number, value, length, output] = answers[i].split(" ");
    const refused = parseInt(number, 16);
    if (!canBeAsked(tag, words, refused)) return void skipped++;
    const call = asked(tag, words);
    const written = tag.startsWith("W");
    const valued = refused === 0 ? float(value) : NaN;
    const ours = written ? bytes(output).toString("latin1").slice(0, parseInt(length, 16)) : valued;
    const agrees = written ? ours === call.peer : same(ours, call.peer);
    compared++;
    if (/T\d\d:\d\d:\d\d\.\d{1,2}(?!\d)/.test(call.text)) short[refused === 0 ? "read" : "refused"]++;
    // In a zone the two differ exactly where the local rule says so.
    const due = utc ? undefined : localClass(tag, words, call);
    if (agrees && due === undefined) return;
    const name = utc ? known(tag, words, call, refused, ours) : due;
    const explained = name !== undefined && !agrees && (utc || localExplains(name, words, call, ours));
    if (!explained) failures.push(`${line}\n    ours ${ours}, V8 ${call.peer}, due to differ: ${due ?? "no"}`);
    else if (!classes.has(name)) classes.set(name, { count: 1, first: call.text ?? line.slice(0, 4), ours, peer: call.peer });
    else classes.get(name).count++;
});

const zone = process.env.TZ;
for (const [name, seen] of classes) console.log(`${zone}: ${name}: ${seen.count}, as '${seen.first}': ours ${seen.ours}, V8 ${seen.peer}`);
console.log(`${zone}: ${short.read + short.refused} texts with one or two decimals, ${short.read} read and ${short.refused} refused`);
failures.sort((a, b) => a.length - b.length);
for (const failure of failures.slice(0, 10)) console.log(`differs: ${failure}`);
console.log(`${zone}: ${compared} compared with V8, ${skipped} that V8 cannot be asked, ${failures.length} failed`);
process.exit(failures.length === 0 ? 0 : 1);
