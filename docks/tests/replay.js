// Replays cases of the comparison on the card as WebAssembly. What must come of each call was written beside it, out of the
// second interpreter: the refusal, and every byte of every buffer. harness/src/recording.rs has the form.
//
//   harness/record SEED CALLS | node replay.js CARD.WASM CALLS

import { readFileSync } from "node:fs";
import { CALLS, Card } from "../machine.js";

const REFUSALS = 13;
const GUARD = 0xa5;
/** An odd number, so that buffers of bytes do not begin at a rounded address; and more than a place. */
const AROUND = 321;

/** Hands out the records of standard input, one after another. */
async function* records(stream) {
    let rest = Buffer.alloc(0);
    for await (const chunk of stream) {
        rest = Buffer.concat([rest, chunk]);
        let at = 0;
        while (rest.length >= at + 4 && rest.length >= at + 4 + rest.readUInt32LE(at)) {
            const end = at + 4 + rest.readUInt32LE(at);
            yield new Record(rest.subarray(at + 4, end));
            at = end;
        }
        rest = rest.subarray(at);
    }
    if (rest.length > 0) throw new Error("the last record is cut short");
}

class Record {
    constructor(bytes) {
        this.left = bytes;
    }
    number() {
        const number = this.left.readUInt32LE();
        this.left = this.left.subarray(4);
        return number;
    }
    bytes() {
        const length = this.number();
        const bytes = this.left.subarray(0, length);
        this.left = this.left.subarray(length);
        return bytes;
    }
    list(read) {
        return Array.from({ length: this.number() }, () => read());
    }
    patches() {
        return this.list(() => ({ buffer: this.number(), at: this.number(), bytes: this.bytes() }));
    }
}

/** The module's memory, from which buffers are lent with guards on both sides. */
class Lender {
    constructor(memory, from) {
        Object.assign(this, { memory, from, at: from });
    }
    /** A buffer that holds these bytes, and what must stand in it. */
    lend(bytes, size) {
        const start = Math.ceil((this.at + AROUND - 1) / size) * size;
        this.at = start + bytes.length + AROUND;
        const around = Buffer.from(this.memory.buffer, start - AROUND + size, bytes.length + 2 * (AROUND - size));
        around.fill(GUARD);
        const lent = Buffer.from(this.memory.buffer, start, bytes.length);
        lent.set(bytes);
        return { start, lent, size, around, must: Buffer.from(bytes) };
    }
}

/** Whether the guards on both sides of a buffer are whole. */
function guarded({ around, lent }) {
    const side = (around.length - lent.length) / 2;
    return [around.subarray(0, side), around.subarray(-side)].every((guard) => guard.equals(Buffer.alloc(guard.length, GUARD)));
}

class Replay {
    constructor({ exports }) {
        this.exports = exports;
        this.from = exports.memory.grow(16) * 65536;
        this.counts = Object.fromEntries(Object.keys(CALLS).map((name) => [name, Array(REFUSALS).fill(0)]));
        this.calls = 0;
        this.cases = 0;
    }

    make(record) {
        [() => this.begin(record), () => this.write(record), () => this.call(record)][record.number()]();
    }

    begin(record) {
        const lender = new Lender(this.exports.memory, this.from);
        this.machine = [1, 1, 8, 1].map((size) => lender.lend(record.bytes(), size));
        this.behind = lender.at;
        this.cases++;
    }

    write(record) {
        for (const { buffer, at, bytes } of record.patches()) {
            this.machine[buffer].lent.set(bytes, at);
            this.machine[buffer].must.set(bytes, at);
        }
    }

    call(record) {
        const name = record.bytes().toString();
        const lender = new Lender(this.exports.memory, this.behind);
        const buffers = [...this.machine];
        const crossing = record.list(() => {
            const kind = record.number();
            if (kind === 2) return [record.number()];
            if (kind === 1) {
                const size = record.number();
                buffers.push(lender.lend(record.bytes(), size));
            }
            const { start, lent, size } = kind === 1 ? buffers.at(-1) : this.machine[record.number()];
            return [start, BigInt(lent.length / size)];
        });
        const must = record.number();
        const came = this.exports[name](...crossing.flat());
        this.calls++;
        if (came !== must) throw this.mismatch(name, `refusal ${came} came and not ${must}`);
        for (const { buffer, at, bytes } of record.patches()) buffers[buffer].must.set(bytes, at);
        buffers.forEach((buffer, n) => {
            if (!buffer.lent.equals(buffer.must)) throw this.mismatch(name, `buffer ${n} came out otherwise`);
            if (!guarded(buffer)) throw this.mismatch(name, `buffer ${n} was written outside`);
        });
        this.counts[name][came]++;
    }

    mismatch(name, what) {
        return new Error(`case ${this.cases - 1}, ${name}, call ${this.calls} of all: ${what}`);
    }

    /** How often each call gave each number, and whether every call and every number was seen. */
    table() {
        const names = Object.keys(this.counts);
        const line = (first, cells) => first.padStart(8) + cells.map((cell) => String(cell || "-").padStart(9)).join("");
        const rows = Array.from({ length: REFUSALS }, (_, n) => line(`${n}`, names.map((name) => this.counts[name][n])));
        return [line("refusal", names.map((name) => name.replace("card_", ""))), ...rows].join("\n");
    }
    unseen() {
        const refusals = Array.from({ length: REFUSALS }, (_, n) => n).filter((n) => !Object.values(this.counts).some((counts) => counts[n]));
        const calls = Object.keys(this.counts).filter((name) => !this.counts[name].some(Boolean));
        return [...calls, ...refusals.map((n) => `refusal ${n}`)];
    }
}

const [wasm, least] = process.argv.slice(2);
const replay = new Replay(await Card.from(readFileSync(wasm)));
for await (const record of records(process.stdin)) replay.make(record);
console.log(replay.table());
if (replay.unseen().length > 0) throw new Error(`never seen: ${replay.unseen().join(", ")}`);
if (replay.calls < Number(least)) throw new Error(`only ${replay.calls} calls came, and ${least} were asked for`);
console.log(`the card as WebAssembly equals the second interpreter in ${replay.calls} calls of ${replay.cases} cases`);
