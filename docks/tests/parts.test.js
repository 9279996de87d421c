// The parts of a dock that need no screen: the machine, its words, the card's file, and the lines of the terminal.

import assert from "node:assert/strict";
import { mkdtempSync, readFileSync, rmSync, writeFileSync } from "node:fs";
import { tmpdir } from "node:os";
import { join } from "node:path";
import { test } from "node:test";
import { CALLS, Card, Machine, PLACE, SMALL_END } from "../machine.js";
import { Dock, Pace, READ_MOST, salvageInWords } from "../dock.js";
import { PROGRAMS } from "../programs.js";
import { read } from "../read.js";
import { COLUMNS, LINES, screen, STYLES } from "../terminal/screen.js";
import { counted, hex, instruction } from "../words.js";

const wasm = readFileSync(new URL("../../target/dock/card.wasm", import.meta.url));
const card = () => Card.from(wasm);
const own = (name) => readFileSync(new URL(`../../programs/${name}`, import.meta.url));
const HISTORY_AT = 8 + 64 + 4096 + 256;

/** A dock with a program of our own in it. */
async function dockWith(name, edition = 1) {
    const dock = new Dock(await card());
    assert.ok(dock.load(name, own(name), edition));
    return dock;
}

/** All that a machine is, to be compared. */
const all = (machine) => machine.buffers.map((buffer) => buffer.slice());

test("a module of another version of the boundary is named", async () => {
    const { exports } = await card();
    const { card_salvage, ...older } = exports;
    assert.throws(() => new Card(older), /another version.*card_salvage takes no numbers there and 8 here/);
    const newer = { ...exports, card_tick: (image, imageLength, history, historyLength, more) => more };
    assert.throws(() => new Card(newer), /another version.*card_tick takes 5 numbers there and 4 here/);
});

test("the header has the calls that a dock makes, with the same words", () => {
    const header = readFileSync(new URL("../../include/card.h", import.meta.url), "utf8");
    for (const [name, handed] of Object.entries(CALLS)) {
        const [, parameters] = header.match(new RegExp(`uint32_t ${name}\\(([^)]*)\\)`));
        const words = parameters.split(",").map((parameter) => parameter.trim().replace(/^.*[ *]/, (type) => (type.includes("*") ? "*" : "")));
        const found = words.filter((word) => !word.endsWith("_length")).map((word) => (word.startsWith("*") ? `${word.slice(1)}*` : word));
        assert.equal(found.join(" "), handed, name);
    }
});

test("an instruction is in words exactly where the card accepts it", async () => {
    const machine = new Machine(await card());
    for (const edition of [0, 1]) {
        machine.load(Uint8Array.of(0, 0), edition);
        const start = machine.image.slice();
        for (let code = 0; code < 65536; code++) {
            machine.image.set(start);
            machine.memory[0x200] = code >> 8;
            machine.memory[0x201] = code & 255;
            const refusal = machine.step(0, 0);
            const does = instruction(hex(code, 4), edition);
            const expected = { "no instruction of this edition": 2, "a call into machine language": 3 }[does] ?? 0;
            assert.equal([2, 3].includes(refusal) ? refusal : 0, expected, hex(code, 4));
        }
    }
});

test("steps are taken back and made again, and what changed is known", async () => {
    const dock = await dockWith("digits.ch8");
    const start = all(dock.machine);
    dock.step(0);
    assert.equal(dock.machine.v[3], 97);
    assert.equal(dock.before.v[3], 0);
    for (let n = 0; n < 30; n++) dock.step(0);
    const end = all(dock.machine);
    dock.seek(0);
    assert.deepEqual(all(dock.machine).slice(1, 3), start.slice(1, 3));
    assert.equal(dock.machine.ahead, 31);
    dock.seek(31);
    assert.deepEqual(all(dock.machine), end);
    assert.ok(!dock.forward());
    assert.match(dock.said.text, /^Forward: refused with 12, nothing is ahead.* Nothing was changed\.$/);
});

test("a run makes a tick and N steps a frame, and marks its last action", async () => {
    const dock = await dockWith("squash.ch8");
    dock.stepsAFrame = 7;
    dock.start();
    for (let n = 0; n < 10; n++) dock.frame(0);
    assert.equal(dock.machine.kept, 80);
    dock.pause();
    assert.equal(dock.before.kept, 79);
    assert.equal(dock.before.ahead, 1);
});

test("whole frames are taken back and made again, in a history that went round as well", async () => {
    const dock = await dockWith("squash.ch8");
    const { machine } = dock;
    dock.stepsAFrame = 7;
    dock.step(0);
    // Before each tick, from the last to the first that are kept; then the start.
    for (const [frames, stops] of [[3, [17, 9, 1, 0]], [40, [216, 208, 200, 192]]]) {
        dock.start();
        for (let n = 0; n < frames; n++) dock.frame(0);
        const states = [all(machine)];
        for (const kept of stops) {
            dock.backFrame();
            assert.equal(machine.kept, kept);
            states.push(all(machine));
        }
        for (const state of states.reverse().slice(1)) {
            dock.forwardFrame();
            assert.deepEqual(all(machine), state);
        }
        assert.equal(machine.ahead, 0);
        assert.equal(dock.said.text, "");
    }
    dock.forwardFrame();
    assert.match(dock.said.text, /^Forward: refused with 12/);
    dock.seek(0);
    dock.backFrame();
    assert.match(dock.said.text, /^Back: refused with 7/);
    // From the middle of a frame: back to before its tick, and forward to its end.
    dock.seek(3);
    dock.backFrame();
    assert.equal(machine.kept, 0);
    dock.seek(3);
    dock.forwardFrame();
    assert.equal(machine.kept, 8);
    // The tick has the last place, and the steps after it the first ones.
    dock.load("squash.ch8", own("squash.ch8"), 1);
    for (let n = 0; n < 223; n++) dock.step(0);
    dock.tick();
    for (let n = 0; n < 3; n++) dock.step(0);
    dock.backFrame();
    assert.deepEqual([machine.next, machine.kept, machine.ahead], [223, 220, 4]);
});

test("a run pauses before the break, and goes on from it", async () => {
    const dock = await dockWith("digits.ch8");
    dock.breakAt = 0x0202;
    for (const expected of [1, 1 + 16]) {
        dock.start();
        for (let n = 0; n < 100 && dock.running; n++) dock.frame(0);
        assert.equal(dock.machine.pc, 0x0202);
        assert.match(dock.said.text, /The break at 0202 is reached/);
        assert.ok(dock.machine.kept >= expected);
    }
});

test("a break is typed in hex, marked as such or not, and only where memory is", async () => {
    const dock = await dockWith("digits.ch8");
    for (const typed of ["20e", "020E", "0x20E", "0X020e", "#20E", " 20E "]) {
        dock.breakAt = undefined;
        dock.say("an old message");
        dock.typeBreak(typed);
        assert.deepEqual([dock.breakAt, dock.said.text], [0x20e, ""]);
    }
    for (const typed of ["xyz", "0x", "#", "12345", "0x 20E", "20E."]) {
        dock.typeBreak(typed);
        assert.deepEqual([dock.breakAt, dock.said.text], [0x20e, `${typed} is no address in hex. The break stays as it was.`]);
    }
    dock.typeBreak("1000");
    assert.deepEqual([dock.breakAt, dock.said.text], [0x20e, "1000 is not in memory, which ends at 1000. The break stays as it was."]);
    dock.typeBreak("");
    assert.deepEqual([dock.breakAt, dock.said.text], [undefined, ""]);
    dock.load("small", Uint8Array.of(0x12, 0x00), 1, SMALL_END);
    dock.typeBreak("69F");
    assert.equal(dock.breakAt, 0x69f);
    dock.typeBreak("6A0");
    assert.equal(dock.breakAt, 0x69f);
    assert.match(dock.said.text, /^06A0 is not in memory, which ends at 06A0\./);
});

test("a refused step ends a run, stays on the screen and is stepped back from", async () => {
    const dock = await dockWith("again.ch8");
    dock.start();
    for (let n = 0; n < 5; n++) if (dock.running) dock.frame(0);
    assert.ok(!dock.running);
    assert.match(dock.said.text, /^Step: refused with 3, a call into machine language.* \(00FD at 0218\)\. This step changed nothing; /);
    assert.match(dock.said.text, /; the tick and the steps before it stand\.$/);
    assert.equal(dock.machine.lit, 76);
    assert.ok(dock.back());
});

test("a run that begins where a step is refused changes nothing, with a break or without", async () => {
    const dock = new Dock(await card());
    // The delay timer becomes 9; then comes what the card does not make.
    dock.load("crash", Uint8Array.of(0x60, 0x09, 0xf0, 0x15, 0x00, 0xfd), 1);
    dock.step(0);
    dock.step(0);
    dock.tick();
    dock.back();
    const before = all(dock.machine);
    for (const breakAt of [undefined, 0x204, 0x300]) {
        dock.breakAt = breakAt;
        dock.start();
        dock.frame(0);
        assert.ok(!dock.running);
        assert.match(dock.said.text, /^Step: refused with 3, .* \(00FD at 0204\)\. Nothing was changed\.$/);
        assert.deepEqual(all(dock.machine), before);
        assert.deepEqual([dock.machine.delay, dock.machine.kept, dock.machine.ahead], [9, 2, 1]);
    }
});

test("where the second edition has a refused instruction, or PC ran past the program, it is said", async () => {
    const dock = new Dock(await card());
    const refusalOf = (edition, ...program) => {
        dock.load("refused", Uint8Array.from(program), edition);
        dock.step(0);
        return dock.said.text;
    };
    for (const last of [0x13, 0x16, 0x17, 0x1e]) {
        assert.match(refusalOf(0, 0x80, last), /refused with 2, .*\(801. at 0200; the second edition has it\)/);
        assert.equal(refusalOf(1, 0x80, last), "");
    }
    for (const edition of [0, 1]) {
        assert.match(refusalOf(edition, 0x80, 0x18), /refused with 2, .*\(8018 at 0200\)/);
        assert.match(refusalOf(edition, 0, 0), /refused with 3, .*\(0000 at 0200; PC probably ran past the program\)/);
        assert.match(refusalOf(edition, 0, 1), /refused with 3, .*\(0001 at 0200\)/);
    }
});

test("a file that is empty or too long is refused and leaves the machine", async () => {
    const dock = await dockWith("mover.ch8");
    dock.step(0);
    const before = all(dock.machine);
    for (const [length, size] of [[0, "is empty"], [3585, "has 3,585 bytes"], [READ_MOST + 1, "has more than 100,000 bytes"]]) {
        const { program } = dock.look(new Uint8Array(length));
        assert.ok(!dock.load("wrong", program, 1));
        assert.match(dock.said.text, new RegExp(`^Load wrong: refused with 8.*, and the file ${size}\\. Nothing was changed\\.$`));
        assert.deepEqual(all(dock.machine), before);
    }
});

test("only an ordinary file is read, and of a large one no more than could be meant", () => {
    const folder = mkdtempSync(join(tmpdir(), "dock-"));
    try {
        const large = join(folder, "large");
        writeFileSync(large, Buffer.alloc(3 * READ_MOST, 7));
        assert.deepEqual(read(large), new Uint8Array(READ_MOST + 1).fill(7));
        assert.throws(() => read(folder), { message: "it is a folder" });
        assert.throws(() => read(join(folder, "none")), { message: "there is no such file" });
        assert.throws(() => read("/dev/zero"), { message: "it is no ordinary file" });
    } finally {
        rmSync(folder, { recursive: true });
    }
});

test("the 2K profile is chosen at load, and memory ends there", async () => {
    const dock = new Dock(await card());
    assert.ok(dock.load("small", new Uint8Array(1184), 1, SMALL_END));
    assert.match(dock.said.text, /2K profile/);
    assert.equal(dock.machine.end, SMALL_END);
    assert.ok(!dock.load("large", new Uint8Array(1185), 1, SMALL_END));
    assert.match(dock.said.text, /refused with 8.*in the 2K profile 1 to 1,184/);
    // 16A0 jumps to the end of memory, where nothing stands.
    dock.load("jump", Uint8Array.of(0x16, 0xa0), 1, SMALL_END);
    dock.step(0);
    assert.equal(dock.instruction.does, "past the end of memory");
    assert.ok(!dock.step(0));
    assert.match(dock.said.text, /refused with 1, PC is past the end of memory.*\(nothing at 06A0\)/);
});

test("a card's file holds the machine with its past", async () => {
    const dock = await dockWith("night.ch8");
    for (let n = 0; n < 40; n++) dock.step(0);
    dock.seek(25);
    const saved = dock.save();
    const other = await dockWith("keys.ch8");
    const { parts, salvage } = other.look(saved);
    assert.equal(salvage, undefined);
    assert.ok(other.hasProgram());
    other.open("night.card", parts);
    assert.deepEqual(all(other.machine), all(dock.machine));
    assert.ok(!other.hasProgram());
    assert.match(other.said.text, /^There is no program to load again: night.card is a card's file/);
    other.seek(40);
    dock.seek(40);
    assert.deepEqual(all(other.machine), all(dock.machine));
});

test("a worn history is offered a salvage, and nothing is changed before", async () => {
    const dock = await dockWith("night.ch8");
    for (let n = 0; n < 40; n++) dock.step(0);
    const file = dock.save();
    file[HISTORY_AT + 29 * PLACE + 22] = 77;
    const before = all(dock.machine);
    const { parts, salvage } = dock.look(file);
    assert.deepEqual(all(dock.machine), before);
    assert.deepEqual([salvage.keeps, salvage.of, salvage.cleared.length], [10, 40, 214]);
    assert.deepEqual(salvage.cleared[29], { place: 29, was: "kept" });
    assert.deepEqual(salvageInWords(salvage), [
        "Of 40 kept records the newest 10 would stay, being sound.",
        "Cleared would be 30 places that counted as kept: 0 to 29.",
        "Cleared would be 184 places that counted as free: 40 to 223.",
    ]);
    dock.open("worn", parts);
    dock.seek(0);
    assert.match(dock.said.text, /^Back: refused with 11, the record is damaged/);
    assert.ok(dock.isDamaged);
    dock.seek(40);
    dock.salvage();
    assert.equal(dock.machine.kept, 10);
    dock.seek(0);
    assert.ok(!dock.said.refused);
    assert.equal(dock.look(dock.save()).salvage, undefined);
});

test("one of a thing is said as one", async () => {
    const dock = await dockWith("night.ch8");
    dock.step(0);
    const file = dock.save();
    dock.open("one.card", dock.look(file).parts);
    assert.equal(dock.said.text, "one.card is open, with 1 action kept and 0 ahead.");
    dock.salvage();
    assert.equal(dock.said.text, "Salvaged, with 1 record kept.");
    file[HISTORY_AT] ^= 1;
    const [first, second] = salvageInWords(dock.look(file).salvage);
    assert.equal(first, "Of 1 kept record the newest 0 would stay, being sound.");
    assert.equal(second, "Cleared would be 1 place that counted as kept: 0.");
    assert.deepEqual([0, 1, 2000].map((number) => counted(number, "step")), ["0 steps", "1 step", "2,000 steps"]);
    for (const [steps, words] of [[1, "1 step a frame"], [1000, "1,000 steps a frame"]]) {
        dock.stepsAFrame = steps;
        dock.start();
        const line = screen(dock, { style: STYLES.plain, down: [] })[18].replace(/\x1b\[[0-9;]*m/g, "");
        assert.ok(line.endsWith(` ${words}`) && line.length <= COLUMNS, line);
    }
});

test("a worn record that is ahead is found as well", async () => {
    const dock = await dockWith("night.ch8");
    for (let n = 0; n < 40; n++) dock.step(0);
    dock.seek(20);
    const file = dock.save();
    file[HISTORY_AT + 30 * PLACE + 5] ^= 4;
    assert.equal(dock.look(file).salvage.keeps, 20);
});

test("a card's file that cannot be is named", async () => {
    const dock = await dockWith("night.ch8");
    const file = dock.save();
    assert.throws(() => dock.look(file.subarray(0, 1000)), /it ends too early/);
    assert.throws(() => dock.look(new Uint8Array([...file, ...new Uint8Array(500)])), /it is too long/);
    file[8 + 20] = 13;
    assert.throws(() => dock.look(file), /a state that cannot be \(10\)/);
});

test("every line of the terminal's screen fits", async () => {
    for (const [name] of PROGRAMS) {
        const dock = await dockWith(name);
        for (let n = 0; n < 300; n++) {
            dock.step(n % 2 ? 0xffff : 0);
            const lines = screen(dock, { style: STYLES.colours, down: [], variables: n % 3 === 0 });
            assert.equal(lines.length, LINES);
            const widths = lines.map((line) => line.replace(/\x1b\[[0-9;]*m/g, "").length);
            assert.ok(Math.max(...widths) <= COLUMNS, `${name}, line ${widths.findIndex((width) => width > COLUMNS) + 1}`);
        }
    }
});

test("the terminal's screen has the edition and the end of memory, and all of a long refusal", async () => {
    const dock = new Dock(await card());
    const text = () => screen(dock, { style: STYLES.plain, down: [] }).join("\n").replace(/\x1b\[[0-9;]*m/g, "");
    dock.load("crash", Uint8Array.of(0x60, 0x01), 0, SMALL_END);
    assert.match(text(), / first, to 06A0\n/);
    const saved = dock.save();
    dock.start();
    dock.frame(0);
    assert.match(text(), /0000 at 0202; PC[ \n]probably ran past.*before[ \n]it stand\.$/s);
    assert.equal(text().split("\n").length, LINES);
    dock.load("crash", Uint8Array.of(0x60, 0x01), 1);
    assert.match(text(), / second, to 1000\n/);
    dock.open("small.card", dock.look(saved).parts);
    assert.match(text(), / first, to 06A0\n/);
});

test("the pace is sixty frames a second, and does not catch up", () => {
    const pace = new Pace(0);
    let frames = 0;
    for (let now = 0; now <= 10_000; now += 7) frames += pace.due(now);
    assert.ok(Math.abs(frames - 600) <= 1, `${frames}`);
    assert.equal(pace.due(60_000), 4);
    assert.equal(pace.due(60_000), 0);
});
