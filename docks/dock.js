// What a person does at a dock, whatever it is shown on: load, step, back, forward, drag, run, break, save and open.
// The fronts draw what stands here and add nothing to it.

import { FULL_END, LIST_MOST, Machine } from "./machine.js";
import { fileOf, isCardFile, partsIn } from "./card-file.js";
import { addressIn, counted, digitsAt, EDITIONS, hex, hint, instruction, REFUSALS } from "./words.js";

const DAMAGED = 11;

/** More than the largest file that could be meant has. Of a larger one this much and one byte more is read. */
export const READ_MOST = 100_000;

const randomByte = () => Math.floor(256 * Math.random());

export class Dock {
    constructor(card) {
        this.machine = new Machine(card);
        /** The machine before the last action: where the two differ, the action changed something. */
        this.before = new Machine(card);
        /** A copy to try things out on. */
        this.trial = new Machine(card);
        this.name = "";
        this.program = undefined;
        this.running = false;
        this.stepsAFrame = 10;
        this.breakAt = undefined;
        this.say("");
    }

    /** What is to be said to the person. */
    say(text) {
        this.said = { text, refused: false };
    }

    /** Says what was asked, why the card refused it, and what it left. */
    refuse(asked, number, where = "", left = "Nothing was changed.") {
        this.said = { text: `${asked}: refused with ${number}, ${REFUSALS[number]}${where}. ${left}`, refused: true, number };
    }

    /** Says why a file was not opened. */
    refuseFile(name, why) {
        this.said = { text: `${name} was not opened: ${why}. Nothing was changed.`, refused: true };
    }

    /** The instruction at PC: its four digits, and what it does. */
    get instruction() {
        const { pc, edition } = this.machine;
        const digits = digitsAt(this.machine, pc);
        return digits === undefined ? { digits: "", does: "past the end of memory" } : { digits, does: instruction(digits, edition) };
    }

    /** Where a refused step stood, for the sentence about it. */
    get where() {
        const { pc, edition } = this.machine;
        const { digits } = this.instruction;
        return ` (${digits || "nothing"} at ${hex(pc, 4)}${hint(digits, edition)})`;
    }

    // ---- load

    /** Loads a program. One that is refused leaves the machine as it was. */
    load(name, program, edition, end = FULL_END) {
        const refusal = this.machine.load(program, edition, end);
        if (refusal !== 0) {
            const more = program.length > READ_MOST ? "more than " : "";
            const has = `has ${more}${counted(Math.min(program.length, READ_MOST), "byte")}`;
            this.refuse(`Load ${name}`, refusal, `, and the file ${program.length === 0 ? "is empty" : has}`);
            return false;
        }
        Object.assign(this, { name, program, running: false });
        this.before.copy(this.machine);
        this.say(`${name} is loaded, for the ${EDITIONS[edition]} edition${end === FULL_END ? "" : " and the 2K profile"}.`);
        return true;
    }

    /** Whether there is a program to load again; where there is none, it says so. */
    hasProgram() {
        if (this.program) return true;
        this.say(`There is no program to load again: ${this.name} is a card's file, and holds the machine alone.`);
        return false;
    }

    // ---- single actions

    /** Makes one action by hand. What stood before it is kept, to show what it changed. */
    act(asked, action) {
        this.running = false;
        this.before.copy(this.machine);
        const refusal = action();
        if (refusal !== 0) this.refuse(asked, refusal, asked === "Step" ? this.where : "");
        else this.say("");
        return refusal === 0;
    }
    step(keys) {
        return this.act("Step", () => this.machine.step(keys, randomByte()));
    }
    tick() {
        return this.act("Tick", () => this.machine.tick());
    }
    back() {
        return this.act("Back", () => this.machine.back());
    }
    forward() {
        return this.act("Forward", () => this.machine.forward());
    }

    /** Takes a whole frame back: its steps, and the tick before them. */
    backFrame() {
        const { machine } = this;
        let isTick;
        do {
            isTick = machine.lastIsTick;
            if (!this.back()) return;
        } while (!isTick && machine.kept > 0);
    }

    /** Goes forward to where the next frame begins with its tick, or to the end of what is ahead. */
    forwardFrame() {
        const { machine } = this;
        do {
            if (!this.forward()) return;
        } while (machine.ahead > 0 && !machine.nextIsTick);
    }

    /** Goes along the timeline to where `kept` actions are kept, by backs and forwards and nothing else. */
    seek(kept) {
        this.running = false;
        const { machine } = this;
        while (machine.kept > kept) if (!this.back()) return;
        while (machine.kept < kept) if (!this.forward()) return;
    }

    // ---- run

    start() {
        this.running = true;
        this.begins = true;
        this.say("");
    }

    pause() {
        this.running = false;
        this.markLast();
    }

    /** One frame of a run: a tick, and then the steps. A run that begins where a step is refused is that step, without a tick. */
    frame(keys) {
        if (this.begins && this.isRefused(keys)) return void this.step(keys);
        const refusal = this.breakAt === undefined ? this.runFreely(keys) : this.runToBreak(keys);
        if (refusal === 0) return;
        this.pause();
        this.refuse("Step", refusal, this.where, "This step changed nothing; the tick and the steps before it stand.");
    }

    /** Whether the next step would be refused; it is tried on a copy. */
    isRefused(keys) {
        this.trial.copy(this.machine);
        return this.trial.step(keys, 0) !== 0;
    }

    runFreely(keys) {
        this.begins = false;
        const randoms = Uint8Array.from({ length: Math.min(this.stepsAFrame, LIST_MOST) }, randomByte);
        return this.machine.run(1, keys, randoms);
    }

    /** A run that begins where the break is goes on past it. */
    runToBreak(keys) {
        let refusal = this.machine.tick();
        for (let n = 0; n < this.stepsAFrame && refusal === 0; n++) {
            if (this.machine.pc === this.breakAt && !this.begins) {
                this.pause();
                this.say(`The break at ${hex(this.breakAt, 4)} is reached.`);
                return 0;
            }
            this.begins = false;
            refusal = this.machine.step(keys, randomByte());
        }
        return refusal;
    }

    /** Sets the break as it was typed, in hex; nothing takes it away. What is no address in memory leaves it, and that is said. */
    typeBreak(typed) {
        const text = typed.trim();
        const address = addressIn(text);
        const { end } = this.machine;
        let wrong;
        if (text !== "" && address === undefined) wrong = `${text} is no address in hex`;
        if (address >= end) wrong = `${hex(address, 4)} is not in memory, which ends at ${hex(end, 4)}`;
        if (wrong) return this.say(`${wrong}. The break stays as it was.`);
        this.breakAt = address;
        this.say("");
    }

    /** After a run: what stood before its last action is found by a back, on a copy. */
    markLast() {
        this.before.copy(this.machine);
        this.before.back();
    }

    // ---- the card's file

    save() {
        return fileOf(this.machine);
    }

    /**
     * Looks at a file before anything is changed. It is a program, or a card's file, and then perhaps with a worn history:
     * `salvage` says what a salvage would keep and clear. A file that cannot be opened is an error that says why.
     */
    look(bytes) {
        if (!isCardFile(bytes)) return { program: bytes };
        const parts = partsIn(bytes);
        this.trial.put(parts);
        const refusal = this.trial.salvage();
        if (refusal !== 0) throw new Error(`it holds ${REFUSALS[refusal]} (${refusal})`);
        const { salvaged } = this.trial;
        this.trial.put(parts);
        const salvage = { ...salvaged, of: this.trial.kept };
        return { parts, salvage: this.isWorn(salvage.keeps) ? salvage : undefined };
    }

    /** Whether a record of the trial is worn: a salvage keeps fewer, or what is ahead cannot be made again as it was. */
    isWorn(keeps) {
        const { trial } = this;
        if (keeps < trial.kept) return true;
        const history = trial.history.slice();
        while (trial.ahead > 0) if (trial.forward() !== 0) return true;
        return history.some((byte, n) => byte !== trial.history[n]);
    }

    /** Takes the machine out of a card's file that was looked at. */
    open(name, parts) {
        this.machine.put(parts);
        this.before.copy(this.machine);
        Object.assign(this, { name, program: undefined, running: false });
        this.say(`${name} is open, with ${counted(this.machine.kept, "action")} kept and ${this.machine.ahead} ahead.`);
    }

    /** Whether the last refusal was of a damaged record, so that a salvage helps. */
    get isDamaged() {
        return this.said.number === DAMAGED;
    }

    /** What a salvage of the machine would do; it is made on a copy. */
    get salvageOffer() {
        this.trial.copy(this.machine);
        this.trial.salvage();
        return { ...this.trial.salvaged, of: this.machine.kept };
    }

    salvage() {
        if (this.act("Salvage", () => this.machine.salvage())) this.say(`Salvaged, with ${counted(this.machine.kept, "record")} kept.`);
    }
}

/** Sixty frames a second, however often the front is drawn. One that was away does not catch up. */
export class Pace {
    constructor(now) {
        this.at = now;
    }

    /** How many frames are due now. */
    due(now) {
        const frames = Math.round(((now - this.at) * 60) / 1000);
        this.at = frames > 4 ? now : this.at + (frames * 1000) / 60;
        return Math.min(frames, 4);
    }
}

/** What a salvage would do, in lines: what would be kept, and the places that would be cleared, row by row. */
export function salvageInWords({ keeps, of, cleared }) {
    const lines = [`Of ${counted(of, "kept record")} the newest ${keeps} would stay, being sound.`];
    for (const was of ["kept", "ahead", "free"]) {
        const places = cleared.filter((entry) => entry.was === was).map((entry) => entry.place);
        if (places.length > 0) lines.push(`Cleared would be ${counted(places.length, "place")} that counted as ${was}: ${inRows(places)}.`);
    }
    return lines;
}

/** Numbers that follow one another are said as one row. */
function inRows(numbers) {
    const rows = [];
    for (const number of numbers) {
        const row = rows.at(-1);
        if (row && row[1] === number - 1) row[1] = number;
        else rows.push([number, number]);
    }
    return rows.map(([first, last]) => (first === last ? `${first}` : `${first} to ${last}`)).join(", ");
}
