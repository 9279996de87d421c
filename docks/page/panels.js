// The panels beside the glass: variables and registers, the stack, the instructions and the memory. Each is built once and
// then only written where something is new. What the last action changed is marked.

import { NO_KEY } from "../machine.js";
import { digitsAt, EDITIONS, hex, instruction } from "../words.js";
import { add } from "./elements.js";

/** Writes a text and marks it, but only where that is new: most of a page stays the same from frame to frame. */
function write(element, text, changed) {
    if (element.textContent !== text) element.textContent = text;
    element.classList.toggle("changed", changed);
}

const keyOf = (held) => (held === NO_KEY ? "none" : hex(held, 1));

/** Every number with its name, and how it is read from a machine and written. */
const REGISTERS = [
    ["PC", (machine) => hex(machine.pc, 4)],
    ["I", (machine) => hex(machine.i, 4)],
    ["Delay", (machine) => hex(machine.delay, 2)],
    ["Tone", (machine) => hex(machine.tone, 2)],
    ["Held key", (machine) => keyOf(machine.held)],
    ["Lit spots", (machine) => `${machine.lit}`],
    ["Edition", (machine) => EDITIONS[machine.edition]],
    ["Memory end", (machine) => hex(machine.end, 4)],
];
const VARIABLES = Array.from({ length: 16 }, (_, x) => [`V${hex(x, 1)}`, (machine) => hex(machine.v[x], 2)]);
const STACK = Array.from({ length: 12 }, (_, entry) => [
    `${entry + 1}`,
    (machine) => (entry < machine.depth ? hex(machine.stack[entry], 4) : "·"),
]);

/** A grid of named numbers. */
class Cells {
    constructor(element, numbers) {
        this.cells = numbers.map(([name, read]) => {
            const cell = add(element, "div", "cell");
            add(cell, "span", "name", name);
            return { read, value: add(cell, "output") };
        });
    }

    draw(now, before) {
        for (const { read, value } of this.cells) write(value, read(now), read(now) !== read(before));
    }
}

export class Registers {
    constructor(variables, registers, stack) {
        this.grids = [new Cells(variables, VARIABLES), new Cells(registers, REGISTERS), new Cells(stack, STACK)];
    }

    draw(now, before) {
        for (const grid of this.grids) grid.draw(now, before);
    }
}

/** The instructions around PC, each in words. A press on a line sets the break there. */
export class Listing {
    static ABOVE = 3;
    static LINES = 9;

    constructor(list, onPress) {
        this.lines = Array.from({ length: Listing.LINES }, (_, n) => {
            const line = add(add(list, "li"), "button", "line");
            line.type = "button";
            line.addEventListener("click", () => onPress(this.addressOf(n)));
            return { line, parts: ["at", "digits", "does"].map((name) => add(line, "span", name)) };
        });
    }

    addressOf(n) {
        return this.pc + 2 * (n - Listing.ABOVE);
    }

    draw(machine, breakAt) {
        const { pc, edition } = machine;
        this.pc = pc;
        this.lines.forEach(({ line, parts }, n) => {
            const at = this.addressOf(n);
            const digits = at >= 0 ? digitsAt(machine, at) : undefined;
            const texts = digits === undefined ? ["", "", ""] : [hex(at, 4), digits, instruction(digits, edition)];
            parts.forEach((part, k) => write(part, texts[k], false));
            line.disabled = digits === undefined;
            line.classList.toggle("here", at === pc);
            line.classList.toggle("break", at === breakAt);
            line.title = at === breakAt ? "Takes the break away" : "Sets the break here";
        });
    }
}

/** A part of memory in hex, sixteen bytes a row. */
export class Memory {
    static ROWS = 8;

    constructor(element) {
        this.rows = Array.from({ length: Memory.ROWS }, () => {
            const row = add(element, "div", "row");
            return { at: add(row, "span", "at"), bytes: Array.from({ length: 16 }, () => add(row, "span", "byte")) };
        });
    }

    /** The rows around an address; near an end of memory its first or last rows. */
    draw(now, before, address) {
        const last = now.memory.length / 16 - Memory.ROWS;
        const first = Math.max(0, Math.min((address >> 4) - 3, last));
        this.rows.forEach(({ at, bytes }, n) => {
            const start = 16 * (first + n);
            write(at, hex(start, 4), false);
            bytes.forEach((byte, k) => {
                const here = start + k;
                write(byte, hex(now.memory[here], 2), now.memory[here] !== before.memory[here]);
                byte.classList.toggle("pc", here === now.pc || here === now.pc + 1);
                byte.classList.toggle("i", here === now.i);
                byte.classList.toggle("past", here >= now.end);
            });
        });
    }
}
