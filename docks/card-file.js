// A card's file: a whole machine with its past. docs/DOCK.md has the table.

import { PLACE, HISTORY_MOST } from "./machine.js";

const MARK = new TextEncoder().encode("HAOCARD1");
const PARTS = { image: 64, memory: 4096, picture: 256 };
const HEAD = MARK.length + Object.values(PARTS).reduce((sum, length) => sum + length);

/** The bytes of the file that holds this machine. */
export function fileOf(machine) {
    const file = new Uint8Array(HEAD + machine.history.length);
    let at = 0;
    for (const part of [MARK, machine.image, machine.memory, machine.picture(), machine.history]) {
        file.set(part, at);
        at += part.length;
    }
    return file;
}

/** Whether these bytes are meant as a card's file: its first letters, whatever comes after them. */
export const isCardFile = (bytes) => MARK.every((letter, n) => bytes[n] === letter);

/** The parts of a machine in a card's file, or an error that says what is wrong with its length. */
export function partsIn(file) {
    const history = file.length - HEAD;
    if (history < PLACE) throw new Error(`it ends too early: a card's file has ${HEAD + PLACE} bytes or more`);
    if (history > HISTORY_MOST) throw new Error(`it is too long: a card's file has ${HEAD + HISTORY_MOST} bytes at most`);
    const parts = {};
    let at = MARK.length;
    for (const [name, length] of Object.entries({ ...PARTS, history })) {
        parts[name] = file.subarray(at, at + length);
        at += length;
    }
    return parts;
}
