// The keys of the terminal. It says when a key goes down and never when it goes up: so while the program runs, a key counts
// as down for some frames after each press, and while it stands a press holds the key and the next one lets it go.

const LETTERS = "x123qweasdzc4rfv";
/** The letters as they lie on the keyboard, row by row. */
export const ROWS = ["1234", "qwer", "asdf", "zxcv"];
const FRAMES = 12;

/** The key of the card that this letter is, if any: key k is the letter at place k. */
export function keyOf(letter) {
    const key = letter?.length === 1 ? LETTERS.indexOf(letter.toLowerCase()) : -1;
    return key < 0 ? undefined : key;
}

export class TerminalKeys {
    constructor() {
        /** For each key that is down, how many frames it stays so. */
        this.left = new Map();
    }

    press(key, running) {
        if (running) this.left.set(key, FRAMES);
        else if (!this.left.delete(key)) this.left.set(key, Infinity);
    }

    get down() {
        return [...this.left.keys()].sort((one, other) => one - other);
    }

    /** The keys for the next step. */
    get bits() {
        return this.down.reduce((bits, key) => bits | (1 << key), 0);
    }

    /** A frame has gone by. */
    pass() {
        for (const [key, frames] of this.left) {
            if (frames > 1) this.left.set(key, frames - 1);
            else this.left.delete(key);
        }
    }
}
