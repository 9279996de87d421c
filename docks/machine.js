// The machine inside the card, as a dock holds it: the calls of include/card.h on the proved module, compiled for
// WebAssembly. What is here lends buffers and reads the image. No rule of the machine is written a second time.

/** What each call is handed, in the order of include/card.h; `*` marks a buffer, the others are numbers. */
export const CALLS = {
    card_load: "program* edition end image* memory* rows* history*",
    card_step: "image* memory* rows* history* keys random answer*",
    card_tick: "image* history*",
    card_back: "image* memory* rows* history*",
    card_forward: "image* memory* rows* history*",
    card_run: "image* memory* rows* history* ticks* keys* randoms* answer*",
    card_plain: "image* memory* spots* ticks* keys* randoms* answer*",
    card_play: "image* memory* rows* history* moves* keys* randoms*",
    card_rows: "picture* rows*",
    card_bytes: "rows* picture*",
    card_panel: "picture* panel*",
    card_page: "image* page*",
    card_salvage: "image* history* list* answer*",
};

export const PROGRAM_MOST = 3584;
export const PLACE = 292;
export const PLACES_MOST = 224;
export const HISTORY_MOST = 65536;
export const LIST_MOST = 4096;
export const NO_KEY = 0xff;
/** Where memory may end: all of it, or that of the 2K profile. */
export const FULL_END = 0x1000;
export const SMALL_END = 0x06a0;

/** Room for the buffers of a dock and of the copies on which it tries things out, in pages of 64 KB. */
const ROOM = 16;

/** The compiled module, and the memory from which it is lent buffers. */
export class Card {
    static async from(wasm) {
        const { instance } = await WebAssembly.instantiate(wasm);
        return new Card(instance.exports);
    }

    constructor(exports) {
        for (const [name, handed] of Object.entries(CALLS)) {
            // A buffer crosses as its address and its length.
            const numbers = handed.split(" ").length + handed.split("*").length - 1;
            const found = exports[name]?.length;
            if (found !== numbers)
                throw new Error(
                    `card.wasm is of another version of the boundary than this dock: ${name} takes ` +
                        `${found ?? "no"} numbers there and ${numbers} here. Make both again with docks/build.`,
                );
        }
        this.exports = exports;
        // The memory grows once, at the start: growing takes every view of it away.
        this.next = exports.memory.grow(ROOM) * 65536;
    }

    /** A new buffer in the module's memory, all 0. */
    buffer(Type, length) {
        const at = Math.ceil(this.next / 8) * 8;
        this.next = at + length * Type.BYTES_PER_ELEMENT;
        return new Type(this.exports.memory.buffer, at, length);
    }

    /** Makes a call. It gives the refusal number, 0 for done. */
    call(name, ...handed) {
        const crossing = [];
        for (const part of handed) {
            if (typeof part === "number") crossing.push(part);
            else crossing.push(part.byteOffset, BigInt(part.length));
        }
        return this.exports[name](...crossing);
    }
}

/** One machine: its buffers, its state by name, and the calls on it. Each call gives the refusal number, 0 for done. */
export class Machine {
    constructor(card) {
        this.card = card;
        this.image = card.buffer(Uint8Array, 64);
        this.memory = card.buffer(Uint8Array, 4096);
        this.rows = card.buffer(BigUint64Array, 32);
        this.historyRoom = card.buffer(Uint8Array, HISTORY_MOST);
        this.history = this.historyRoom.subarray(0, PLACES_MOST * PLACE);
        this.answer = card.buffer(BigUint64Array, 4);
        // One byte more than a program may have, so that it is the card that refuses one that is too long.
        this.programRoom = card.buffer(Uint8Array, PROGRAM_MOST + 1);
        this.ticks = card.buffer(Uint8Array, LIST_MOST);
        this.keys = card.buffer(Uint16Array, LIST_MOST);
        this.randoms = card.buffer(Uint8Array, LIST_MOST);
        this.pictureBytes = card.buffer(Uint8Array, 256);
        this.panelBytes = card.buffer(Uint8Array, 1024);
        this.list = card.buffer(Uint16Array, 2 * PLACES_MOST);
    }

    // ---- the state, as it stands in the image

    word(at) {
        return 256 * this.image[at] + this.image[at + 1];
    }
    get v() {
        return this.image.subarray(0, 16);
    }
    get i() {
        return this.word(16);
    }
    get pc() {
        return this.word(18);
    }
    get depth() {
        return this.image[20];
    }
    get delay() {
        return this.image[21];
    }
    get tone() {
        return this.image[22];
    }
    get held() {
        return this.image[23];
    }
    /** The return addresses, the last one last. */
    get stack() {
        return Array.from({ length: Math.min(this.depth, 12) }, (_, entry) => this.word(24 + 2 * entry));
    }
    get next() {
        return this.word(48);
    }
    get kept() {
        return this.word(50);
    }
    get edition() {
        return this.image[52];
    }
    get ahead() {
        return this.word(54);
    }
    get lit() {
        return this.word(56);
    }
    get end() {
        return this.word(58);
    }
    get places() {
        return Math.floor(this.history.length / PLACE);
    }

    /** Whether the record in a place is that of a tick; else it is that of a step. */
    isTick(place) {
        return this.history[place * PLACE + PLACE - 1] === 0;
    }
    /** Whether a back would take a tick back. */
    get lastIsTick() {
        return this.isTick((this.next + this.places - 1) % this.places);
    }
    /** Whether a forward would make a tick again. */
    get nextIsTick() {
        return this.isTick(this.next);
    }

    /** How many steps the last step or run made. */
    get accepted() {
        return Number(this.answer[0]);
    }
    /** How many lit spots it darkened. */
    get wentDark() {
        return Number(this.answer[1]);
    }

    // ---- the calls

    get buffers() {
        return [this.image, this.memory, this.rows, this.history];
    }

    /** A refused load hands back a fresh image beside the old memory and rows. So the old image is put back here. */
    load(program, edition, end = FULL_END) {
        const before = this.image.slice();
        const lent = this.programRoom.subarray(0, Math.min(program.length, PROGRAM_MOST + 1));
        lent.set(program.subarray(0, lent.length));
        const refusal = this.card.call("card_load", lent, edition, end, ...this.buffers);
        if (refusal !== 0) this.image.set(before);
        return refusal;
    }
    step(keys, random) {
        return this.card.call("card_step", ...this.buffers, keys, random, this.answer);
    }
    tick() {
        return this.card.call("card_tick", this.image, this.history);
    }
    back() {
        return this.card.call("card_back", ...this.buffers);
    }
    forward() {
        return this.card.call("card_forward", ...this.buffers);
    }
    /** Makes `ticks` ticks and then as many steps as there are random bytes, with the same keys down all the while. */
    run(ticks, keys, randoms) {
        const steps = Math.min(randoms.length, LIST_MOST);
        this.ticks[0] = ticks;
        this.keys.fill(keys, 0, steps);
        this.randoms.set(randoms.subarray(0, steps));
        const lists = [this.ticks, this.keys, this.randoms].map((list) => list.subarray(0, steps));
        return this.card.call("card_run", ...this.buffers, ...lists, this.answer);
    }

    /** The picture as bytes, eight a row. */
    picture() {
        this.card.call("card_bytes", this.rows, this.pictureBytes);
        return this.pictureBytes;
    }
    /** The page of variables, as the bytes of a picture. */
    page() {
        this.card.call("card_page", this.image, this.pictureBytes);
        return this.pictureBytes;
    }
    /** The dots of the card's glass, 128 by 64, sixteen bytes a row: of a picture or of a page. */
    panel(picture) {
        this.card.call("card_panel", picture, this.panelBytes);
        return this.panelBytes;
    }

    /** Salvages the history. `salvaged` says then how many records it kept, and of each place that it cleared what it was. */
    salvage() {
        const refusal = this.card.call("card_salvage", this.image, this.history, this.list, this.answer);
        const [kept, cleared] = Array.from(this.answer, Number);
        const places = Array.from({ length: cleared }, (_, n) => ({
            place: this.list[2 * n],
            was: ["kept", "ahead", "free"][this.list[2 * n + 1]],
        }));
        this.salvaged = { keeps: kept, cleared: places };
        return refusal;
    }

    // ---- a whole machine in and out

    /** Becomes the machine that another one is. */
    copy(other) {
        this.history = this.historyRoom.subarray(0, other.history.length);
        other.buffers.forEach((buffer, n) => this.buffers[n].set(buffer));
    }
    /** Becomes the machine that these bytes are; the picture is given as bytes. */
    put({ image, memory, picture, history }) {
        this.history = this.historyRoom.subarray(0, history.length);
        this.image.set(image);
        this.memory.set(memory);
        this.history.set(history);
        this.pictureBytes.set(picture);
        this.card.call("card_rows", this.pictureBytes, this.rows);
    }
}
