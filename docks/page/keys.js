// The hex pad: sixteen buttons on the page, and the same sixteen on the keyboard, by where they lie and not by their letter.

import { hex } from "../words.js";
import { add } from "./elements.js";

/** The pad as the VIP had it, with the key of the keyboard that lies in the same place. */
const PAD = [
    [0x1, "Digit1"], [0x2, "Digit2"], [0x3, "Digit3"], [0xc, "Digit4"],
    [0x4, "KeyQ"], [0x5, "KeyW"], [0x6, "KeyE"], [0xd, "KeyR"],
    [0x7, "KeyA"], [0x8, "KeyS"], [0x9, "KeyD"], [0xe, "KeyF"],
    [0xa, "KeyZ"], [0x0, "KeyX"], [0xb, "KeyC"], [0xf, "KeyV"],
];

export class Keys {
    constructor(pad, latch) {
        this.latch = latch;
        this.down = 0;
        /** Keys that went down since they were last asked for, so that the shortest press counts. */
        this.pressed = 0;
        this.buttons = new Map();
        this.codes = new Map(PAD.map(([key, code]) => [code, key]));
        for (const [key, code] of PAD) this.addButton(pad, key, code.at(-1));
        latch.addEventListener("change", () => this.releaseAll());
        addEventListener("blur", () => latch.checked || this.releaseAll());
    }

    addButton(pad, key, letter) {
        const button = add(pad, "button", "key", hex(key, 1));
        button.type = "button";
        button.title = `Key ${hex(key, 1)}; ${letter} on the keyboard`;
        add(button, "small", "", letter);
        this.buttons.set(key, button);
        button.addEventListener("pointerdown", (event) => {
            event.preventDefault();
            this.press(key);
        });
        for (const end of ["pointerup", "pointerleave", "pointercancel"]) button.addEventListener(end, () => this.release(key));
        // From the keyboard a button only clicks: it is then held, or let go where it was down.
        button.addEventListener("click", (event) => {
            if (event.detail === 0) this.set(key, (this.down & (1 << key)) === 0);
        });
    }

    /** The key of the card that this key of the keyboard is, if any. */
    keyOf(event) {
        return event.ctrlKey || event.metaKey || event.altKey ? undefined : this.codes.get(event.code);
    }

    press(key) {
        this.set(key, !this.latch.checked || (this.down & (1 << key)) === 0);
    }
    release(key) {
        if (!this.latch.checked) this.set(key, false);
    }
    releaseAll() {
        for (const key of this.buttons.keys()) this.set(key, false);
    }

    set(key, down) {
        this.down = down ? this.down | (1 << key) : this.down & ~(1 << key);
        if (down) this.pressed |= 1 << key;
        this.buttons.get(key).setAttribute("aria-pressed", down);
    }

    /** The keys for the next step or frame. */
    take() {
        const keys = this.down | this.pressed;
        this.pressed = 0;
        return keys;
    }
}
