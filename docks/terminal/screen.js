// The screen of the terminal: the glass in block characters, the registers beside it, and below them the timeline, the stack,
// the instruction, the memory at PC and at I, and what is said. It is made of lines and touches nothing.

import { NO_KEY } from "../machine.js";
import { counted, EDITIONS, hex } from "../words.js";

export const COLUMNS = 80;
export const LINES = 24;

const GLASS_COLUMNS = 64;
const GLASS_LINES = 16;

/** How things are set off, by colours or, where NO_COLOR asks for none, without them. */
const paint = (codes) => (text) => `\x1b[${codes}m${text}\x1b[0m`;
const PLAIN = { glass: paint("0"), changed: paint("7"), here: paint("1"), soft: paint("0"), refused: paint("1") };
const COLOURS = { ...PLAIN, glass: paint("38;5;120;48;5;233"), changed: paint("30;43"), soft: paint("2"), refused: paint("31") };
export const STYLES = { plain: PLAIN, colours: COLOURS };

/** The 128 by 64 dots in half blocks. A character is two dots wide and four high, and a spot is two by two. */
function glass(panel) {
    const dot = (x, y) => (panel[16 * y + (x >> 3)] >> (7 - (x & 7))) & 1;
    const block = (column, line) => " ▀▄█"[dot(2 * column, 4 * line) + 2 * dot(2 * column, 4 * line + 2)];
    return Array.from({ length: GLASS_LINES }, (_, line) =>
        Array.from({ length: GLASS_COLUMNS }, (_, column) => block(column, line)).join(""),
    );
}

/** The registers, a line each, with what the last action changed set off; and the edition, and where memory ends. */
function registers(dock, now, before, style) {
    const value = (read) => (read(now) === read(before) ? read(now) : style.changed(read(now)));
    const v = (x) => `V${hex(x, 1)} ${value((machine) => hex(machine.v[x], 2))}`;
    return [
        ...Array.from({ length: 8 }, (_, x) => ` ${v(x)}   ${v(x + 8)}`),
        style.soft(` ${EDITIONS[now.edition]}, to ${hex(now.end, 4)}`),
        ` PC     ${value((machine) => hex(machine.pc, 4))}`,
        ` I      ${value((machine) => hex(machine.i, 4))}`,
        ` Delay    ${value((machine) => hex(machine.delay, 2))}`,
        ` Tone     ${value((machine) => hex(machine.tone, 2))}`,
        ` Held   ${value((machine) => (machine.held === NO_KEY ? "none" : `   ${hex(machine.held, 1)}`))}`,
        ` Lit    ${value((machine) => `${machine.lit}`.padStart(4))}`,
        ` Break  ${dock.breakAt === undefined ? "none" : hex(dock.breakAt, 4)}`,
    ];
}

/** The kept actions before the handle, and those ahead behind it. */
function timeline({ kept, ahead, places }, style) {
    const width = 44;
    const at = kept + ahead === 0 ? 0 : Math.round((kept / (kept + ahead)) * (width - 1));
    const bar = "━".repeat(at) + style.here("●") + style.soft("─".repeat(width - 1 - at));
    return `${bar}  kept ${kept}, ahead ${ahead}, room for ${places}`;
}

function stack({ stack: now }, { stack: before }, style) {
    const entries = now.map((entry, n) => (entry === before[n] ? hex(entry, 4) : style.changed(hex(entry, 4))));
    return `Stack  ${entries.join(" ") || style.soft("empty")}`;
}

/** Rows of sixteen bytes from the one in which the address stands. */
function memory(name, address, lines, now, before, style) {
    const first = Math.max(0, Math.min(address >> 4, now.memory.length / 16 - lines));
    return Array.from({ length: lines }, (_, line) => {
        const start = 16 * (first + line);
        const bytes = Array.from({ length: 16 }, (_, n) => {
            const text = hex(now.memory[start + n], 2);
            if (now.memory[start + n] !== before.memory[start + n]) return style.changed(text);
            return start + n === address ? style.here(`\x1b[4m${text}`) : text;
        });
        return `${(line === 0 ? name : "").padEnd(3)} ${style.soft(hex(start, 4))}  ${bytes.join(" ")}`;
    });
}

/** A text in lines of the screen's width. */
export function wrap(text, width = COLUMNS) {
    const lines = [""];
    for (const word of text.split(" ")) {
        if (lines.at(-1).length + word.length + 1 > width) lines.push(word);
        else lines.push(`${lines.pop()} ${word}`.trimStart());
    }
    return lines;
}

const HINTS = "Space run  Enter step  ← back  → forward  T tick  B break  ? help  Ctrl-C quit";

/**
 * The whole screen. `view` is what the terminal itself knows: which keys are down, whether the page of variables is shown,
 * what is being typed, and a text in the glass's place, as the help is.
 */
export function screen(dock, view, height = LINES) {
    const { machine: now, running } = dock;
    const before = running ? now : dock.before;
    const { style } = view;
    const picture = view.text
        ? Array.from({ length: GLASS_LINES }, (_, n) => (view.text[n] ?? "").padEnd(GLASS_COLUMNS).slice(0, GLASS_COLUMNS))
        : glass(now.panel(view.variables ? now.page() : now.picture())).map(style.glass);
    const beside = registers(dock, now, before, style);
    const more = Math.max(0, Math.min(7, (height - LINES) >> 1));
    const { digits, does } = dock.instruction;
    const said = wrap(view.typing ?? dock.said.text).slice(0, 3);
    const hints = style.soft(dock.isDamaged ? "Y  salvage the history" : HINTS);
    const spoken = dock.said.refused && !view.typing ? style.refused : (line) => line;
    const keys = view.down.map((key) => hex(key, 1)).join(" ");
    const doing = running ? `${counted(dock.stepsAFrame, "step")} a frame` : keys && `down: ${keys}`;
    return [
        ...picture.map((line, n) => line + beside[n]),
        timeline(now, style),
        stack(now, before, style),
        `${style.here(`${hex(now.pc, 4)} ${digits}`)}  ${does.padEnd(50)}${doing}`,
        ...memory("PC", now.pc, 1 + more, now, before, style),
        ...memory("I", now.i, 1 + more, now, before, style),
        ...[said[0], said[1] ?? ""].map(spoken),
        // Three lines of words stand in the place of the hints.
        said[2] ? spoken(said[2]) : hints,
    ];
}
