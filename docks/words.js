// The machine in words: what an instruction does, and why a call was refused.

export const hex = (number, digits) => number.toString(16).toUpperCase().padStart(digits, "0");

/** A number of things: 1 byte, 2,000 bytes. */
export const counted = (number, thing) => `${number.toLocaleString("en")} ${thing}${number === 1 ? "" : "s"}`;

export const EDITIONS = ["first", "second"];

/**
 * The instructions in the order of the rules: the digits, and what they do. X and Y stand for a variable, KK and MMM for
 * the numbers themselves, N for that many rows. Those of the second edition alone come last.
 */
const FIRST_EDITION = [
    ["00E0", "clear the picture"],
    ["00EE", "return to the last return address"],
    ["1MMM", "jump to MMM"],
    ["2MMM", "call MMM"],
    ["BMMM", "jump to MMM plus V0"],
    ["3XKK", "skip the next if VX is KK"],
    ["4XKK", "skip the next if VX is not KK"],
    ["5XY0", "skip the next if VX is VY"],
    ["9XY0", "skip the next if VX is not VY"],
    ["EX9E", "skip the next if the key in VX is down"],
    ["EXA1", "skip the next if the key in VX is up"],
    ["6XKK", "VX becomes KK"],
    ["7XKK", "add KK to VX"],
    ["CXKK", "VX becomes the random byte AND KK"],
    ["8XY0", "VX becomes VY"],
    ["8XY1", "VX becomes VX OR VY; VF 00"],
    ["8XY2", "VX becomes VX AND VY; VF 00"],
    ["8XY4", "add VY to VX; VF 01 if it passes FF"],
    ["8XY5", "take VY from VX; VF 01 if VX was enough"],
    ["AMMM", "I becomes MMM"],
    ["FX1E", "add VX to I"],
    ["FX29", "I becomes the pattern of the digit in VX"],
    ["FX33", "write the decimal digits of VX at I"],
    ["FX55", "store V0 to VX at I"],
    ["FX65", "fetch V0 to VX from I"],
    ["FX07", "VX becomes the delay timer"],
    ["FX15", "the delay timer becomes VX"],
    ["FX18", "the tone timer becomes VX"],
    ["FX0A", "wait for a key and its release, into VX"],
    ["DXYN", "draw N from I at column VX, row VY"],
];
const SECOND_EDITION = [
    ["8XY3", "VX becomes VX XOR VY; VF 00"],
    ["8XY6", "VX becomes VY halved; VF its lowest bit"],
    ["8XY7", "VX becomes VY less VX; VF 01 if VY was enough"],
    ["8XYE", "VX becomes VY doubled; VF its highest bit"],
];

/** Each edition's instructions, as patterns over the four digits. */
const LISTED = [FIRST_EDITION, [...FIRST_EDITION, ...SECOND_EDITION]].map((listed) =>
    listed.map(([digits, does]) => ({
        pattern: new RegExp("^" + digits.replace(/MMM|KK|[XYN]/g, (part) => `(?<${part}>${".".repeat(part.length)})`) + "$"),
        does,
    })),
);

const rows = (digit) => (digit === "1" ? "1 row" : `${parseInt(digit, 16)} rows`);

/** What the instruction of these four digits does in an edition. */
export function instruction(digits, edition) {
    for (const { pattern, does } of LISTED[edition] ?? []) {
        const found = digits.match(pattern);
        if (found) return does.replace(/MMM|KK|(?<=V)[XY]|\bN\b/g, (part) => (part === "N" ? rows(found.groups.N) : found.groups[part]));
    }
    return digits.startsWith("0") ? "a call into machine language" : "no instruction of this edition";
}

/** What may help where the instruction of these digits is refused. */
export function hint(digits, edition) {
    if (digits === "0000") return "; PC probably ran past the program";
    const [inFirst, inSecond] = LISTED.map((listed) => listed.some(({ pattern }) => pattern.test(digits)));
    return edition === 0 && inSecond && !inFirst ? "; the second edition has it" : "";
}

/** The address that a person typed in hex, also as 0x20E and #20E; nothing where it is none. */
export function addressIn(text) {
    const digits = text.match(/^(?:0x|#)?([0-9a-f]{1,4})$/i)?.[1];
    return digits && parseInt(digits, 16);
}

/** The four digits at an address, or nothing where memory ends before them. */
export const digitsAt = ({ memory, end }, at) => (at + 1 < end ? hex(256 * memory[at] + memory[at + 1], 4) : undefined);

/** Why a call was refused, for each number. */
export const REFUSALS = [
    "done",
    "PC is past the end of memory, so no instruction stands there",
    "no such instruction in this edition",
    "a call into machine language, which the card does not make",
    "the stack is full: it is twelve calls deep",
    "a return, and nothing is on the stack",
    "I and the bytes that are needed pass the end of memory",
    "nothing is kept that could be taken back",
    "a program has 1 to 3,584 bytes, and in the 2K profile 1 to 1,184",
    "a buffer has a wrong length",
    "a state that cannot be",
    "the record is damaged",
    "nothing is ahead that could be made again",
];
