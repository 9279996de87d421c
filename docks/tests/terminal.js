// The dock in a terminal: `script` of Debian's own bsdutils gives it one, and what it draws is read.
//
//   node terminal.js DOCK PROGRAM

import assert from "node:assert/strict";
import { spawn, spawnSync } from "node:child_process";
import { copyFileSync, mkdtempSync, readFileSync, rmSync, writeFileSync } from "node:fs";
import { tmpdir } from "node:os";
import { join } from "node:path";
import { setTimeout as wait } from "node:timers/promises";

const [dock, program] = process.argv.slice(2);
const UTF8 = { ...process.env, LC_ALL: "C.UTF-8", TERM: "xterm-256color" };

class Screen {
    constructor(columns, lines, words = program) {
        this.drawn = "";
        this.process = spawn("script", ["-qfec", `stty cols ${columns} rows ${lines}; ${dock} ${words}`, "/dev/null"], { env: UTF8 });
        this.process.stdout.on("data", (text) => (this.drawn += text));
        this.ended = new Promise((done) => this.process.on("close", done));
    }
    /** What stands on the screen: each drawing begins at its upper left corner. */
    get text() {
        return this.drawn.split("\x1b[H").at(-1).replace(/\x1b\[[0-9;?]*[a-zA-Z]|\r/g, "");
    }
    async until(pattern) {
        for (let tries = 0; tries < 200; tries++) {
            if (pattern.test(this.text)) return;
            await wait(50);
        }
        throw new Error(`${pattern} did not come; the screen is\n${this.text}`);
    }
    press(keys) {
        this.process.stdin.write(keys);
    }
    async quit() {
        this.press("\x03");
        assert.equal(await this.ended, 0);
        assert.ok(this.drawn.endsWith("\x1b[?1049l"), "the terminal is given back");
    }
}

const ENTER = "\r";
const LEFT = "\x1b[D";
const RIGHT = "\x1b[C";
const [PAGE_UP, PAGE_DOWN] = ["\x1b[5~", "\x1b[6~"];

const screen = new Screen(80, 24);
await screen.until(/is loaded, for the second edition/);
screen.press(ENTER + ENTER + ENTER);
await screen.until(/kept 3, ahead 0/);
screen.press(LEFT + LEFT);
await screen.until(/kept 1, ahead 2/);
screen.press(RIGHT);
await screen.until(/kept 2, ahead 1/);
screen.press(LEFT + LEFT + LEFT);
await screen.until(/Back: refused with 7/);
screen.press("b");
await screen.until(/Break at/);
// Ctrl-C cancels what is typed, as Escape does, and does not quit.
screen.press(`208\x03b1000${ENTER}`);
await screen.until(/1000 is not in memory, which ends at 1000/);
screen.press("b");
await screen.until(/Break at, in hex, or nothing for none \(Escape cancels\): /);
screen.press(`0x208${ENTER}`);
await screen.until(/Break {2}0208/);
assert.doesNotMatch(screen.text, /is not in memory/);
screen.press(" ");
await screen.until(/The break at 0208 is reached/);
screen.press(`tt${PAGE_UP}${PAGE_UP}`);
await screen.until(/kept 5, ahead 2/);
screen.press(PAGE_UP);
await screen.until(/kept 0, ahead 7/);
screen.press(PAGE_DOWN);
await screen.until(/kept 5, ahead 2/);
screen.press("?");
await screen.until(/PgUp PgDn .*whole frames[^]*to the start, to the end of the timeline[^]*and the next frees it\./);
await screen.until(/1 2 3 4   Q W E R   A S D F   Z X C V.*\s+Card's key   1 2 3 C   4 5 6 D   7 8 9 E   A 0 B F/);
await screen.quit();
console.log("  steps, backs, forwards, a refusal, a break and the help are shown, and the terminal is given back");

const folder = mkdtempSync(join(tmpdir(), "dock-"));
const file = (name) => join(folder, name);
copyFileSync(program, file("own.ch8"));
const files = new Screen(80, 24, `--first ${file("own.ch8")} --2k`);
await files.until(/own.ch8 is loaded, for the first edition and the 2K profile/);
await files.until(/ first, to 06A0/);
writeFileSync(file("own.ch8"), Uint8Array.of(0x63, 0x07, 0x12, 0x02));
files.press(`l${ENTER}`);
await files.until(/V3 07/);
rmSync(file("own.ch8"));
files.press("l");
await files.until(/own.ch8 was not opened: there is no such file/);
await files.until(/V3 07/);
files.press(`o/dev/zero${ENTER}`);
await files.until(/zero was not opened: it is no ordinary file/);
files.press(`k${file("own.card")}${ENTER}`);
await files.until(/The card was saved as/);
files.press(`k${file("none/own.card")}${ENTER}`);
await files.until(/The card was not saved as\s.*own.card:\sthere\sis\sno\ssuch\sfolder\./);
files.press(`${ENTER}k${file("own.card")}${ENTER}`);
await files.until(/own.card is\sthere\salready;\sy\swrites\sover\sit\s\(Escape\scancels\):/);
files.press(ENTER);
await files.until(/The card was not saved:\s.*own.card is\sthere\salready\./);
assert.equal(readFileSync(file("own.card"))[8 + 50 + 1], 1);
files.press(`k${file("own.card")}${ENTER}y${ENTER}`);
await files.until(/The card was saved as/);
assert.equal(readFileSync(file("own.card"))[8 + 50 + 1], 2);
const worn = readFileSync(file("own.card"));
worn[8 + 64 + 4096 + 256] ^= 1;
writeFileSync(file("worn.card"), worn);
files.press(`o${file("worn.card")}${ENTER}`);
await files.until(/The history of worn.card is worn\./);
assert.doesNotMatch(files.text, /was saved as/);
files.press("x");
await files.until(/worn.card was not opened: you left it/);
files.press(`o${file("own.card")}${ENTER}`);
await files.until(/own.card is open/);
files.press("l");
await files.until(/There is no program to load again: own.card is a card's file/);
await files.quit();
rmSync(folder, { recursive: true });
console.log("  a program is loaded again as its file is now; a device is not opened; a card is saved, written over and opened");

const small = new Screen(79, 24);
await small.until(/The dock needs 80 columns and 24 lines; this terminal has 79 and 24/);
await small.quit();

for (const [words, why] of [
    [["--wrong"], "there is no --wrong; ./dock --help says what there is"],
    [[program, "--wrong"], "there is no --wrong; ./dock --help says what there is"],
    [["nofile"], "nofile was not opened: there is no such file"],
    [["--", "--web"], "--web was not opened: there is no such file"],
    [[program, "--first", program], "one file at a time: ./dock FILE"],
]) {
    const { status, stdout, stderr } = spawnSync(dock, words, { encoding: "utf8", input: "" });
    assert.deepEqual([status, stdout, stderr], [2, "", `dock: ${why}\n`]);
}
console.log("  a wrong option and a file that is not there are said before anything is compiled");

const none = spawnSync(dock, [program], { encoding: "utf8", input: "" });
assert.equal(none.status, 2);
assert.match(none.stderr, /^dock: this is no terminal/);

const other = spawnSync("script", ["-qec", `${dock} ${program}`, "/dev/null"], { encoding: "utf8", env: { ...UTF8, LC_ALL: "C" } });
assert.match(other.stdout, /dock: the terminal is not set to UTF-8/);
console.log("  one that is too small, not UTF-8 or no terminal gets a clear word");
