// The dock in a terminal: ./dock FILE. It needs node and no package.
//
//   node main.js CARD.WASM EDITION END FILE

import { readFileSync, writeFileSync } from "node:fs";
import { basename } from "node:path";
import { emitKeypressEvents } from "node:readline";
import { Card } from "../machine.js";
import { Dock, Pace, salvageInWords } from "../dock.js";
import { read } from "../read.js";
import { counted, hex } from "../words.js";
import { keyOf, ROWS, TerminalKeys } from "./keys.js";
import { COLUMNS, LINES, screen, STYLES, wrap } from "./screen.js";

/** The rows of the keyboard beside each other, each letter as it is to be shown. */
const pad = (show) => ROWS.map((row) => [...row].map(show).join(" ")).join("   ");

const HELP = `
  Space        run, or pause
  Enter        step, with the keys that are down
  ← →          back; forward, which makes it again as it was
  PgUp PgDn    the same by whole frames: the steps and their tick
  Home End     to the start, to the end of the timeline
  T            a tick of the clock; a run makes 60 a second
  B            a break at an address
  + -          more or fewer steps a frame
  P            the page of variables on the glass
  L            load the program again from its file
  K            keep: save the whole machine as a card's file
  O            open a program or a card's file
  Ctrl-C       quit
  Keyboard     ${pad((letter) => letter.toUpperCase())}
  Card's key   ${pad((letter) => hex(keyOf(letter), 1))}
  While it stands, a press holds a key and the next frees it.`.split("\n").slice(1);

/** Why a file cannot be written, by the system's word for it. */
const WHY = {
    ENOENT: "there is no such folder",
    ENOTDIR: "there is no such folder",
    EISDIR: "it is a folder",
    EACCES: "it may not be written there",
    EROFS: "it may not be written there",
    ENOSPC: "there is no room for it",
};

const SPEEDS = [1, 3, 10, 30, 100, 300, 1000];
/** Ctrl-C, and Ctrl-Q beside it: they cancel what is being typed, and else they quit. */
const isStop = (key) => key.ctrl && (key.name === "c" || key.name === "q");

class Terminal {
    constructor(card, edition, end) {
        this.dock = new Dock(card);
        /** How programs are loaded. */
        this.chosen = [edition, end];
        this.keys = new TerminalKeys();
        this.view = { style: process.env.NO_COLOR ? STYLES.plain : STYLES.colours, variables: false };
    }

    // ---- files

    /** Opens a file, or asks first, or says why not. */
    open(name) {
        try {
            const { program, parts, salvage } = this.dock.look(read(name));
            if (program) this.load(name, program);
            else if (salvage) this.askBefore(name, parts, salvage);
            else this.dock.open(basename(name), parts);
        } catch (error) {
            this.dock.refuseFile(name, error.message);
        }
    }

    load(name, program) {
        if (this.dock.load(basename(name), program, ...this.chosen)) this.loaded = name;
    }

    /** Loads the program again, as its file is now. */
    loadAgain() {
        if (this.dock.hasProgram()) this.open(this.loaded);
    }

    /** Asks whether the worn history of a file is to be salvaged, before anything is changed. */
    askBefore(name, parts, salvage) {
        this.dock.say("");
        this.ask(basename(name), salvage, ["S  salvage it: the file changes only where you save it", "A  open it as it is"], (key) => {
            if (key !== "s" && key !== "a") {
                this.dock.refuseFile(name, "you left it");
                // Where nothing was open before, there is nothing to go on with.
                return this.dock.name === "" && leave();
            }
            this.dock.open(basename(name), parts);
            if (key === "s") this.dock.salvage();
        });
    }

    /** Asks the same of the machine that is open, where a record turned out to be damaged. */
    askNow() {
        this.ask(this.dock.name, this.dock.salvageOffer, ["S  salvage it"], (key) => key === "s" && this.dock.salvage());
    }

    ask(name, salvage, choices, answer) {
        const lines = [`The history of ${name} is worn.`, "", ...salvageInWords(salvage)].flatMap((line) => wrap(line, 62));
        this.view.text = [...lines, "", ...choices, "Any other key leaves it."];
        this.answer = answer;
    }

    /** Saves the machine. A file that stands there already is written over only when asked. */
    save(name, flag = "wx") {
        try {
            writeFileSync(name, this.dock.save(), { flag });
            this.dock.say(`The card was saved as ${name}.`);
        } catch (error) {
            if (error.code === "EEXIST") this.askToWriteOver(name);
            else this.dock.say(`The card was not saved as ${name}: ${WHY[error.code] ?? error.message}.`);
        }
    }

    askToWriteOver(name) {
        this.dock.say(`The card was not saved: ${name} is there already.`);
        this.type(`${name} is there already; y writes over it`, (text) => text.toLowerCase() === "y" && this.save(name, "w"));
    }

    // ---- what a key does

    get commands() {
        const { dock } = this;
        const { machine } = dock;
        return {
            space: () => this.runOrPause(),
            return: () => dock.step(this.keys.bits),
            left: () => dock.back(),
            right: () => dock.forward(),
            pageup: () => dock.backFrame(),
            pagedown: () => dock.forwardFrame(),
            home: () => dock.seek(0),
            end: () => dock.seek(machine.kept + machine.ahead),
            t: () => dock.tick(),
            b: () => this.type("Break at, in hex, or nothing for none", (text) => dock.typeBreak(text)),
            "+": () => this.faster(1),
            "-": () => this.faster(-1),
            p: () => (this.view.variables = !this.view.variables),
            l: () => this.loadAgain(),
            k: () => this.type("Save the card as", (name) => name && this.save(name)),
            o: () => this.type("Open", (name) => name && this.open(name)),
            y: () => dock.isDamaged && this.askNow(),
            "?": () => this.show(HELP),
        };
    }

    /** Shows a text in the glass's place until the next key. */
    show(text) {
        this.dock.running && this.dock.pause();
        this.view.text = text;
        this.answer = () => {};
    }

    faster(by) {
        const at = SPEEDS.indexOf(this.dock.stepsAFrame) + by;
        this.dock.stepsAFrame = SPEEDS[Math.max(0, Math.min(at, SPEEDS.length - 1))];
        this.dock.say(`${counted(this.dock.stepsAFrame, "step")} a frame.`);
    }

    runOrPause() {
        if (this.dock.running) return this.dock.pause();
        this.dock.start();
        const pace = new Pace(performance.now());
        const timer = setInterval(() => {
            for (let due = pace.due(performance.now()); due > 0 && this.dock.running; due--) {
                this.dock.frame(this.keys.bits);
                this.keys.pass();
            }
            if (!this.dock.running) clearInterval(timer);
            this.draw();
        }, 1000 / 30);
    }

    /** Lets a person type a line, and hands it on. */
    type(question, done) {
        this.dock.running && this.dock.pause();
        this.typed = { question, text: "", done };
    }

    typeOn(letter, key) {
        const { typed } = this;
        if (key.name === "return") {
            this.typed = undefined;
            typed.done(typed.text.trim());
        } else if (key.name === "escape" || isStop(key)) this.typed = undefined;
        else if (key.name === "backspace") typed.text = typed.text.slice(0, -1);
        else if (letter >= " ") typed.text += letter;
    }

    press(letter, key) {
        if (this.typed) this.typeOn(letter, key);
        else if (isStop(key)) leave();
        else if (this.answer) {
            const { answer } = this;
            this.answer = this.view.text = undefined;
            answer(letter?.toLowerCase());
        } else {
            const pressed = keyOf(letter);
            if (pressed !== undefined) this.keys.press(pressed, this.dock.running);
            else (this.commands[key.name] ?? this.commands[letter])?.();
        }
        this.draw();
    }

    // ---- drawing

    draw() {
        const { columns, rows } = process.stdout;
        this.view.down = this.keys.down;
        this.view.typing = this.typed && `${this.typed.question} (Escape cancels): ${this.typed.text}▏`;
        const tooSmall =
            `The dock needs ${COLUMNS} columns and ${LINES} lines; this terminal has ${columns} and ${rows}. ` +
            "Make it larger, or press Ctrl-C.";
        const fits = columns >= COLUMNS && rows >= LINES;
        const lines = fits ? screen(this.dock, this.view, rows) : wrap(tooSmall, columns);
        process.stdout.write(`\x1b[H${lines.map((line) => `${line}\x1b[K`).join("\r\n")}\x1b[J`);
    }
}

// ---- the terminal itself

/** A clear word, and the end. */
function refuse(why) {
    process.stderr.write(`dock: ${why}\n`);
    process.exit(2);
}

/** Gives the terminal back as it was. */
function leave() {
    process.stdin.setRawMode(false);
    process.stdout.write("\x1b[?25h\x1b[?1049l");
    process.exit(0);
}

function enter(terminal) {
    // The other screen, so that what stood in the terminal is there again afterwards; and no cursor.
    process.stdout.write("\x1b[?1049h\x1b[?25l");
    emitKeypressEvents(process.stdin);
    process.stdin.setRawMode(true);
    process.stdin.on("keypress", (letter, key) => terminal.press(letter, key));
    process.stdout.on("resize", () => terminal.draw());
    for (const signal of ["SIGTERM", "SIGHUP"]) process.on(signal, leave);
    process.on("uncaughtException", (error) => {
        process.stdout.write("\x1b[?25h\x1b[?1049l");
        refuse(error.stack);
    });
    terminal.draw();
}

async function main([wasm, edition, end, file]) {
    if (!process.stdin.isTTY || !process.stdout.isTTY)
        refuse("this is no terminal. ./dock --web makes a page for the browser, and ./panel FILE shows a picture anywhere");
    const locale = process.env.LC_ALL || process.env.LC_CTYPE || process.env.LANG || "";
    if (!/utf-?8/i.test(locale))
        refuse(`the terminal is not set to UTF-8 (it says "${locale}"), and the picture needs it. If it can: LANG=C.UTF-8 ./dock`);
    let card;
    try {
        card = await Card.from(readFileSync(wasm));
    } catch (error) {
        refuse(error.code === "ENOENT" ? `${wasm} is missing: docks/build makes it` : error.message);
    }
    const terminal = new Terminal(card, Number(edition), Number(end));
    terminal.open(file);
    const { text, refused } = terminal.dock.said;
    if (refused) refuse(text);
    if (wasm.endsWith("unproved.wasm"))
        terminal.dock.say(`${text} This is the card's source without proof: ./dock --prove proves it first.`);
    enter(terminal);
}

await main(process.argv.slice(2));
