// Makes the page that a club mails: one file with the style, the scripts, the module and the programs inside it, since a
// browser loads neither scripts that import each other nor a module from beside a page that is opened from a file.
//
//   node make.js CARD.WASM OUT.HTML [EDITION END [FILE]]
//
// The program in FILE is the first of the page's list, and loaded as it is opened. A page that is made of unproved.wasm says that
// it is not proved.

import { readFileSync, writeFileSync } from "node:fs";
import { basename } from "node:path";
import { isCardFile } from "../card-file.js";
import { Dock } from "../dock.js";
import { Card, FULL_END } from "../machine.js";
import { PROGRAMS } from "../programs.js";
import { read as readFile } from "../read.js";

/** In the order in which each needs the ones before it. */
const SCRIPTS = [
    "../machine.js", "../words.js", "../card-file.js", "../dock.js",
    "elements.js", "panels.js", "picture.js", "keys.js", "timeline.js", "sound.js", "files.js", "main.js",
];
const SIZE_MOST = 150_000;

const PROVED =
    "The machine on this page is the module that is proved, compiled for WebAssembly by LLVM. The proof ends at the module: " +
    "the compiler, this page and your browser are outside of it.";
const UNPROVED =
    "The machine on this page was compiled from the card's source without proof, for a first look. " +
    "docks/build makes the page of the card that is proved.";

const [wasm, out, edition = 1, end = FULL_END, file] = process.argv.slice(2);
const read = (name) => readFileSync(new URL(name, import.meta.url), "utf8");

/** The scripts as one: what they import from each other stands there already. */
const script = SCRIPTS.map((name) => read(name).replace(/^import .*\n/gm, "").replace(/^export /gm, "")).join("\n");

const base64 = (name) => readFileSync(new URL(`../../programs/${name}`, import.meta.url), "base64");
const own = PROGRAMS.map(([name, title]) => [name, { title, bytes: base64(name) }]);

/** The program in a file, as the list has it. Why one cannot be loaded is said before a page is made. */
async function programIn(file) {
    const dock = new Dock(await Card.from(readFileSync(wasm)));
    try {
        const bytes = readFile(file);
        if (isCardFile(bytes)) throw new Error("it is a card's file, which the page opens by its button");
        dock.load(basename(file), bytes, Number(edition), Number(end));
    } catch (error) {
        dock.refuseFile(file, error.message);
    }
    if (dock.said.refused) {
        console.error(`dock: ${dock.said.text}`);
        process.exit(2);
    }
    return [dock.name, { title: "your program", bytes: Buffer.from(dock.program).toString("base64") }];
}

const named = file === undefined ? [] : [await programIn(file)];
// One that is called as one of our own stands in its place.
const programs = Object.fromEntries([...named, ...own.filter(([name]) => name !== named[0]?.[0])]);

const proved = !wasm.endsWith("unproved.wasm");
const parts = {
    proof: proved ? PROVED : UNPROVED,
    style: read("style.css"),
    // A file may be called as it likes, but nothing in a script may look like its end.
    programs: JSON.stringify(programs).replaceAll("<", "\\u003c"),
    chosen: JSON.stringify({ edition, end }),
    wasm: readFileSync(wasm, "base64"),
    script,
};
const page = read("index.html").replace(/\/\* (proof|style|programs|chosen|wasm|script) \*\//g, (_, part) => parts[part]);
if (page.length > SIZE_MOST) throw new Error(`the page has ${page.length} bytes, and it may have ${SIZE_MOST}`);
writeFileSync(out, page);
console.log(`The page has ${Buffer.byteLength(page).toLocaleString("en")} bytes.`);
