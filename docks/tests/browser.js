// The page in a real browser: what a person does at the dock, pressed and dragged as a person does.
//
//   node browser.js DOCK.HTML FOLDER     pictures of the page are left in FOLDER

import assert from "node:assert/strict";
import { spawnSync } from "node:child_process";
import { mkdtempSync, readFileSync, rmSync, writeFileSync } from "node:fs";
import { tmpdir } from "node:os";
import { dirname, join } from "node:path";
import { setTimeout as wait } from "node:timers/promises";
import { fileURLToPath, pathToFileURL } from "node:url";
import { PLACE } from "../machine.js";
import { Browser } from "./driver.js";

const [html, folder] = process.argv.slice(2);
const url = pathToFileURL(html).href;
const own = (name) => new URL(`../../programs/${name}`, import.meta.url).pathname;
const [ENTER, LEFT, RIGHT, HOME, END, ESCAPE] = ["\uE007", "\uE012", "\uE014", "\uE011", "\uE010", "\uE00C"];
const [PAGE_UP, PAGE_DOWN] = ["\uE00E", "\uE00F"];
const HISTORY_AT = 8 + 64 + 4096 + 256;

const temporary = mkdtempSync(join(tmpdir(), "dock-"));
const file = (name, bytes) => {
    writeFileSync(join(temporary, name), bytes);
    return join(temporary, name);
};

/** Everything that the page shows of the machine. */
const shown = (browser) =>
    browser.run(() => {
        const panels = document.querySelectorAll("#variables-grid, #registers, #stack, #listing, #memory");
        return [...panels].map((panel) => panel.textContent).join("\n") + document.getElementById("glass").toDataURL();
    });
/** A number of the machine, as the page shows it. */
const cell = (browser, name) =>
    browser.run((wanted) => {
        const cells = [...document.querySelectorAll(".cell")];
        return cells.find(({ firstChild }) => firstChild.textContent === wanted).lastChild.textContent;
    }, name);
const kept = async (browser) => Number(await browser.text("#kept"));
const ahead = async (browser) => Number(await browser.text("#ahead"));
const said = (browser) => browser.text("#said");

/** Waits until something holds, for as long as a slow machine may take. */
async function until(what, holds) {
    for (let tries = 0; tries < 100; tries++) {
        if (await holds()) return;
        await wait(50);
    }
    throw new Error(`it did not come about: ${what}`);
}

/** Drags the timeline's handle to one of its ends. */
async function dragTo(browser, end) {
    const { left, right, top, height, at } = await browser.run(() => {
        const slider = document.getElementById("timeline");
        const { left, right, top, height } = slider.getBoundingClientRect();
        return { left, right, top, height, at: Number(slider.value) / Number(slider.max) };
    });
    const half = 10;
    const from = left + half + at * (right - left - 2 * half);
    await browser.drag([from, top + height / 2], [end === "start" ? left + 1 : right - 1, top + height / 2]);
}

const TESTS = {
    async "the page is there within a second, from a file"(browser) {
        await browser.open(url);
        await until("ready", () => browser.run(() => document.body.dataset.ready === "yes"));
        const ready = await browser.run(() => performance.getEntriesByType("navigation")[0].domComplete);
        assert.ok(ready < 1000, `it took ${ready} ms`);
        return `${Math.round(ready)} ms`;
    },

    async "a program is loaded from a file, waits for a key, and gets it"(browser) {
        await browser.type("#file", own("keys.ch8"));
        await until("loaded", async () => (await said(browser)).startsWith("keys.ch8 is loaded"));
        await browser.keys(ENTER, ENTER);
        assert.equal(await cell(browser, "PC"), "0202");
        await browser.click("#latch");
        await browser.keys("w", ENTER);
        assert.equal(await cell(browser, "Held key"), "5");
        await browser.keys("w", ENTER);
        assert.equal(await cell(browser, "Held key"), "none");
        assert.equal(await cell(browser, "V0"), "05");
        assert.equal(await browser.run(() => document.querySelector("#variables-grid .changed").textContent), "05");
        await browser.click("#latch");
    },

    async "the game runs; the timeline is dragged to its start and its end, and the state is the same"(browser) {
        await browser.run(() => {
            document.getElementById("program").value = "squash.ch8";
            document.getElementById("program").dispatchEvent(new Event("change", { bubbles: true }));
        });
        await browser.click("#run");
        await until("many steps", async () => (await kept(browser)) === 224);
        await browser.click("#run");
        const before = await shown(browser);
        await dragTo(browser, "start");
        assert.deepEqual([await kept(browser), await ahead(browser)], [0, 224]);
        assert.notEqual(await shown(browser), before);
        await dragTo(browser, "end");
        assert.deepEqual([await kept(browser), await ahead(browser)], [224, 0]);
        assert.equal(await shown(browser), before);
    },

    async "ten back and ten forward, by the keyboard alone"(browser) {
        const before = await shown(browser);
        await browser.keys(...Array(10).fill(LEFT));
        assert.deepEqual([await kept(browser), await ahead(browser)], [214, 10]);
        assert.notEqual(await shown(browser), before);
        await browser.keys(...Array(10).fill(RIGHT));
        assert.equal(await shown(browser), before);
        // A frame is a tick and ten steps.
        await browser.keys(PAGE_UP, PAGE_UP, PAGE_UP);
        assert.deepEqual([await kept(browser), await ahead(browser)], [191, 33]);
        await browser.keys(PAGE_DOWN);
        assert.deepEqual([await kept(browser), await ahead(browser)], [202, 22]);
        await browser.keys(HOME);
        assert.equal(await kept(browser), 0);
        await browser.keys(END, " ");
        await until("running", async () => (await browser.text("#run")) === "Pause");
        await browser.keys(" ");
        assert.equal(await browser.text("#run"), "Run");
    },

    async "every control is reached with the tabulator"(browser) {
        const missed = await browser.run(() =>
            [...document.querySelectorAll("button, input:not([hidden]), select")]
                .filter((control) => control.tabIndex < 0 && !control.closest("dialog"))
                .map((control) => control.id),
        );
        assert.deepEqual(missed, []);
    },

    async "a break is set, reached and gone on from"(browser) {
        await browser.run(() => page.loadListed("digits.ch8"));
        await browser.type("#break", `20E${ENTER}`);
        await browser.click("#run");
        await until("the break", async () => (await said(browser)) === "The break at 020E is reached.");
        assert.equal(await cell(browser, "PC"), "020E");
        await browser.type("#break", `xy${ENTER}`);
        assert.equal(await said(browser), "020Exy is no address in hex. The break stays as it was.");
        assert.equal(await browser.run(() => document.getElementById("break").value), "020E");
        await browser.run(() => (document.getElementById("break").value = ""));
        await browser.type("#break", `0x210${ENTER}`);
        assert.deepEqual([await browser.run(() => page.dock.breakAt), await said(browser)], [0x210, ""]);
        await browser.type("#at", `x${ENTER}`);
        assert.equal(await said(browser), "0200x is no address in hex.");
        await browser.run(() => {
            document.getElementById("at").value = "0200";
            page.follow("0200", true);
            document.querySelector('[name=follow][value="pc"]').click();
            page.breakAt(undefined);
        });
    },

    async "the 2K profile and the first edition are chosen for the next load"(browser) {
        const choose = (id, value) =>
            browser.run(
                (id, value) => {
                    document.getElementById(id).value = value;
                    document.getElementById(id).dispatchEvent(new Event("change", { bubbles: true }));
                },
                id,
                value,
            );
        await choose("end", "1696");
        assert.equal(await said(browser), "Memory ends at 06A0 from the next load on.");
        await choose("edition", "0");
        await browser.click("#again");
        assert.match(await said(browser), /is loaded, for the first edition and the 2K profile\.$/);
        assert.deepEqual([await cell(browser, "Edition"), await cell(browser, "Memory end")], ["first", "06A0"]);
        await browser.run(() => (window.small = page.dock.save()));
        await choose("end", "4096");
        await choose("edition", "1");
        await browser.click("#again");
        assert.match(await said(browser), /is loaded, for the second edition\.$/);
        assert.deepEqual([await cell(browser, "Edition"), await cell(browser, "Memory end")], ["second", "1000"]);
        await browser.run(() => page.files.open("small.card", window.small));
        assert.deepEqual(await browser.run(() => page.chosen), [0, 1696]);
        assert.deepEqual([await cell(browser, "Edition"), await cell(browser, "Memory end")], ["first", "06A0"]);
        await choose("end", "4096");
        await choose("edition", "1");
    },

    async "a refusal is said, and can be stepped back from"(browser) {
        await browser.run(() => page.loadListed("again.ch8"));
        await browser.click("#run");
        await until("refused", async () => (await said(browser)).includes("refused with 3"));
        assert.match(await said(browser), /^Step: refused with 3, a call into machine.*\(00FD at 0218\)\. This step changed nothing;/);
        const before = await shown(browser);
        const past = [await kept(browser), await ahead(browser)];
        await browser.click("#run");
        await until("refused at once", async () => (await said(browser)).endsWith("(00FD at 0218). Nothing was changed."));
        assert.deepEqual([await kept(browser), await ahead(browser)], past);
        await browser.click("#back");
        assert.notEqual(await shown(browser), before);
        assert.equal(await said(browser), "");
    },

    async "a program is dropped on the page, and so is something else"(browser) {
        const drop = (name, bytes) =>
            browser.run(
                (name, bytes) => {
                    const dataTransfer = new DataTransfer();
                    if (bytes) dataTransfer.items.add(new File([Uint8Array.from(bytes)], name));
                    document.querySelector("main").dispatchEvent(new DragEvent("drop", { dataTransfer, bubbles: true, cancelable: true }));
                },
                name,
                bytes,
            );
        await drop("three.ch8", [0x63, 0x07, 0x00, 0xfd]);
        await until("dropped", async () => (await said(browser)).startsWith("three.ch8 is loaded"));
        await browser.click("#step");
        assert.equal(await cell(browser, "V3"), "07");
        await drop("a word", null);
        await until("said", async () => (await said(browser)) === "What was dropped was not opened: it is no file. Nothing was changed.");
        assert.equal(await cell(browser, "V3"), "07");
    },

    async "files that are no programs leave the machine as it was"(browser) {
        const before = await shown(browser);
        for (const [name, bytes] of [["empty.ch8", ""], ["long.ch8", Buffer.alloc(4000, 1)], ["picture.png", Buffer.alloc(3_000_000, 7)]]) {
            await browser.type("#file", file(name, bytes));
            await until(name, async () => (await said(browser)).startsWith(`Load ${name}: refused with 8`));
            assert.equal(await shown(browser), before);
        }
        assert.match(await said(browser), /, and the file has more than 100,000 bytes\./);
        await browser.type("#file", file("cut.card", "HAOCARD1 and no more"));
        await until("cut", async () => /^cut.card was not opened: it ends too early/.test(await said(browser)));
        assert.equal(await shown(browser), before);
    },

    async "a card is saved and opened again with its past; a worn one is salvaged when asked"(browser) {
        await browser.run(() => page.loadListed("night.ch8"));
        await browser.keys(...Array(30).fill(ENTER));
        await browser.click("#save");
        const saved = join(temporary, "night.card");
        let bytes;
        await until("saved", async () => {
            try {
                bytes = readFileSync(saved);
            } catch {}
            return bytes?.length > HISTORY_AT;
        });
        const before = await shown(browser);
        await browser.run(() => page.loadListed("mover.ch8"));
        await browser.type("#file", saved);
        await until("open", async () => (await said(browser)).startsWith("night.card is open, with 30 actions kept"));
        assert.equal(await shown(browser), before);
        assert.match(await browser.run(() => document.getElementById("again").title), /as it was when its file was opened/);
        await browser.click("#again");
        assert.match(await said(browser), /^There is no program to load again: night.card is a card's file/);
        assert.equal(await shown(browser), before);

        const worn = Buffer.from(bytes);
        worn[HISTORY_AT + 19 * PLACE] ^= 1;
        await browser.type("#file", file("worn.card", worn));
        await until("the question", () => browser.run(() => document.getElementById("salvage").open));
        assert.match(await browser.text("#salvage-lines"), /Of 30 kept records the newest 10 would stay/);
        assert.equal(await kept(browser), 30);
        await browser.click('#salvage [value="salvage"]');
        await until("salvaged", async () => (await said(browser)) === "Salvaged, with 10 records kept.");
        assert.equal(await kept(browser), 10);
        await browser.keys(HOME);
        assert.deepEqual([await kept(browser), await ahead(browser)], [0, 10]);
    },

    async "help opens and closes"(browser) {
        await browser.keys("?");
        assert.ok(await browser.run(() => document.getElementById("keys-help").open));
        assert.match(await browser.text("#keys-help"), /PageUp, PageDown .*whole frames/);
        await browser.keys(ESCAPE);
        await until("closed", () => browser.run(() => !document.getElementById("keys-help").open));
    },

    async "a run at 1,000 steps a frame leaves most of a frame's time"(browser) {
        await browser.run(() => {
            page.loadListed("squash.ch8");
            page.dock.stepsAFrame = 1000;
            window.times = [];
            const frame = page.frame;
            page.frame = function (now) {
                const from = performance.now();
                frame.call(page, now);
                window.times.push(performance.now() - from);
            };
        });
        await browser.click("#run");
        await wait(3000);
        await browser.click("#run");
        const times = await browser.run(() => window.times.sort((one, other) => one - other));
        const [middle, most] = [times[times.length >> 1], times[Math.floor(times.length * 0.95)]];
        assert.ok(middle < 8, `a frame takes ${middle} ms`);
        return `${times.length} frames in 3 s, each ${middle.toFixed(1)} ms in the middle and ${most.toFixed(1)} ms for 95 of 100`;
    },

    async "a page that is made with a program and choices begins with them"(browser) {
        const make = (...words) => {
            const made = [join(dirname(html), "card.wasm"), join(temporary, "made.html"), ...words];
            return spawnSync(process.execPath, [fileURLToPath(new URL("../page/make.js", import.meta.url)), ...made], { encoding: "utf8" });
        };
        // It is called as one of our own, and is another.
        assert.equal(make("0", "1696", file("mover.ch8", Uint8Array.of(0x63, 0x07))).status, 0);
        await browser.open(pathToFileURL(join(temporary, "made.html")).href);
        await until("ready", () => browser.run(() => document.body.dataset.ready === "yes"));
        assert.equal(await said(browser), "mover.ch8 is loaded, for the first edition and the 2K profile.");
        assert.equal(await browser.run(() => document.getElementById("program").selectedIndex), 0);
        assert.deepEqual(await browser.run(() => page.chosen), [0, 1696]);
        await browser.click("#step");
        assert.equal(await cell(browser, "V3"), "07");
        for (const [bytes, why] of [["HAOCARD1", /wrong was not opened: it is a card's file/], ["", /^dock: Load wrong: refused with 8/]]) {
            const { status, stderr } = make("1", "4096", file("wrong", bytes));
            assert.equal(status, 2);
            assert.match(stderr, why);
        }
    },
};

/** The page in one width and theme, with the game in it: nothing sticks out, and a picture is left. */
async function picture(name, settings) {
    const browser = await Browser.start(settings);
    try {
        await browser.open(url);
        await until("ready", () => browser.run(() => document.body.dataset.ready === "yes"));
        await browser.run(() => {
            // The bat follows the ball for a while; then ten actions are taken back.
            const { dock } = page;
            for (let frame = 0; frame < 900; frame++) {
                const [bat, ball] = [dock.machine.v[0x5], dock.machine.v[0xa]];
                dock.frame(ball < bat + 2 ? 1 << 4 : ball > bat + 4 ? 1 << 6 : 0);
            }
            for (let n = 0; n < 10; n++) dock.back();
            page.draw();
        });
        const [wide, room] = await browser.run(() => [document.documentElement.scrollWidth, innerWidth]);
        assert.ok(wide <= room, `${name}: the page is ${wide} wide and has room for ${room}`);
        writeFileSync(join(folder, `${name}.png`), await browser.screenshot());
    } finally {
        await browser.stop();
    }
}

const browser = await Browser.start();
try {
    await browser.tell("/goog/cdp/execute", { cmd: "Browser.setDownloadBehavior", params: { behavior: "allow", downloadPath: temporary } });
    for (const [name, work] of Object.entries(TESTS)) {
        const more = await work(browser);
        console.log(`  ${name}${more ? `: ${more}` : ""}`);
    }
} finally {
    await browser.stop();
    rmSync(temporary, { recursive: true });
}
await picture("wide-light", { width: 1280, height: 920 });
await picture("wide-dark", { width: 1280, height: 920, dark: true });
await picture("phone-light", { width: 390, height: 844 });
await picture("phone-dark", { width: 360, height: 740, dark: true });
console.log("  nothing sticks out, wide and at a phone's width, in light and dark");
