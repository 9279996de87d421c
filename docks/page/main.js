// The page: puts the machine, the panels and the buttons together.

import { Card } from "../machine.js";
import { Dock, Pace } from "../dock.js";
import { addressIn, EDITIONS, hex } from "../words.js";
import { add, find } from "./elements.js";
import { Files } from "./files.js";
import { Glass } from "./picture.js";
import { Keys } from "./keys.js";
import { Listing, Memory, Registers } from "./panels.js";
import { Timeline } from "./timeline.js";
import { Tone } from "./sound.js";

const SPEEDS = [1, 3, 10, 30, 100, 300, 1000];

const bytesOf = (base64) => Uint8Array.from(atob(base64), (letter) => letter.charCodeAt(0));

/** What is inside the page beside the module: the programs, and how they are to be loaded. */
const PROGRAMS = JSON.parse(find("programs").textContent);
const CHOSEN = JSON.parse(find("chosen").textContent);

class Page {
    constructor(card) {
        this.dock = new Dock(card);
        this.glass = new Glass(find("glass"), () => this.draw());
        this.registers = new Registers(find("variables-grid"), find("registers"), find("stack"));
        this.listing = new Listing(find("listing"), (at) => this.breakAt(at === this.dock.breakAt ? undefined : at));
        this.memory = new Memory(find("memory"));
        this.keys = new Keys(find("pad"), find("latch"));
        this.tone = new Tone(find("sound"));
        this.timeline = new Timeline(find("timeline"), (kept) => this.make(() => this.dock.seek(kept)));
        this.files = new Files(this, find("salvage"));
        this.fillLists();
        this.listenToButtons();
        this.listenToKeyboard();
        this.loadListed(Object.keys(PROGRAMS)[0]);
    }

    fillLists() {
        for (const [name, { title }] of Object.entries(PROGRAMS)) add(find("program"), "option", "", `${name}, ${title}`).value = name;
        const file = add(find("program"), "option", "", "a file");
        file.hidden = true;
        file.value = "";
        for (const steps of SPEEDS) add(find("speed"), "option", "", steps.toLocaleString("en")).value = steps;
        find("speed").value = this.dock.stepsAFrame;
        this.choose(CHOSEN);
    }

    // ---- what a person asks for

    /** The edition and the end of memory that are chosen for the next load. */
    get chosen() {
        return [Number(find("edition").value), Number(find("end").value)];
    }

    choose(choices) {
        for (const [id, value] of Object.entries(choices)) find(id).value = value;
    }

    loadListed(name) {
        this.load(name, bytesOf(PROGRAMS[name].bytes));
        find("program").value = name;
    }

    load(name, program) {
        if (this.dock.load(name, program, ...this.chosen)) find("program").value = name in PROGRAMS ? name : "";
        this.draw();
    }

    /** Takes the machine out of a card's file. The lists say then what that machine is. */
    open(name, parts) {
        this.dock.open(name, parts);
        const { edition, end } = this.dock.machine;
        this.choose({ program: "", edition, end });
    }

    /** Does something to the machine and shows what came of it. */
    make(action) {
        action();
        this.draw();
    }

    step() {
        this.make(() => this.dock.step(this.keys.take()));
    }
    runOrPause() {
        if (this.dock.running) return this.make(() => this.dock.pause());
        this.dock.start();
        this.pace = new Pace(performance.now());
        requestAnimationFrame((now) => this.frame(now));
        this.draw();
    }

    breakAt(address) {
        this.dock.breakAt = address;
        find("break").value = address === undefined ? "" : hex(address, 4);
        this.draw();
    }

    typeBreak(typed) {
        this.dock.typeBreak(typed);
        this.breakAt(this.dock.breakAt);
    }

    /** Follows the address that is being typed. What is none is marked at once, and said when it stays so. */
    follow(text, isTyped) {
        document.querySelector('[name=follow][value="own"]').checked = true;
        const isWrong = text !== "" && addressIn(text) === undefined;
        find("at").classList.toggle("wrong", isWrong);
        if (isWrong && isTyped) this.dock.say(`${text} is no address in hex.`);
        this.draw();
    }

    // ---- the run

    frame(now) {
        if (!this.dock.running) return;
        const due = this.pace.due(now);
        for (let n = 0; n < due && this.dock.running; n++) this.dock.frame(this.keys.take());
        if (due > 0) this.draw();
        requestAnimationFrame((next) => this.frame(next));
    }

    // ---- buttons and keys

    listenToButtons() {
        const { dock } = this;
        const on = (id, event, act) => find(id).addEventListener(event, act);
        on("back", "click", () => this.make(() => dock.back()));
        on("forward", "click", () => this.make(() => dock.forward()));
        on("step", "click", () => this.step());
        on("tick", "click", () => this.make(() => dock.tick()));
        on("run", "click", () => this.runOrPause());
        on("again", "click", () => (dock.hasProgram() ? this.load(dock.name, dock.program) : this.draw()));
        on("save", "click", () => this.files.save());
        on("offer", "click", () => this.files.offer());
        on("open", "click", () => find("file").click());
        on("file", "change", ({ target }) => {
            this.files.take(target.files[0]);
            target.value = "";
        });
        on("help", "click", () => find("keys-help").showModal());
        on("program", "change", ({ target }) => this.loadListed(target.value));
        on("edition", "change", ({ target }) =>
            this.make(() => dock.say(`The ${EDITIONS[target.value]} edition counts from the next load on.`)),
        );
        on("end", "change", ({ target }) =>
            this.make(() => dock.say(`Memory ends at ${hex(Number(target.value), 4)} from the next load on.`)),
        );
        on("speed", "change", ({ target }) => (dock.stepsAFrame = Number(target.value)));
        on("variables", "change", () => this.draw());
        on("break", "change", ({ target }) => this.typeBreak(target.value));
        on("at", "input", ({ target }) => this.follow(target.value.trim(), false));
        on("at", "change", ({ target }) => this.follow(target.value.trim(), true));
        for (const choice of document.querySelectorAll("[name=follow]")) choice.addEventListener("change", () => this.draw());
        // A button that was pressed with a pointer gives the keyboard back to the dock.
        addEventListener("click", ({ target, detail }) => detail > 0 && target.closest("button, select, .check")?.blur?.());
        addEventListener("change", ({ target }) => target.matches("select, [type=checkbox], [type=radio]") && target.blur());
    }

    /** What the dock does on a key. Where a control has the focus, it keeps the keys that it uses itself. */
    commandOf({ key, target }) {
        if (target.matches("input:not([type=range], [type=checkbox], [type=radio])")) return undefined;
        const presses = target.closest("button, select, [type=checkbox], [type=radio]");
        const moves = target.closest("select, [type=range], [type=radio]");
        const { dock } = this;
        return {
            ...(!presses && { " ": () => this.runOrPause(), Enter: () => this.step() }),
            ...(!moves && {
                ArrowLeft: () => this.make(() => dock.back()),
                ArrowRight: () => this.make(() => dock.forward()),
                Home: () => this.make(() => dock.seek(0)),
                End: () => this.make(() => dock.seek(dock.machine.kept + dock.machine.ahead)),
            }),
            // The timeline by itself would go by tenths, and PageUp forward.
            ...(!target.closest("select") && {
                PageUp: () => this.make(() => dock.backFrame()),
                PageDown: () => this.make(() => dock.forwardFrame()),
            }),
            t: () => this.make(() => dock.tick()),
            b: () => find("break").select(),
            p: () => find("variables").click(),
            m: () => find("sound").click(),
            o: () => find("open").click(),
            "?": () => find("keys-help").showModal(),
        }[key.length === 1 ? key.toLowerCase() : key];
    }

    listenToKeyboard() {
        addEventListener("keydown", (event) => {
            if (document.querySelector("dialog[open]") || event.target.matches("input[size]")) return;
            const key = this.keys.keyOf(event);
            if (key !== undefined) return event.repeat || this.keys.press(key);
            const command = event.ctrlKey || event.metaKey || event.altKey ? undefined : this.commandOf(event);
            if (!command) return;
            event.preventDefault();
            command();
        });
        addEventListener("keyup", (event) => {
            const key = this.keys.keyOf(event);
            if (key !== undefined) this.keys.release(key);
        });
        for (const field of document.querySelectorAll("input[size]"))
            field.addEventListener("keydown", ({ key }) => (key === "Enter" || key === "Escape") && field.blur());
    }

    // ---- drawing

    /** The address that the hex view follows. */
    get followed() {
        const { machine } = this.dock;
        const { value } = document.querySelector("[name=follow]:checked");
        return { pc: machine.pc, i: machine.i, own: addressIn(find("at").value.trim()) ?? 0 }[value];
    }

    draw() {
        const { dock } = this;
        const { machine, running, said } = dock;
        // While it runs everything changes, so nothing is marked.
        const before = running ? machine : dock.before;
        this.glass.draw(machine.panel(find("variables").checked ? machine.page() : machine.picture()));
        this.registers.draw(machine, before);
        this.listing.draw(machine, dock.breakAt);
        this.memory.draw(machine, before, this.followed);
        this.timeline.draw(machine);
        this.tone.sound(running && machine.tone > 0);
        find("run").textContent = running ? "Pause" : "Run";
        find("said").textContent = said.text;
        find("said").classList.toggle("refused", said.refused);
        find("offer").hidden = !dock.isDamaged;
    }
}

try {
    // For whoever opens the browser's console.
    window.page = new Page(await Card.from(bytesOf(find("wasm").textContent)));
    document.body.dataset.ready = "yes";
} catch (error) {
    document.querySelector("main").textContent = `The machine could not be started: ${error.message}`;
}
