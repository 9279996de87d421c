// Files in and out: by the button, dropped on the page, and saved; and the question whether a worn history is to be salvaged.

import { READ_MOST, salvageInWords } from "../dock.js";
import { add, find } from "./elements.js";

export class Files {
    constructor(page, dialog) {
        Object.assign(this, { page, dialog, dock: page.dock });
        addEventListener("dragover", (event) => event.preventDefault());
        addEventListener("drop", (event) => {
            event.preventDefault();
            this.take(event.dataTransfer?.files[0]);
        });
    }

    /** Reads a file of the person's and opens what it holds. One may be dropped by mistake, so not all of a large one is read. */
    async take(file) {
        if (!file) return this.cannot("What was dropped", "it is no file");
        try {
            this.open(file.name, new Uint8Array(await file.slice(0, READ_MOST + 1).arrayBuffer()));
        } catch {
            this.cannot(file.name, "it cannot be read");
        }
    }

    cannot(name, why) {
        this.dock.refuseFile(name, why);
        this.page.draw();
    }

    async open(name, bytes) {
        try {
            const { program, parts, salvage } = this.dock.look(bytes);
            if (program) return this.page.load(name, program);
            const wish = salvage ? await this.ask(name, salvage) : "as it is";
            if (wish === "leave" || wish === "") return this.cannot(name, "you left it");
            this.page.open(name, parts);
            if (wish === "salvage") this.dock.salvage();
        } catch (error) {
            return this.cannot(name, error.message);
        }
        this.page.draw();
    }

    /** The history of the machine that is open turned out to be damaged. */
    async offer() {
        const wish = await this.ask(this.dock.name, this.dock.salvageOffer, true);
        if (wish === "salvage") this.dock.salvage();
        this.page.draw();
    }

    /** Asks in the dialog. It gives "salvage", "as it is", "leave", or "" where it was closed otherwise. */
    ask(name, salvage, isOpen = false) {
        const { dialog } = this;
        find("salvage-of").textContent = `In ${name} some cells of the history have worn. A salvage makes the rest fit again.`;
        const list = find("salvage-lines");
        list.replaceChildren();
        for (const line of salvageInWords(salvage)) add(list, "li", "", line);
        dialog.querySelector('[value="as it is"]').hidden = isOpen;
        dialog.returnValue = "";
        dialog.showModal();
        return new Promise((answer) => dialog.addEventListener("close", () => answer(dialog.returnValue), { once: true }));
    }

    save() {
        const link = document.createElement("a");
        link.href = URL.createObjectURL(new Blob([this.dock.save()]));
        link.download = `${this.dock.name.replace(/\.(ch8|card)$/, "") || "machine"}.card`;
        link.click();
        setTimeout(() => URL.revokeObjectURL(link.href), 1000);
        this.dock.say(`The card was saved as ${link.download}.`);
        this.page.draw();
    }
}
