// A browser, driven over the WebDriver protocol: Debian's chromium and its driver, headless.

import { spawn } from "node:child_process";
import { setTimeout as wait } from "node:timers/promises";

const ELEMENT = "element-6066-11e4-a52e-4f735466cecf";

export class Browser {
    static async start({ width = 1280, height = 900, dark = false } = {}) {
        const browser = new Browser();
        const port = 20000 + Math.floor(20000 * Math.random());
        browser.base = `http://127.0.0.1:${port}`;
        browser.process = spawn("chromedriver", [`--port=${port}`], { stdio: "ignore" });
        await browser.untilReady();
        const args = ["--headless=new", "--no-sandbox", "--disable-gpu", `--window-size=${width},${height}`, "--hide-scrollbars"];
        if (dark) args.push("--blink-settings=preferredColorScheme=0");
        const { sessionId } = await browser.ask("POST", "/session", {
            capabilities: { alwaysMatch: { browserName: "chrome", "goog:chromeOptions": { args } } },
        });
        browser.session = `/session/${sessionId}`;
        await browser.tell("/goog/cdp/execute", {
            cmd: "Emulation.setDeviceMetricsOverride",
            params: { width, height, deviceScaleFactor: 1, mobile: false },
        });
        return browser;
    }

    async untilReady() {
        for (let tries = 0; tries < 100; tries++) {
            try {
                return await this.ask("GET", "/status");
            } catch {
                await wait(100);
            }
        }
        throw new Error("chromedriver does not answer");
    }

    async ask(method, path, body) {
        const answer = await fetch(this.base + path, { method, body: body && JSON.stringify(body) });
        const { value } = await answer.json();
        if (value?.error) throw new Error(`${path}: ${value.message}`);
        return value;
    }
    tell(path, body) {
        return this.ask("POST", this.session + path, body);
    }

    open(url) {
        return this.tell("/url", { url });
    }
    /** What a function gives in the page; it is sent as text, so it sees nothing of this side but its words. */
    run(work, ...args) {
        return this.tell("/execute/sync", { script: `return (${work})(...arguments)`, args });
    }
    async find(selector) {
        return (await this.tell("/element", { using: "css selector", value: selector }))[ELEMENT];
    }
    async click(selector) {
        await this.tell(`/element/${await this.find(selector)}/click`, {});
    }
    async type(selector, text) {
        await this.tell(`/element/${await this.find(selector)}/value`, { text });
    }
    async text(selector) {
        return this.ask("GET", `${this.session}/element/${await this.find(selector)}/text`);
    }
    /** Presses and lets go keys of the keyboard, one after another. */
    async keys(...keys) {
        const actions = keys.flatMap((value) => [{ type: "keyDown", value }, { type: "keyUp", value }]);
        await this.tell("/actions", { actions: [{ type: "key", id: "keyboard", actions }] });
    }
    /** Drags from one point of the page to another. */
    async drag(from, to) {
        const move = ([x, y]) => ({ type: "pointerMove", x: Math.round(x), y: Math.round(y), duration: 100 });
        const actions = [move(from), { type: "pointerDown", button: 0 }, move(to), { type: "pointerUp", button: 0 }];
        await this.tell("/actions", { actions: [{ type: "pointer", id: "mouse", actions }] });
    }
    async screenshot() {
        return Buffer.from(await this.ask("GET", `${this.session}/screenshot`), "base64");
    }

    async stop() {
        if (this.session) await this.ask("DELETE", this.session).catch(() => {});
        this.process.kill();
    }
}
