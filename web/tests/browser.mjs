// A headless Chromium, driven over the pipe of its DevTools protocol.
import {spawn} from "node:child_process";
import fs from "node:fs";
import os from "node:os";
import path from "node:path";

const BROWSERS = [process.env.CHROMIUM, "/usr/bin/chromium", "/usr/bin/chromium-browser", "/usr/bin/google-chrome"];

export class Browser {
    static start() {
        const program = BROWSERS.find((name) => name && fs.existsSync(name));
        if (!program) throw new Error("no chromium is here: apt-get install chromium, or name one by CHROMIUM");
        return new Browser(program);
    }

    constructor(program) {
        this.profile = fs.mkdtempSync(path.join(os.tmpdir(), "capcheck-web-"));
        const words = [
            "--headless", "--no-sandbox", "--disable-gpu", "--hide-scrollbars", "--remote-debugging-pipe", "--no-first-run",
            "--disable-background-networking", `--user-data-dir=${this.profile}`, "about:blank"
        ];
        this.child = spawn(program, words, { stdio: ["ignore", "ignore", "ignore", "pipe", "pipe"] });
        this.waiting = new Map();
        this.listeners = [];
        this.last = 0;
        let rest = Buffer.alloc(0);
        this.child.stdio[4].on("data", (piece) => {
            rest = Buffer.concat([rest, piece]);
            for (let end = rest.indexOf(0); end >= 0; end = rest.indexOf(0)) {
                this.take(JSON.parse(rest.subarray(0, end).toString()));
                rest = rest.subarray(end + 1);
            }
        });
    }

    take(message) {
        if (message.id === undefined) return this.listeners.forEach((listener) => listener(message));
        const { done, fail } = this.waiting.get(message.id);
        this.waiting.delete(message.id);
        if (message.error)
            fail(new Error(message.error.message));
        else
            done(message.result);
    }

    send(method, params = {}, sessionId = undefined) {
        const id = ++this.last;
        this.child.stdio[3].write(`${JSON.stringify({ id, method, params, sessionId })}\0`);
        return new Promise((done, fail) => this.waiting.set(id, { done, fail }));
    }

    async open(address, { width = 1000, height = 1200, dark = false, touch = false } = {}) {
        const { targetId } = await this.send("Target.createTarget", { url: "about:blank" });
        const { sessionId } = await this.send("Target.attachToTarget", { targetId, flatten: true });
        const page = new Page(this, targetId, sessionId);
        for (const name of ["Page", "Runtime", "Log", "Network", "Accessibility", "DOM"]) await page.send(`${name}.enable`);
        await page.size(width, height, touch);
        await page.scheme(dark ? "dark" : "light");
        await page.go(address);
        return page;
    }

    async end() {
        await Promise.race([this.send("Browser.close"), new Promise((done) => setTimeout(done, 3000))]);
        this.child.kill();
        await new Promise(
            (done) => (this.child.exitCode !== null || this.child.signalCode !== null ? done() : this.child.on("exit", done)));
        fs.rmSync(this.profile, { recursive: true, force: true, maxRetries: 5, retryDelay: 200 });
    }
}

class Page {
    constructor(browser, targetId, sessionId) {
        Object.assign(this, { browser, targetId, sessionId, faults: [], requests: [] });
        browser.listeners.push(({ method, params, sessionId: from }) => {
            if (from !== sessionId) return;
            if (method === "Runtime.exceptionThrown")
                this.faults.push(params.exceptionDetails.exception?.description ?? params.exceptionDetails.text);
            if (method === "Log.entryAdded" && params.entry.level === "error") this.faults.push(params.entry.text);
            if (method === "Network.requestWillBeSent") this.requests.push(params.request.url);
            if (method === "Page.loadEventFired" && this.loaded) this.loaded();
        });
    }

    send(method, params = {}) { return this.browser.send(method, params, this.sessionId); }

    async go(address) {
        const loaded = new Promise((done) => (this.loaded = done));
        await this.send("Page.navigate", { url: "about:blank" });
        await loaded;
        const again = new Promise((done) => (this.loaded = done));
        await this.send("Page.navigate", { url: address });
        await again;
        // The page unpacks its modules first.
        await this.run(() => (typeof started === "undefined" ? null : started)).catch(() => null);
    }

    size(width, height, touch = false) {
        return this.send("Emulation.setDeviceMetricsOverride", { width, height, deviceScaleFactor: 1, mobile: touch });
    }

    scheme(value) { return this.send("Emulation.setEmulatedMedia", { features: [{ name: "prefers-color-scheme", value }] }); }

    /** What a function gives that runs in the page; it takes what can be written as JSON. */
    async run(body, ...given) {
        const expression = `(${body})(...${JSON.stringify(given)})`;
        const { result, exceptionDetails } = await this.send("Runtime.evaluate", { expression, awaitPromise: true, returnByValue: true });
        if (exceptionDetails) throw new Error(exceptionDetails.exception?.description ?? exceptionDetails.text);
        return result.value;
    }

    /** The same with a limit on its time: nothing where the limit was passed or the function threw. */
    async runFor(timeout, body, ...given) {
        const expression = `(${body})(...${JSON.stringify(given)})`;
        const said = await this.send("Runtime.evaluate", { expression, returnByValue: true, timeout }).catch(() => undefined);
        return said && !said.exceptionDetails ? said.result.value : undefined;
    }

    async key(key, modifiers = 0) {
        const code = { Tab: 9, Home: 36, End: 35, ArrowLeft: 37, ArrowRight: 39, PageUp: 33, PageDown: 34, Enter: 13, " ": 32 }[key];
        const text = { Enter: "\r", " ": " " }[key];
        await this.send("Input.dispatchKeyEvent",
            { type: text ? "keyDown" : "rawKeyDown", key, code: key, windowsVirtualKeyCode: code, modifiers, text });
        await this.send("Input.dispatchKeyEvent", { type: "keyUp", key, code: key, windowsVirtualKeyCode: code, modifiers });
    }

    async picture(file, whole = true) {
        const { cssContentSize } = await this.send("Page.getLayoutMetrics");
        const clip = { x: 0, y: 0, width: cssContentSize.width, height: cssContentSize.height, scale: 1 };
        const { data } = await this.send("Page.captureScreenshot", whole ? { clip, captureBeyondViewport: true } : {});
        fs.writeFileSync(file, Buffer.from(data, "base64"));
    }

    close() { return this.browser.send("Target.closeTarget", { targetId: this.targetId }); }
}
