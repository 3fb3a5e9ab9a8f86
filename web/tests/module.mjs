// That the numbers are the module's, and that nothing else is asked.
import fs from "node:fs";
import zlib from "node:zlib";
import { pathToFileURL } from "node:url";

import { file, built, address, check, same, tools, hash, STATES } from "./given.mjs";

/** The module, with one byte changed: the page then says something else, or that the module failed. */
export async function changedModules(page) {
    const bytes = fs.readFileSync(file("web/out/capcheck.wasm"));
    const html = fs.readFileSync(built, "utf8");
    const body = bodiesOf(bytes);
    const changed = file("web/out/changed.html");
    const shownWith = async (at, value, states = STATES) => {
        const other = Buffer.from(bytes);
        check(other[at] !== value, `byte ${at} is another`);
        other[at] = value;
        fs.writeFileSync(changed,
            html.replace(/(<script id="module"[^>]*>)[^<]*/, (_, head) => head + zlib.gzipSync(other).toString("base64")));
        await page.go(pathToFileURL(changed).href);
        await page.run(tools);
        return page.run((links) => links.map((link) => {
            location.hash = link;
            restore();
            return [dump(), results(), !document.getElementById("fault").hidden];
        }),
            states);
    };
    const plain = await shownWith(8, 0x7f);
    check(plain.every(([, results, fault]) => results === 0 && fault), "a module that is none is refused");
    await page.go(address);
    await page.run(tools);
    const whole = await page.run((links) => links.map((link) => {
        location.hash = link;
        restore();
        return [dump(), results(), !document.getElementById("fault").hidden];
    }),
        STATES);
    check(whole.every(([, , fault]) => !fault), "the whole module doesn't fail");
    for (const name of [...await page.run(() => Object.values(CALLS).map(([it]) => it)), "to_memory"]) {
        const got = await shownWith(body[`capcheck_${name}`], 0);
        const refused = got.filter(
            ([shown, results, fault], k) => fault && results === 0 && shown.includes("The module failed") && shown !== whole[k][0]);
        check(refused.length > 0, `the page does without ${name}`);
        check(got.every(([, results, fault]) => fault === (results === 0) || results > 0), `all or nothing is shown without ${name}`);
        check(got.every(([shown]) => shown.length > 200), `the page isn't blank without ${name}`);
    }
    const at = bytes.indexOf("BoundsEscape");
    check(at > 0, "the names are in the module's data");
    const renamed = await shownWith(at, "C".charCodeAt(0));
    check(renamed.at(-1)[0].includes("11 CoundsEscape") && !renamed.at(-1)[0].includes("BoundsEscape"),
        "a name comes from the module's data");
    // Bytes in the code that leave a module that answers otherwise: the page says what it answers. They are
    // looked for within the whole page, with a limit on time, since a changed byte may also make an endless loop.
    const load = STATES.findIndex((link) => link.includes("do=load"));
    const probes = {
        decode: 0,
        round: 8,
        round_length: 8,
        align_mask: 8,
        reach: 0,
        perm_view: 0,
        split: 0,
        text_of: 0,
        set_addr: 1,
        may_load: load
    };
    await page.go(address);
    await page.run(tools);
    let differed = 0;
    for (const [name, which] of Object.entries(probes)) {
        let found = 0;
        for (let at = body[`capcheck_${name}`] + 1, end = at + 400; at < end && !found; at++) {
            const other = Buffer.from(bytes);
            other[at] ^= 1;
            const told = await page.runFor(1000, (digits, link) => {
                globalThis.kept ??= c;
                const made = Uint8Array.from(atob(digits), (letter) => letter.charCodeAt(0));
                if (!WebAssembly.validate(made)) return null;
                c = library(made);
                location.hash = link;
                restore();
                return [dump(), 0, !document.getElementById("fault").hidden];
            }, other.toString("base64"), STATES[which]);
            if (told && !told[2] && told[0] !== whole[which][0]) found = at;
        }
        await page.run(() => {
            c = globalThis.kept ?? c;
        });
        if (found) {
            const got = (await shownWith(found, bytes[found] ^ 1, [STATES[which]]))[0];
            check(!got[2] && got[0] !== whole[which][0], `a changed byte in ${name} is seen in the page`);
            differed++;
            await page.go(address);
            await page.run(tools);
        } else
            check(false, `no changed byte in ${name} was found that answers otherwise`);
    }
    fs.rmSync(changed);
    return `${differed} changed answers shown`;
}

/** Where the body of each exported function begins, after its locals. */
function bodiesOf(bytes) {
    let at = 8;
    const number = () => {
        let value = 0;
        for (let shift = 0;; shift += 7) {
            const byte = bytes[at++];
            value += (byte & 127) * 2 ** shift;
            if (byte < 128) return value;
        }
    };
    const exports = {};
    const bodies = [];
    while (at < bytes.length) {
        const kind = bytes[at++];
        const end = number() + at;
        if (kind === 7)
            for (let left = number(); left > 0; left--) {
                const size = number();
                const name = bytes.subarray(at, at += size).toString();
                if (bytes[at++] === 0)
                    exports[name] = number();
                else
                    number();
            }
        if (kind === 10)
            for (let left = number(); left > 0; left--) {
                const size = number();
                const next = at + size;
                for (let groups = number(); groups > 0; groups--) {
                    number();
                    at++;
                }
                bodies.push(at);
                at = next;
            }
        at = end;
    }
    return Object.fromEntries(Object.entries(exports).map(([name, index]) => [name, bodies[index]]));
}

export async function nothingIsFetched(page) {
    await page.go(address);
    const before = page.requests.length;
    await page.run(tools);
    for (const link of STATES)
        await page.run((part) => {
            location.hash = part;
            restore();
        }, link);
    same(page.requests.slice(before).filter((url) => !url.startsWith("data:")), [], "requests");
    const html = fs.readFileSync(built, "utf8");
    check(!/(?:src|href)="(?!data:|#|\.\.\/\.\.\/docs\/)|@import|url\(|https?:\/\/(?!www\.w3\.org\/2000\/svg)/.test(html),
        "no address in the page");
    for (const id of ["page-script", "worker-script"]) {
        const [, packed] = html.match(new RegExp(`<script id="${id}"[^>]*>([^<]*)`));
        const script = zlib.gunzipSync(Buffer.from(packed, "base64")).toString();
        check(script.length > 10000 && !/https?:\/\/(?!www\.w3\.org\/2000\/svg)|\bfetch\(|XMLHttpRequest|WebSocket|import\(|importScripts/.test(script),
            `no address in the ${id}`);
    }
    const stopped = await page.run(() => fetch("data:,x").then(() => "went through", () => "stopped"));
    same(stopped, "stopped", "a fetch from the page");
    check(fs.statSync(built).size <= 400 * 1000, `size ${fs.statSync(built).size}`);
    check(!/^@[a-z0-9_./]+@$|@pages@/m.test(html), "no place for a file is left");
}

/** The modules have 32-bit memory, which every engine takes; where none is, or no script runs, the page says so. */
export async function withoutAnEngine(first) {
    const html = fs.readFileSync(built, "utf8");
    for (const id of ["module", "judge", "runs"]) {
        const [, packed] = html.match(new RegExp(`<script id="${id}"[^>]*>([^<]*)`));
        const module = zlib.gunzipSync(Buffer.from(packed, "base64"));
        same(memoryOf(module) & 4, 0, `${id} has 32-bit memory`);
    }
    const page = await first.browser.open("about:blank");
    for (const [gone, needs] of [["WebAssembly", "WebAssembly"], ["DecompressionStream", "DecompressionStream"]]) {
        const { identifier } = await page.send("Page.addScriptToEvaluateOnNewDocument", { source: `delete globalThis.${gone};` });
        await page.go(address);
        await page.run(tools);
        const said = await page.run(() => [visible(document.getElementById("fault")), seen("fault"), results()]);
        check(said[0] && said[1].includes("Safari 16.4") && said[2] === 0, `without ${needs}: ${said}`);
        await page.send("Page.removeScriptToEvaluateOnNewDocument", { identifier });
    }
    page.faults.length = 0;
    await page.send("Emulation.setScriptExecutionDisabled", { value: true });
    await page.go(address);
    const { nodes } = await page.send("Accessibility.getFullAXTree");
    check(nodes.some((it) => it.name?.value?.includes("The script of this page hasn't run")), "without scripts");
    await page.close();
}

/** The flags of a module's memory: 4 is that of 64-bit addresses. */
function memoryOf(bytes) {
    let at = 8;
    const number = () => {
        let value = 0;
        for (let shift = 0;; shift += 7) {
            const byte = bytes[at++];
            value += (byte & 127) * 2 ** shift;
            if (byte < 128) return value;
        }
    };
    while (at < bytes.length) {
        const kind = bytes[at++];
        const end = number() + at;
        if (kind === 5) {
            number();
            return bytes[at];
        }
        at = end;
    }
    return null;
}
