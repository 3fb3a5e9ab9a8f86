// The picture of a run, beside what `capdiag run --owners` prints of the lines before a line.
import { execFileSync } from "node:child_process";
import fs from "node:fs";
import os from "node:os";
import path from "node:path";
import { pathToFileURL } from "node:url";
import zlib from "node:zlib";

import { built, check, file, hash, root, same, text, tools } from "./given.mjs";
import { CAPDIAG, opened, printed, settled } from "./logs.mjs";
import { overlaps } from "./use.mjs";

const HELD = text("conformance/runs/36-of-the-second.log");

/** The logs of the example revoker: right, one that misses a place, and one that hands memory out too early. */
export function revokerLogs() {
    const made = file("web/out/revoker");
    const library = process.env.LIBRARY ?? "crates/capcheck_c/out/libcapcheck_c.a";
    execFileSync("cc", ["-Iinclude", "examples/revoker/revoker.c", library, "-o", made], { cwd: root });
    return [[], ["skips"], ["early"]].map((words) => execFileSync(made, words, { maxBuffer: 1 << 28 }).toString());
}

/** Waits until the picture is drawn, and gives what it has. */
const pictured = async () => {
    byId("picture").open = true;
    for (let k = 0; k < 3000 && !log.timeline; k++) await new Promise((done) => setTimeout(done, 10));
    const plain = (it) => JSON.parse(JSON.stringify(it, (_, value) => (typeof value === "bigint" ? String(value) : value)));
    const count = (kind) => Number(document.querySelector(`#pictured path.${kind}`)?.dataset.count ?? 0);
    return {
        ...plain(log.timeline), says: seen("picture-says"), label: byId("pictured").getAttribute("aria-label"),
        live: count("bounds"), held: count("freed"), across: document.querySelectorAll("#pictured .asked-across").length,
        named: [...document.querySelectorAll("#pictured text.lost")].map((it) => it.textContent),
        curves: document.querySelectorAll("#pictured path.curve").length,
    };
};

/** What the program prints of the objects after the first lines of a log. */
function ownersAfter(lines, line) {
    const first = lines.findIndex((it) => !/^(run|mode|root)/.test(it));
    const whole = [...lines.slice(0, line), `end ${line - first}`, ""].join("\n");
    return printed(CAPDIAG, ["run", "--owners"], whole).split("\n").filter((it) => it.startsWith("object ")).map((it) => it.split(" "))
        .map(([, number, made, base, top, state, held]) => ({ number: Number(number), made: Number(made), size: BigInt(`0x${top}`) - BigInt(`0x${base}`), state, held: Number(held) }));
}

/** At lines of a log the picture has the objects and the numbers that the program prints. */
function sameAsPrinted(it, lines, name) {
    const first = lines.findIndex((line) => !/^(run|mode|root)/.test(line));
    const samples = it.samples.filter(({ line }) => line > first && !/^end/.test(lines[line - 1]));
    const picked = samples.filter((_, k) => k % Math.ceil(samples.length / 40) === 0 || k >= samples.length - 10);
    for (const { line, live, held, holders } of picked) {
        const there = ownersAfter(lines, line);
        const freed = there.filter(({ state }) => state === "freed");
        const sum = (list) => String(list.reduce((all, { size }) => all + size, 0n));
        same([live, held, holders], [sum(there.filter(({ state }) => state === "live")), sum(freed), freed.reduce((all, one) => all + one.held, 0)],
            `${name}: numbers after line ${line}`);
        const drawn = it.objects.filter((one) => one.line <= line && (!one.gone || one.gone > line))
            .map((one) => [one.number, one.line, one.freed && one.freed <= line ? "freed" : "live"]);
        same(drawn, there.map(({ number, made, state }) => [number, made, state]), `${name}: objects after line ${line}`);
    }
    return picked.length;
}

/** The pictures of the revoker's three logs, and of one of the corpus. */
export async function picturesAreDrawn(page) {
    await page.run(settled);
    fs.mkdirSync(file("web/out/pictures"), { recursive: true });
    let compared = 0;
    for (const [k, given] of [...revokerLogs(), HELD].entries()) {
        const name = ["revoker", "revoker skips", "revoker early", "36-of-the-second"][k];
        await page.run((it) => dropped(bytesOf8(it), "given.log"), given);
        const it = await page.run(pictured);
        const lines = given.split("\n");
        const [verdict, refused] = printed(CAPDIAG, ["run"], given).split(" ");
        compared += sameAsPrinted(it, lines, name);
        const last = verdict === "no" ? Number(refused) - 1 : lines.length - 1;
        same([it.last, it.live, it.curves, it.across], [last, it.objects.length, 3, Number(verdict === "no")], `${name}: what is drawn`);
        same(it.objects.length, lines.slice(0, last).filter((line) => /^object c\d+$/.test(line)).length, `${name}: the objects`);
        same(it.held, it.objects.filter(({ freed, gone }) => freed && gone !== freed).length, `${name}: the hatched bars`);
        same(it.label, it.says, `${name}: what is read out`);
        for (const width of [400, 1280]) {
            await page.size(width, 900, width === 400);
            await page.run(() => new Promise((done) => setTimeout(done, 100)));
            await page.picture(file(`web/out/pictures/${name.replace(" ", "-")}-${width}.png`));
        }
        if (verdict === "yes") continue;
        const why = printed(CAPDIAG, ["run", "--why"], given);
        const [, met] = why.match(/^object (\d+) /m);
        const [, holder] = why.match(/^holder (\S+) /m);
        const [, freed] = why.match(/^freed (\d+)/m);
        check(it.named.some((said) => said.startsWith(`object ${met}: `) && said.includes(holder)), `${name}: the holder is named: ${it.named}`);
        const decimal = (digits) => digits.replace(/\B(?=(\d{3})+$)/g, ",");
        check(it.says.includes(`It meets object ${met}, freed by line ${decimal(freed)}, held by `) && it.says.includes(holder), `${name}: ${it.says}`);
        same(it.objects[met - 1].freed, Number(freed), `${name}: the line that freed it`);
    }
    for (const width of [400, 1280]) {
        await page.size(width, 900, width === 400);
        await page.run(() => new Promise((done) => setTimeout(done, 100)));
        same(await page.run(overlaps), [true, [], []], `${width} pixels`);
    }
    return `${compared} lines compared`;
}

/** A page with a log in it opens at its picture; a log without objects has none to draw, and other logs no picture. */
export async function picturesAreGiven(page) {
    const packed = zlib.gzipSync(Buffer.from(HELD)).toString("base64");
    const given = fs.readFileSync(built, "utf8").replace('<script id="page-script"', `<script id="given" type="text/plain" data-name="held.log" data-freed="both" data-owned="">\n${packed}\n</script>\n$&`);
    const made = file("web/out/given.html");
    fs.writeFileSync(made, given);
    await page.size(1000, 700);
    await page.go(pathToFileURL(made).href);
    await page.run(tools);
    await page.run(settled);
    await page.run(() => globalThis.settled());
    const it = await page.run(pictured);
    same([it.objects.length, it.across], [2, 1], "the log in the page");
    same(await page.run(() => [view, log.name, byId("freed").value, Math.abs(byId("picture").getBoundingClientRect().top) < 2]), ["log", "held.log", "both", true],
        "it opens at its picture");
    await page.go(pathToFileURL(made).href + hash({ show: "request", base: "1", length: "fff" }));
    same(await page.run(() => view), "request", "a link to another part");
    await page.run(tools);
    await page.run(settled);
    await page.run((text) => dropped(bytesOf8(text), "moves.log"), text("examples/moves.log"));
    check(await page.run(() => byId("picture").hidden), "another log has no picture");
}

/** Of a log of a million lines, 200,000 objects are drawn, with each of the 20 that stay held after they were freed, and what the refused
 * line asks for. */
export async function longPicturesAreDrawn(page) {
    await page.size(1280, 900);
    await page.run(settled);
    const folder = fs.mkdtempSync(path.join(os.tmpdir(), "capcheck-pictures-"));
    try {
        const name = path.join(folder, "held.log");
        const words = ["bench/run_log.py", "held", "200000", "1000000"];
        fs.writeFileSync(name, execFileSync("python3", words, { cwd: root, maxBuffer: 1 << 28 }));
        await opened(page, name);
        const [took, it] = await page.run(async () => {
            const began = performance.now();
            byId("picture").open = true;
            for (let k = 0; k < 6000 && !log.timeline; k++) await new Promise((done) => setTimeout(done, 10));
            const { objects, last, samples } = log.timeline;
            const held = objects.filter(({ freed, gone }) => freed && !gone).map(({ number, held }) => [number, held]);
            const count = (kind) => Number(document.querySelector(`#pictured path.${kind}`).dataset.count);
            // The bars that reach the right edge while hatched, by the pixels of their paths.
            const ends = (kind) => {
                const bars = document.querySelector(`#pictured path.${kind}`).getAttribute("d").match(/M[^z]*z/g).map((it) => it.match(/M(\d+) (\d+)h(\d+)/).slice(1).map(Number));
                const right = Math.max(...bars.map(([x, , width]) => x + width));
                return bars.filter(([x, , width]) => x + width === right).length;
            };
            return [performance.now() - began, {
                last, held, samples: samples.length, live: count("bounds"), ends: ends("freed"), across: document.querySelectorAll("#pictured .asked-across").length,
                says: seen("picture-says"), after: [samples.at(-1).held, samples.at(-1).holders].map(String),
            }];
        });
        same([it.last, it.live, it.across], [999998, 200000, 1], "what is drawn of a million lines");
        same(it.held, [...Array(20).keys()].map((k) => [10000 * k + 1, 1]), "the objects that stay held");
        same(it.after, ["1280", "20"], "the curves at the end");
        same(it.ends, 20, "the hatched bars that reach the refused line");
        check(it.samples >= 900 && it.samples <= 1100, `${it.samples} points`);
        check(it.says.includes("It meets object 70001, freed by line ") && it.says.includes(", held by c10."), it.says);
        check(took <= 20000, `the picture of a million lines: ${took} ms`);
        fs.mkdirSync(file("web/out/pictures"), { recursive: true });
        await page.picture(file("web/out/pictures/million-1280.png"));
        return `a million lines drawn ${Math.round(took)} ms after they were judged`;
    } finally {
        fs.rmSync(folder, { recursive: true });
    }
}

/** A click leads to the line there. */
export async function picturesLead(page) {
    await page.run(settled);
    await page.run((text) => dropped(bytesOf8(text), "held.log"), HELD);
    await page.run(pictured);
    const lines = await page.run(async () => {
        const found = [];
        const box = document.querySelector("#pictured path.bounds").getBoundingClientRect();
        for (const x of [box.left + 1, box.right - 1]) {
            byId("pictured").dispatchEvent(new MouseEvent("click", { bubbles: true, clientX: x, clientY: box.top }));
            await globalThis.settled();
            found.push(log.line);
        }
        return found;
    });
    const [made, freed] = [/^object c\d+$/, /^free/].map((form) => HELD.split("\n").findIndex((line) => form.test(line)) + 1);
    check(lines[0] === made && lines[1] >= freed, `clicks lead to ${lines}`);
}
