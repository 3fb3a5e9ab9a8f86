// An allocator's log on the page, beside what `capdiag heap --report --why` prints of it: verdict, report, diagnosis, objects.
import fs from "node:fs";

import { address, check, file, hash, same, text, tools } from "./given.mjs";
import { CAPDIAG, printed, settled } from "./logs.mjs";
import { contrasts, overlaps } from "./use.mjs";

const corpus = () => fs.readdirSync(file("conformance/heaps")).map((name) => [name, fs.readFileSync(file(`conformance/heaps/${name}`), "latin1")]);

/** Logs that are cut, empty or odd. */
function others() {
    const yes = text("conformance/heaps/24.36-objects-that-touch.log");
    return Object.entries({
        "cut in a line": yes.slice(0, -3), "without an end": yes.replace(/end.*\n/, ""), "the first line alone": "heap 1\n", "no line": "heap 1",
        "after the end": `${yes}more`, "a version that isn't": yes.replace("heap 1", "heap 2"), "a blank": yes.replace("malloc", "malloc "),
        "a word that isn't": yes.replace("malloc", "alloc"), "a long line": yes.replace("malloc", `malloc${"c".repeat(200)}`),
    });
}

/** What the page says of allocators' logs. */
const said = async (logs) => {
    const found = [];
    for (const [, text] of logs) {
        await dropped(bytesOf8(text), "given.log");
        found.push({
            text: log.judged.text, verdict: seen("verdict"), shown: seen("report-text"), fine: byId("fault").hidden, why: seen("why"),
            hidden: ["before", "origins", "find-shortest", "asks"].map((id) => !visible(byId(id))),
            faulty: document.querySelector("#code .at-fault")?.dataset.line ?? "",
        });
    }
    return found;
};

export async function heapsAreJudged(page) {
    await page.run(settled);
    const given = [...corpus(), ...others()].filter(([, log]) => /^heap\s+\d/.test(log));
    const shown = await page.run(said, given);
    const kinds = new Set();
    given.forEach(([name, log], k) => {
        const wanted = printed(CAPDIAG, ["heap", "--report", "--why"], log);
        const [verdict, first, number, refusal] = wanted.split("\n")[0].split(" ");
        const it = shown[k];
        same(it.text, wanted, name);
        same(it.shown, it.text, `${name}: the report`);
        const sentence = verdict === "yes" ? "Yes: each live object can have bounds that reach no other."
            : `No: line ${first} is refused: ${number} ${refusal}. `;
        check(it.verdict.startsWith(sentence) && it.verdict.length > sentence.length + 20, `${name}: ${it.verdict}`);
        check(it.fine && it.hidden.every((hidden) => hidden), `${name}: what other logs have isn't there: ${it.hidden}`);
        if (verdict === "no") check(it.faulty === first, `${name}: line ${it.faulty}`);
        else check(it.why.includes("objects allocated") && it.why.includes("aren't exact"), `${name}: ${it.why}`);
        kinds.add(refusal ?? "yes");
    });
    check(kinds.size >= 11, `verdicts of the allocators' logs: ${[...kinds]}`);
    const link = hash({ show: "log", text: given[0][1], line: "" });
    await page.go(address + link);
    await page.run(tools);
    await page.run(settled);
    same(await page.run(async () => { await globalThis.settled(); return log.judged.text; }), shown[0].text, "the link has the log");
    return `${given.length} logs, ${kinds.size} verdicts`;
}

const drawn = async (line) => {
    await globalThis.settled();
    if (line) stepTo(line);
    for (let k = 0; k < 500 && log.objects?.line !== (line || log.line); k++) await new Promise((done) => setTimeout(done, 10));
    return {
        says: seen("objects-say"), rows: [...document.querySelectorAll("#object-rows tr")].map((it) => it.innerText.replace(/\s+/g, " ").trim()),
        bars: [".bounds", ".refused-extent"].map((kind) => document.querySelectorAll(`#extents ${kind}`).length), why: seen("why").replace(/\s+/g, " "),
    };
};

/** A log of random events, each with room of its own. */
function events(count) {
    const lines = ["heap 1", "root 0000000000000000 10000000000000000"];
    const live = [];
    const digits = (number) => number.toString(16).padStart(16, "0");
    let state = 7;
    const draw = (below) => (state = (state * 1103515245 + 12345) % 2147483648) % below;
    for (let k = 0; k < count; k++) {
        if (live.length && draw(3) === 0) lines.push(`free ${live.splice(draw(live.length), 1)[0]}`);
        else {
            live.push(digits(256 * (k + 1)));
            lines.push(`malloc ${live.at(-1)} ${digits(16 + draw(240))}`);
        }
    }
    return [...lines, `end ${count}`, ""].join("\n");
}

/** The live objects are drawn and listed before each line, as a plain reading of the lines has them. */
export async function liveObjectsAreDrawn(page) {
    await page.run(settled);
    const given = events(60);
    await page.run((text) => dropped(bytesOf8(text), "events.log"), given);
    const lines = given.split("\n");
    const live = new Map();
    for (let line = 3; line < lines.length; line++) {
        const shown = await page.run(drawn, line);
        const wanted = [...live].map(([at, [length, from]]) => `0x${BigInt(`0x${at}`).toString(16)} ${length} ${from}`).sort();
        const got = shown.rows.map((it) => it.match(/^object \d+ (0x[0-9a-f]+) up to 0x[0-9a-f]+, ([\d,]+) bytes? allocated by line (\d+)$/))
            .map((it) => it && `${it[1]} ${it[2].replace(",", "")} ${it[3]}`).sort();
        same(got, wanted, `live before line ${line}`);
        same(shown.bars[0] + Number(shown.says.match(/(\d+) objects? lies? far/)?.[1] ?? 0), wanted.length, `extents before line ${line}`);
        const [kind, at, length] = lines[line - 1].split(" ");
        if (kind === "malloc") live.set(at, [Number(`0x${length}`), line]);
        else live.delete(at);
    }
    const overlapping = text("conformance/heaps/24.41-28-by-rounding-of-the-new-object.log");
    await page.run((it) => dropped(bytesOf8(it), "overlapping.log"), overlapping);
    const at = await page.run(drawn, 0);
    same(at.bars, [1, 1], `the live object and the request: ${at.says}`);
    check(["live rounded", "rounded", "the request's bounds would be exact"].every((it) => at.why.includes(it)), at.why);
    // Of many live objects, those that are nearest to the line's address.
    const many = ["heap 1", "root 0000000000000000 10000000000000000",
                  ...Array.from({ length: 3000 }, (_, k) => `malloc ${(65536 * (k + 1)).toString(16).padStart(16, "0")} 0000000000000010`), "end 3000", ""];
    await page.run((it) => dropped(bytesOf8(it), "many.log"), many.join("\n"));
    const nearest = await page.run(drawn, 2502);
    check(nearest.says.startsWith("Of the nearest 1,000: 1,000 objects live."), nearest.says);
    check(nearest.rows.every((it) => Number(it.match(/^object (\d+)/)[1]) >= 1500), nearest.rows[0]);
}

/** An allocator's log fits narrow screens, and its texts have contrast. */
export async function heapsAreUsable(page) {
    const link = hash({ show: "log", text: text("conformance/heaps/24.41-28-by-rounding-of-the-new-object.log"), line: "" });
    for (const [width, scheme] of [[390, "light"], [1280, "dark"]]) {
        await page.size(width, 900, width === 390);
        await page.scheme(scheme);
        await page.go(address + link);
        await page.run(tools);
        await page.run(settled);
        await page.run(drawn, 0);
        same(await page.run(overlaps), [true, [], []], `${width} pixels`);
        for (const [kind, name, ratio, wanted] of await page.run(contrasts))
            check(ratio >= wanted, `${width} ${scheme}: ${kind} ${name}: contrast ${ratio.toFixed(2)} below ${wanted}`);
    }
    await page.scheme("light");
}
