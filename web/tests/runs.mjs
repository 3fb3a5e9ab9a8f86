// A run log on the page, beside what `capdiag run --why` prints of it: verdict, diagnosis, options, objects.
import { execFileSync } from "node:child_process";

import { address, check, file, hash, root, same, text, tools } from "./given.mjs";
import { CAPDIAG, examples, printed, settled } from "./logs.mjs";
import { contrasts, overlaps } from "./use.mjs";

const chosenOf = (options) => ({ freed: (options.match(/--freed (used|both)/) ?? ["", ""])[1], owned: options.includes("--owned") ? "1" : "" });
const wordsOf = ({ freed, owned }) => [...(freed ? ["--freed", freed] : []), ...(owned ? ["--owned"] : [])];

/** What `capdiag run --why` prints of a log; after a `yes` without what was asked, as the page has it. */
const diagnosed = (log, words = []) => printed(CAPDIAG, ["run", "--why", ...words], log).replace(/^asked .*\n/m, "");

/** The corpus of run logs, with the options of each row. */
const corpus = () => text("conformance/RUNS.tsv").trimEnd().split("\n").slice(1).map((row) => row.split("\t"))
    .filter(([, options]) => !options.includes("--owners"))
    .map(([name, options, answer]) => ({ name: `${name} ${options}`, log: text(`conformance/runs/${name}`), answer, ...chosenOf(options) }))
    .filter(({ log }) => /^run\s+\d/.test(log));

/** The example logs of version 2 as run logs, and what is cut or odd. */
function others() {
    const one = text("conformance/runs/36-of-the-second.log");
    const yes = text("conformance/runs/39-not-live.log");
    const logs = {
        "cut in a line": one.slice(0, -30), "cut at a line feed": one.slice(0, one.lastIndexOf("\n") + 1), "without an end": one.replace(/end.*\n/, ""),
        "after the end": `${yes}more`, "no last line feed": yes.trimEnd(), "a blank": yes.replace("mode", "mode "), "the first line alone": "run 1\n",
        "a version that isn't": "run 2\nmode strict\n", "a word that isn't": yes.replace("object", "objekt"), "no lines after": "run 1",
        "a long line": yes.replace("object c2", `object ${"c".repeat(200)}`), "long after the end": `${yes}${"m".repeat(200)}`,
        ...Object.fromEntries(examples.filter((name) => text(`examples/${name}`).startsWith("capcheck 2"))
            .map((name) => [name, text(`examples/${name}`).replace("capcheck 2", "run 1")])),
    };
    return Object.entries(logs).map(([name, log]) => ({ name, log, freed: "", owned: "" }));
}

/** What the page says of run logs. */
const said = async (given) => {
    const found = [];
    for (const { log: text, freed, owned } of given) {
        Object.assign(chosen, { freed, owned });
        await dropped(bytesOf8(text), "given.log");
        found.push({
            text: log.judged.text, verdict: seen("verdict"), shown: seen("report-text"), fine: byId("fault").hidden, fault: seen("fault"), says: log.report?.says,
            asks: visible(byId("asks")), faulty: document.querySelector("#code .at-fault")?.dataset.line ?? "",
            marks: document.querySelectorAll("#code mark").length,
        });
    }
    Object.assign(chosen, { freed: "", owned: "" });
    return found;
};

export async function runsAreJudged(page) {
    await page.run(settled);
    const given = [...corpus(), ...others()];
    const shown = await page.run(said, given);
    const kinds = new Set();
    given.forEach(({ name, log, answer, ...asks }, k) => {
        const wanted = diagnosed(log, wordsOf(asks));
        const [verdict, first, number, refusal] = wanted.split("\n")[0].split(" ");
        const it = shown[k];
        // The module gets whole lines: of a log that ends within a line it has no diagnosis of that line.
        const isCut = /^hint the last line has no line feed$/m.test(wanted);
        same(isCut ? it.text.split("\n")[0] : it.text, isCut ? wanted.split("\n")[0] : wanted, name);
        same(it.shown, it.text, `${name}: the report`);
        if (answer) same(it.text.split("\n")[0], answer, `${name}: the corpus`);
        const decimal = (digits) => digits.replace(/\B(?=(\d{3})+$)/g, ",");
        const sentence = verdict === "yes" ? "Yes: a run of the machine." : `No: line ${decimal(first)} is refused: ${number} ${refusal}.`;
        check(it.verdict.startsWith(sentence), `${name}: ${it.verdict}`);
        const says = wanted.match(/^says (.*)$/m)?.[1];
        if (says) check(it.verdict.toLowerCase().includes(says.toLowerCase()), `${name}: ${says}: ${it.verdict}`);
        check(it.fine && it.asks, `${name}: it is seen, with what is asked: ${it.fault}`);
        if (verdict === "no") check(it.faulty === first && it.marks > 0, `${name}: line ${it.faulty}, ${it.marks} marks`);
        kinds.add(refusal ?? "yes");
    });
    check(kinds.size >= 15, `verdicts of the run logs: ${[...kinds]}`);
    return `${given.length} logs, ${kinds.size} verdicts`;
}

const HELD = text("conformance/runs/36-of-the-second.log");

/** The options change the verdict, and are in the link. */
export async function runsHaveOptions(page) {
    const link = hash({ show: "log", text: text("conformance/runs/39-load.log"), line: "" });
    await page.go(address + link);
    await page.run(tools);
    await page.run(settled);
    const found = await page.run(async () => {
        const verdicts = [];
        const choose = async (id, value) => {
            if (id === "owned") byId(id).click();
            else type(id, value);
            await new Promise((done) => setTimeout(done, 20));
            await globalThis.settled();
            verdicts.push(log.judged.text.split("\n")[0]);
        };
        await globalThis.settled();
        verdicts.push(log.judged.text.split("\n")[0]);
        for (const value of ["used", "both", ""]) await choose("freed", value);
        await choose("owned");
        type("freed", "both");
        // The page writes its link some time later.
        for (let left = 100; left > 0 && !location.hash.includes("freed=both"); left--) {
            await new Promise((done) => setTimeout(done, 50));
        }
        await globalThis.settled();
        return [verdicts, location.hash];
    });
    const log = text("conformance/runs/39-load.log");
    const words = [[], ["--freed", "used"], ["--freed", "both"], [], ["--owned"]];
    same(found[0], words.map((it) => printed(CAPDIAG, ["run", ...it], log).trim()), "each option");
    check(new Set(found[0]).size > 1, `options differ: ${found[0]}`);
    const parts = new URLSearchParams(found[1].slice(1));
    same([parts.get("freed"), parts.get("owned"), parts.get("text")], ["both", "1", log], "the link has the options");
    await othersAreAsked(page, log);
    await page.go(address + found[1]);
    await page.run(tools);
    await page.run(settled);
    same(await page.run(async () => {
        await globalThis.settled();
        return [byId("freed").value, byId("owned").checked, log.judged.text.split("\n")[0]];
    }), ["both", true, printed(CAPDIAG, ["run", "--freed", "both", "--owned"], log).trim()], "the link restores them");
}

/** What the log is by the questions that aren't asked, beside what the program says by them; a button asks one. */
async function othersAreAsked(page, log) {
    const asked = async (freed, owned) => {
        await page.go(address + hash({ show: "log", text: log, line: "", freed, owned }));
        await page.run(tools);
        await page.run(settled);
        return page.run(async () => {
            await globalThis.settled();
            for (let k = 0; k < 500 && log.others === null; k++) await new Promise((done) => setTimeout(done, 10));
            return visible(byId("asked")) ? seen("asked").replace(/ ?Ask this/g, "").trim() : "";
        });
    };
    const under = (...words) => {
        const [state, line, number, refusal] = printed(CAPDIAG, ["run", ...words], log).trim().split(" ");
        return state === "yes" ? "" : `: line ${line}, ${number} ${refusal}`;
    };
    const used = under("--freed", "used");
    check(used !== "" && under() === "" && under("--owned") === "", "the log is refused by the use of a freed object alone");
    same(await asked("", ""), `Refused under --freed used${used}. Accepted under --owned.`, "the questions that aren't asked");
    same(await asked("used", ""), "Accepted under --freed held.", "a refusal that is shown isn't said again");
    same(await asked("both", "1"), "", "all is asked");
    await asked("", "");
    same(await page.run(async () => {
        byId("asked").querySelector("button").click();
        await new Promise((done) => setTimeout(done, 30));
        await globalThis.settled();
        return [byId("freed").value, log.line, log.judged.text.split("\n")[0]];
    }), ["used", Number(used.match(/line (\d+)/)[1]), printed(CAPDIAG, ["run", "--freed", "used"], log).trim()], "the button asks it and leads to its line");
}

/** Waits until the objects of the line are shown. */
const drawn = async (line) => {
    await globalThis.settled();
    if (line) stepTo(line);
    for (let k = 0; k < 500 && log.objects?.line !== (line || log.line); k++) await new Promise((done) => setTimeout(done, 10));
    return {
        says: seen("objects-say"), rows: [...document.querySelectorAll("#object-rows tr")].map((it) => it.innerText.replace(/\s+/g, " ").trim()),
        bars: [".bounds", ".freed", ".refused-extent"].map((kind) => document.querySelectorAll(`#extents ${kind}`).length),
        hatches: document.querySelectorAll("#extents .hatch").length, label: byId("extents").getAttribute("aria-label"),
        held: [...document.querySelectorAll("#held tr")].map((it) => it.innerText.replace(/\s+/g, " ").trim()),
    };
};

/** Objects are drawn and listed before each line, as `--owners` prints them of the lines before it. */
export async function objectsAreDrawn(page) {
    await page.run(settled);
    await page.run((text) => dropped(bytesOf8(text), "held.log"), HELD);
    const at = await page.run(drawn, 0);
    const refused = Number(printed(CAPDIAG, ["run"], HELD).split(" ")[1]);
    check(at.says.includes("1 object freed that some place still holds") && at.bars[1] === 1 && at.bars[2] === 1 && at.hatches === 1, JSON.stringify(at));
    check(at.rows.some((it) => /^object 2 0x1010 up to 0x1020, 16 bytes freed, still held; 1 place holds it, first c3; allocated by line 9/.test(it)),
        JSON.stringify(at.rows));
    check(at.held.some((it) => it.startsWith("c3") && it.includes("owned by object 2")), `c3's owner: ${at.held}`);
    const lines = HELD.split("\n");
    for (let line = 4; line <= refused; line++) {
        const shown = await page.run(drawn, line);
        const before = [...lines.slice(0, line - 1), `end ${line - 4}`, ""].join("\n");
        const owners = printed(CAPDIAG, ["run", "--owners"], before).split("\n").filter((it) => it.startsWith("object "));
        const wanted = owners.map((it) => it.split(" ")).map(([, number, made, , , state, held]) => [number, made, state, held]);
        const got = shown.rows.map((it) => [
            it.match(/^object (\d+)/)[1], it.match(/allocated by line (\d+)/)[1], it.includes("bytes live") ? "live" : "freed",
            it.match(/; (no|\d+) places? holds? it/)[1].replace("no", "0"),
        ]);
        same(got.sort(), wanted.sort(), `objects before line ${line}`);
        same(shown.bars[0] + shown.bars[1], wanted.length, `extents before line ${line}`);
    }
    await revokerIsDrawn(page);
    await nearestAreDrawn(page);
}

/** A run log that allocates objects one above the other. */
const logOfObjects = (count) => {
    const root = { word: read("007d1ffffc0000020000000000100000"), tag: 1 };
    const lines = ["run 1", "mode strict", `root c1 ${c.textOf(root.word)}`];
    for (let k = 0; k < count; k++) {
        const at = c.setAddrClear(root, BigInt(0x100000 + 4 * k));
        const made = c.setBoundsClear(at, 4n, false);
        lines.push(`setaddr c2 c1 ${hex(0x100000 + 4 * k, 16)} = 1 ${c.textOf(at.word)}`, `setbounds c3 c2 ${hex(4, 16)} = 1 ${c.textOf(made.word)}`);
        lines.push("derive c2 c0 = 0 00001ffffc0180040000000000000000", "object c3");
    }
    return [...lines, `end ${4 * count}`, ""].join("\n");
};

/** Of many objects those are drawn and listed that lie around the line's. */
async function nearestAreDrawn(page) {
    const log = await page.run(logOfObjects, 3000);
    check(printed(CAPDIAG, ["run"], log).startsWith("yes"), `a log of many objects: ${printed(CAPDIAG, ["run", "--why"], log).slice(0, 300)}`);
    await page.run((it) => dropped(bytesOf8(it), "many.log"), log);
    for (const number of [2, 1500, 2900]) {
        const at = await page.run(drawn, 4 * number + 3);
        const listed = at.rows.map((it) => Number(it.match(/^object (\d+)/)[1]));
        check(listed.includes(number - 1) && listed.every((it) => number - it <= 100 && it < number), `objects listed before that which allocates object ${number}: ${listed}`);
        const [first] = at.label.match(/\d+/);
        check(number - Number(first) <= 1000 && at.says.startsWith(number > 1000 ? "Of the nearest 1,000: " : "1 object live"), `${at.says} ${first}`);
    }
}

/** The log of the example revoker that misses a place. */
async function revokerIsDrawn(page) {
    const made = file("web/out/revoker");
    const library = process.env.LIBRARY ?? "crates/capcheck_c/out/libcapcheck_c.a";
    execFileSync("cc", ["-Iinclude", "examples/revoker/revoker.c", library, "-o", made], { cwd: root });
    const log = execFileSync(made, ["skips"]).toString();
    await page.run((it) => dropped(bytesOf8(it), "skips.log"), log);
    const at = await page.run(drawn, 0);
    check(at.rows[0].startsWith("object 17 0x100180 up to 0x1001c0, 64 bytes freed, still held; 1 place holds it, first scr3; allocated by line 115"),
        at.rows[0]);
    check(at.bars[2] === 1 && at.bars[1] >= 1, `extents: ${at.bars}`);
    check(at.held.some((it) => it.startsWith("scr3") && it.includes("owned by object 17")), "scr3's owner");
    same(await page.run(() => log.judged.text), diagnosed(log), "the revoker that misses a place");
}

/** A run log fits narrow screens, and its texts have contrast. */
export async function runsAreUsable(page) {
    const link = hash({ show: "log", text: HELD, line: "" });
    for (const [width, scheme] of [[390, "light"], [1280, "dark"]]) {
        await page.size(width, 900, width === 390);
        await page.scheme(scheme);
        await page.go(address + link);
        await page.run(tools);
        await page.run(settled);
        await page.run(drawn, 0);
        same(await page.run(overlaps), [true, [], []], `${width} pixels`);
        for (const [kind, name, ratio, wanted] of await page.run(contrasts))
            check(ratio >= wanted, `${width} ${scheme}: ${kind} ${name}: contrast ${ratio.toFixed(2)} below ${wanted}`);
    }
    await page.scheme("light");
    const names = await page.run(() => [...document.querySelectorAll("#asks select, #asks input")].map((it) => it.labels.length));
    check(names.every((it) => it === 1), `labels: ${names}`);
}
