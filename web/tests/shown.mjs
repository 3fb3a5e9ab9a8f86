// What is drawn and said: what is too much, what has no tag, what a request loses, what a field takes, what words mean.
import { execFileSync } from "node:child_process";
import fs from "node:fs";
import { pathToFileURL } from "node:url";

import { address, capability, check, file, hash, root, same, STATES, text, tools } from "./given.mjs";
import { settled } from "./logs.mjs";

/** The page at a link. */
async function at(page, link) {
    await page.go(address + link);
    await page.run(tools);
    if (link.includes("show=log")) {
        await page.run(settled);
        await page.run(() => globalThis.settled());
    }
}

const drawing = (where) => [
    [...document.querySelectorAll(`${where} text.halo:not(.lost)`)].map((it) => it.textContent),
    [...document.querySelectorAll(`${where} text.lost`)].map((it) => it.textContent),
    ["bounds", "asked", "untagged", "excess"].map((kind) => document.querySelectorAll(`${where} rect.${kind}`).length),
    document.querySelectorAll(`${where} path.hatch`).length,
];

/** The verdict of a log is seen without scrolling; the text of a log folds away unless it is being typed. */
export async function verdictIsInView(page) {
    const logs = ["examples/kept_tag.log", "examples/memory.log", "conformance/runs/36-of-the-second.log",
        "conformance/heaps/24.41-28-by-rounding-of-the-new-object.log"];
    for (const width of [360, 400, 1280]) {
        await page.size(width, 800, width < 500);
        for (const name of logs) {
            await at(page, hash({ show: "log", text: text(name), line: "" }));
            const [bottom, scrolled, isOpen] = await page.run(() => [byId("verdict").getBoundingClientRect().bottom, scrollY, byId("given-text").open]);
            check(bottom > 0 && bottom < 800 && scrolled === 0 && !isOpen, `${name} at ${width}: the verdict ends at ${bottom}`);
        }
    }
    await page.size(1000, 1200);
    await page.go(address + hash({ show: "log", text: "", line: "" }));
    await page.run(tools);
    await page.run(settled);
    const open = await page.run(async (log) => {
        const before = byId("given-text").open;
        byId("text").focus();
        type("text", log);
        await new Promise((done) => setTimeout(done, 30));
        await globalThis.settled();
        const typed = byId("given-text").open;
        await dropped(bytesOf8(log), "given.log");
        const opened = byId("given-text").open;
        byId("text").blur();
        type("text", "");
        return [before, typed, opened, byId("given-text").open];
    }, text("examples/moves.log"));
    same(open, [true, true, false, true], "the text of a log is open until one is opened");
}

/** The excess is red and has its size, what has no tag is hatched, and what is the same is drawn once. */
export async function excessIsDrawn(page) {
    const logs = [
        ["escaped_bound", ["source", "request, rounded"], ["1 byte above the source's bounds"], [1, 1, 0, 1], 0],
        ["kept_tag", ["source", "request, rounded, recorded", "gives, no tag"], ["1 byte above the source's bounds"], [1, 1, 1, 1], 1],
    ];
    for (const [name, ...wanted] of logs) {
        await at(page, hash({ show: "log", text: text(`examples/${name}.log`), line: "" }));
        same(await page.run(drawing, "#why"), wanted, `${name} is drawn`);
        const red = await page.run(() => {
            const [excess] = [...document.querySelectorAll("#why rect.excess")].map((it) => it.getBoundingClientRect());
            const source = document.querySelector("#why rect.bounds").getBoundingClientRect();
            return [Math.abs(excess.left - source.right) < 1.5, getComputedStyle(document.querySelector("#why rect.excess")).fill];
        });
        same(red, [true, "rgb(180, 35, 24)"], `${name}: the excess begins where the source ends, in red`);
    }
    const fields = { show: "operation", source: "ffff1ffffbffd0000000000000001000", sourcetag: "1", authority: `ffff1ffffc018004${"0".repeat(16)}`,
        authoritytag: "1", value: "1000", offset: "0", size: "8" };
    for (const [more, ...wanted] of [
             [{ do: "setbounds" }, ["source", "request, rounded", "result, no tag"], ["1 byte above the source's bounds"], [1, 1, 1, 1], 1],
             [{ do: "setbounds", value: "10" }, ["source", "request, rounded, result"], [], [1, 1, 0, 0], 0],
             [{ do: "cleartag" }, ["source", "result, no tag"], [], [1, 0, 1, 0], 1],
             [{ do: "load", authority: "ffff1ffffbffd0000000000000001000", offset: "-4" }, ["authority", "access"], ["4 bytes below the authority's bounds"],
                 [1, 1, 0, 1], 0],
         ]) {
        await at(page, hash({ ...fields, ...more }));
        same(await page.run(drawing, "#ranges"), wanted, `${JSON.stringify(more)} is drawn`);
    }
    await at(page, capability("003d1ffffc1a13910000000000013c08", { to: "19400" }));
    const ghost = await page.run(() => [...document.querySelectorAll("#range text")].map((it) => it.textContent));
    check(ghost.includes("bounds there") && ghost.includes("1a720..1e0d0"), `the dashed box has a label: ${ghost}`);
}

/** An offset out of range is refused at its field, and nothing is drawn. */
export async function offsetsAreInRange(page) {
    const fields = { show: "operation", authority: `ffff1ffffc018004${"0".repeat(12)}1000`, authoritytag: "1", size: "1" };
    for (const [name, offset, wanted] of [
             ["load", "4000", "4000 is out of range: an offset is a number from -2048 to 2047."],
             ["store", "2048", "2048 is out of range: an offset is a number from -2048 to 2047."],
             ["lc", "-2049", "-2049 is out of range: an offset is a number from -2048 to 2047."], ["load", "2047", ""], ["load", "-2048", ""]]) {
        await at(page, hash({ ...fields, do: name, offset }));
        const got = await page.run(() => [error("offset"), results(), visible(byId("ranges")), byId("offset").getAttribute("aria-invalid")]);
        same(got, [wanted, wanted ? 0 : 1, !wanted, String(wanted !== "")], `offset ${offset}`);
        check(await page.run(() => document.querySelector("label[for=offset]").textContent.includes("-2048 to 2047")), "the field says its range");
    }
}

/** The requested top, what is lost at each side, and the button that takes an exact request. */
export async function requestsAreMadeExact(page) {
    const cases = [
        ["10040", "186a0", "0x10040 up to 0x286e0, 100,000 bytes. Rounded: 0x10000 up to 0x28700, with 64 bytes of padding below and 32 bytes above.",
            "Take an exact request: 0x18700 bytes from 0x10080", ["10080", "18700"]],
        ["1", "1001", "0x1 up to 0x1002, 4,097 bytes. Rounded: 0x0 up to 0x1008, with 1 byte of padding below and 6 bytes above.",
            "Take an exact request: 0x1008 bytes from 0x8", ["8", "1008"]],
        ["1000", "20", "0x1000 up to 0x1020, 32 bytes. Both bounds are the requested ones.", "", null],
    ];
    for (const [base, length, says, label, taken] of cases) {
        await at(page, hash({ show: "request", base, length }));
        const got = await page.run(() => [
            seen("rounding-says"), byId("take-exact").hidden ? "" : seen("take-exact"),
            [...document.querySelectorAll("#rounding text")].map((it) => it.textContent)
        ]);
        check(got[0].startsWith(`Requested: ${says}`), got[0]);
        same(got[1], label, `the button of ${base} ${length}`);
        check(got[2].some((it) => it.includes("requested top")), `the requested top is drawn: ${got[2]}`);
        if (!taken) continue;
        const after = await page.run(() => {
            byId("take-exact").click();
            return [byId("base").value, byId("length").value, rows("round-lines").exact, byId("take-exact").hidden];
        });
        same(after, [...taken, "yes", true], `taken: ${label}`);
    }
}

// Phrases that mislead: what the page says has none of them.
const UNWANTED = /\bbehind\b|\bat fault\b|\btests? holds?\b|\bhangs? on\b|\bbut for\b|\bgives? back\b|\bstands?\b|want of memory|no line of it/;

/** Each field has a gloss, and “up to” is explained in each part. */
export async function wordsAreGlossed(page) {
    const parts = [
        capability("003d1ffffc1a13910000000000013c08"), hash({ show: "request", base: "10040", length: "186a0" }),
        hash({ show: "operation", do: "setbounds" }), hash({ show: "log", text: text("examples/kept_tag.log"), line: "" })
    ];
    for (const link of parts) {
        await at(page, link);
        const got = await page.run(() => [
            [...document.querySelectorAll(".gloss")].filter(visible).map((it) => it.textContent), dump(),
            [...document.querySelectorAll("#lines tr, #round-lines tr, #exact-lines tr")].filter(visible)
                .filter((it) => !it.querySelector("small")?.textContent).map((it) => it.cells[0].textContent)
        ]);
        same(got[0], ["How ranges are written: for example, “0x1000 up to 0x1020” are the addresses from 0x1000 to 0x101f; a top isn't one of them."], "“up to” is explained");
        same(got[2], [], "fields without a gloss");
        check(!UNWANTED.test(got[1]), `words of ${link.slice(0, 30)}: ${got[1].match(UNWANTED)}`);
    }
    for (const name of fs.readdirSync(file("web")).filter((it) => /\.(js|html)$/.test(it) && it !== "capcheck.html")) {
        const found = text(`web/${name}`).match(UNWANTED);
        check(!found, `${name} has “${found}”`);
    }
}

/** The page that the tree keeps: its foot has the hash of its sources, its links lead to the pages, and a change is told. */
export async function pageIsKept(page) {
    const compare = () => {
        try {
            return execFileSync("sh", ["web/sources.sh", "--compare"], { cwd: root }).toString();
        } catch (problem) {
            return problem.stdout.toString();
        }
    };
    const of = (name) => execFileSync("sh", ["web/sources.sh", name], { cwd: root }).toString().trim();
    const kept = file("web/capcheck.html");
    const before = fs.existsSync(kept) ? fs.readFileSync(kept) : null;
    try {
        fs.writeFileSync(kept, fs.readFileSync(file("web/out/capcheck.html"), "utf8").replaceAll("../../docs/", "../docs/"));
        same(compare(), "", "the sources of a page that was just built");
        fs.writeFileSync(kept, fs.readFileSync(kept, "utf8").replace(/^cap_report .*$/m, "cap_report 0000000000000000"));
        same(compare(), "web/capcheck.html was built from other sources than these: cap_report. Build it anew: sh web/build.sh --keep\n",
            "a source that changed is named");
    } finally {
        if (before) fs.writeFileSync(kept, before);
        else fs.rmSync(kept);
    }
    await at(page, capability("003d1ffffc1a13910000000000013c08"));
    const foot = await page.run(() => document.querySelector("footer").innerText);
    check(foot.includes(`sources with the hash ${of("--hash")},`), `the foot has the hash: ${foot}`);
    check(before !== null && before.length <= 400 * 1000, "the tree keeps the page");
    await page.go(pathToFileURL(kept).href + capability("003d1ffffc1a13910000000000013c08"));
    await page.run(tools);
    const opened = await page.run(() => [results(), seen("means").slice(0, 14), [...document.querySelectorAll("footer a")].map((it) => it.href)]);
    same(opened.slice(0, 2), [1, "Read and write"], "the page of the tree opens");
    for (const it of opened[2]) check(it.startsWith(pathToFileURL(file("docs/")).href) && fs.existsSync(new URL(it)), `${it} is there`);
}

/** All ticks of the drawings are there on a narrow screen too: bounds lie at the long ones. */
export async function ticksAreDrawn(page) {
    const ticks = () => {
        const all = [...document.querySelectorAll("svg line.tick")].filter((it) => it.closest("section:not([hidden])"));
        return [all.length, all.filter((it) => it.classList.contains("long")).length, all.filter(visible).length];
    };
    for (const width of [360, 390, 640, 1000]) {
        await page.size(width, 900);
        for (const link of [STATES[0], capability("ffff1ffffbffd0000000000000001000"), STATES[8]]) {
            await page.go(address + link);
            await page.run(tools);
            const [all, long, seen] = await page.run(ticks);
            check(all > 40 && long > 10 && seen === all, `${width} pixels, ${link}: ${seen} of ${all} ticks, ${long} of them long`);
        }
    }
}
