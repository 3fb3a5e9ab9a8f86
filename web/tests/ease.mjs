// What keeps people from being stuck: what a refused line that isn't a log's says, the focus after what takes an element
// away, notes that are of something before, colours that the system forces, and large text.
import fs from "node:fs";
import { pathToFileURL } from "node:url";

import { address, capability, check, file, hash, same, STATES, text, tools } from "./given.mjs";
import { settled } from "./logs.mjs";

const WORD = "ffff1ffffc0180040000000000000000";
const ROOT = `capcheck 1\nroot c1 ${WORD}\n`;

async function withLog(page, log, name = "given.log") {
    await page.go(`${address}#show=log`);
    await page.run(tools);
    await page.run(settled);
    await page.run(async (text, name) => dropped(bytesOf8(text), name), log, name);
}

const rest = (milliseconds) => new Promise((done) => setTimeout(done, milliseconds));

// Logs with a line that isn't a log's, or is in a wrong place, and what is said of it.
const FORMLESS = [
    ["", "The log is empty; its first line is “capcheck 1” or “capcheck 2”."],
    ["capcheck 2\n", "The mode line is missing, “mode strict” or “mode clear”."],
    [ROOT, "The end line is missing, “end” and the number of steps; if a program wrote the log, it may still be running or have been stopped."],
    ["capcheck 1\nend 0", "The last line has no line feed."],
    [`${ROOT}move c2\n`, "After “c2” the line ends: the source register is missing."],
    [`${ROOT}move\n`, "After “move” the line ends: the register that is written is missing."],
    [`${ROOT}end\n`, "After “end” the line ends: the number of steps is missing."],
    [`${ROOT}move c2 c1\n`, "After “c1” the line ends: “=” and the result is missing."],
    [`${ROOT}move c2 c1 = 1 \n`, "The line ends with a blank, and none is allowed there."],
    [`${ROOT}move c2 c1 = 1 ${WORD} \n`, "The line ends with a blank, and none is allowed there."],
    [`${ROOT}end 0 \n`, "The line ends with a blank, and none is allowed there."],
    [`${ROOT} end 0\n`, "The line begins with a blank, and none is allowed there."],
    [`${ROOT}move c2  c1 = 1 ${WORD}\n`, "Two blanks follow one another; one parts two words."],
    [`${ROOT}\nend 0\n`, "The line is empty; a log has no empty lines."],
    [`${ROOT}# a remark\nend 0\n`, "A log has no comments."],
    [`${ROOT}mov c2 c1 = 1 ${WORD}\n`, "No line begins with “mov”; “move” does."],
    [`${ROOT}setbound c2 c1 0000000000001000 = 1 ${WORD}\n`, "No line begins with “setbound”; “setbounds” does."],
    [`${ROOT}jump c2\n`, "No line begins with “jump”."],
    [`${ROOT}sc c1 c1 8 = 1 f\n`, "After “8” the line goes on: “= 1 f” is too much."],
    [`${ROOT}sc c1 c1 +8\n`, "“+8” isn't an offset, -2048 to 2047: a number has no plus sign and no zero in front."],
    [`${ROOT}sc c1 c1 -0\n`, "“-0” isn't an offset, -2048 to 2047: a number has no plus sign and no zero in front."],
    [`${ROOT}sc c1 c1 0x8\n`, "“0x8” isn't an offset, -2048 to 2047: numbers have no 0x."],
    [`${ROOT}sc c1 c1 2048\n`, "“2048” isn't an offset, -2048 to 2047: it is out of range."],
    [`${ROOT}sc c1 c99 0\n`, "“c99” isn't a register, c0 to c31."],
    [`${ROOT}end 02\n`, "“02” isn't a number of steps: a number has no plus sign and no zero in front."],
    [`${ROOT}end 4294967296\n`, "“4294967296” isn't a number of steps: a log has at most 4,294,967,295 steps."],
    [`${ROOT}move c2 c1 = 1 ${WORD.slice(1)}\n`, `“${WORD.slice(1)}” isn't a word, 32 digits: it has 31 digits instead of 32: 1 missing.`],
    [`${ROOT}move c2 c1 = 1 ${WORD}0\n`, `“${WORD}0” isn't a word, 32 digits: it has 33 digits instead of 32: 1 too many.`],
    [`${ROOT}move c2 c1 = 1 ${WORD.toUpperCase()}\n`, `“${WORD.toUpperCase()}” isn't a word, 32 digits: the digits a to f are in lower case.`],
    [`${ROOT}load c1 8 4 = ff\n`, "“ff” isn't a value, 2 digits for each byte: it has 2 digits instead of 8: 6 missing."],
    [`${ROOT}load c1 8 3 = ffffff\n`, "“3” isn't a size, 1, 2, 4 or 8."],
    [`${ROOT}setaddr c2 c1 1000 = 1 ${WORD}\n`, "“1000” isn't an address, 16 digits: it has 4 digits instead of 16: 12 missing."],
    [`${ROOT}move c2 c1 1 ${WORD}\n`, "“1” isn't “=”."],
    [`${ROOT}move c2 c1 = 2 ${WORD}\n`, "“2” isn't a tag, 0 or 1."],
    [`root c0 ${WORD}\n`, "The first line is neither “capcheck 1” nor “capcheck 2”."],
    [`root c0 ${WORD}`, "The last line has no line feed."],
    [`capcheck 1\nroot c0 ${WORD}\n`, "“c0” isn't a place, c1 to c31, or @ and 16 digits, the last of them 0."],
    [`${ROOT}capcheck 1\nend 0\n`, "This is a second header; a log has one, its first line."],
    ["capcheck 2\nmode clear\nmode clear\nend 0\n", "A mode line is the second line of a log, and there is one."],
    [`${ROOT}move c2 c1 = 1 ${WORD}\nroot c3 ${WORD}\nend 1\n`, "A root follows a step; all roots come before the first step."],
    [`${ROOT}end 0\n\n`, "An empty line follows the end line, the last of a log."],
    [`${ROOT}end 0\n${ROOT}end 0\n`, "A second log follows the end line; judge each by itself."],
    [`${ROOT}end 0\nend 0\n`, "The line follows the end line, the last of a log."],
    ["capcheck 1 \nend 0\n", "The header is “capcheck 1” or “capcheck 2”, in lower case, with one blank and nothing else."],
    ["capcheck  1\nend 0\n", "The header is “capcheck 1” or “capcheck 2”, in lower case, with one blank and nothing else."],
    ["CAPCHECK 1\nend 0\n", "The header is “capcheck 1” or “capcheck 2”, in lower case, with one blank and nothing else."],
    ["capcheck 3\nend 0\n", "No version of a log but 1 and 2 is known here; a later capcheck may have written it."],
    ["\ncapcheck 1\nend 0\n", "The first line is empty; the header comes first, “capcheck 1” or “capcheck 2”."],
    ["# mine\ncapcheck 1\nend 0\n", "A log has no comments; its first line is “capcheck 1” or “capcheck 2”."],
    [`\xff\xfe${[..."capcheck 1\nend 0\n"].map((it) => `${it}\0`).join("")}`, "The text is UTF-16, as a Windows shell writes it; a log is ASCII."],
    ["\x1f\x8b\x08\x00\x00", "These are bytes that gzip has packed; unpack them first."],
    ["no 3 11 BoundsEscape\nline x\n", "This is a verdict or a report; a log is what was judged."],
    ["capcheck 2\nmode clear \nend 0\n", "The second line is neither “mode strict” nor “mode clear”: it ends with a blank."],
    ["Hello\n", "The first line is neither “capcheck 1” nor “capcheck 2”."],
];

/** What is missing, too much or misspelt is said, and what the text would be without odd blanks, lines and bytes. */
export async function formlessIsSaid(page) {
    for (const [log, says] of FORMLESS) {
        await withLog(page, log);
        same(await page.run(() => document.querySelector("#verdict span").textContent), says, `what is said of ${JSON.stringify(log.slice(0, 60))}`);
    }
    const moves = text("examples/moves.log");
    for (const [log, kind] of [
             [moves.replaceAll("\n", " \n"), "has blanks"], [moves.replace(" = ", "  = "), "has blanks"], [` ${moves}`, "has blanks"],
             [`\n${moves}`, "has empty lines"], [`${moves}\n`, "has empty lines"],
             [`\xff\xfe${[...moves].map((it) => `${it}\0`).join("")}`, "is UTF-16"],
             [`\xfe\xff${[...moves].map((it) => `\0${it}`).join("")}`, "is UTF-16"]]) {
        await withLog(page, log);
        await rest(120);
        const got = await page.run(() => [seen("evened").includes("its verdict is yes 2 1"), seen("evened")]);
        check(got[0] && got[1].includes(kind), `${kind}: ${got[1]}`);
    }
    await withLog(page, "");
    same(await page.run(() => seen("count")), "of 0, where the bytes end", "an empty log has no line");
}

/** Vector files are checked as capcheck does, and a dump can be read in the first part. */
export async function othersAreKnown(page) {
    const first = text("examples/vectors/first.vectors");
    const wrong = first.replace(/ 1\n/, " 0\n");
    for (const [vectors, says] of [
             [first, "pass 22."], [text("examples/vectors/edges.vectors"), "pass 5166."], [wrong, "fail 1: the module has"],
             [first.trimEnd(), "fail 22: the line has no line feed."], [`${first}bounds 0 = 1\n`, "fail 23: the line has none of the forms."],
             [`keeps ${WORD} 0 = 1\n`, "fail 1: the line has none of the forms."],
             ["round 0000000000000002 ffffffffffffffff = 0000000000000000 10000000000000000 1 52 0\n", "fail 1"]]) {
        await withLog(page, vectors, "given.vectors");
        await rest(600);
        const got = await page.run(() => seen("other"));
        check(got.includes(says), `vectors: ${got}, not ${says}`);
    }
    await withLog(page, "c1: 0x1 0xffff1ffffbffd000 0x0000000000001000\nc2 0 ffff1fffdc0180040000000000000000\n", "dump");
    await rest(120);
    const got = await page.run(() => {
        byId("other").querySelector("button").click();
        return [view, seen("choice").includes("2 capabilities"), rows("lines").word];
    });
    same(got, ["capability", true, "ffff1ffffbffd0000000000000001000"], "a dump is read as capabilities");
    await withLog(page, text("examples/kept_tag.log"));
    same(await page.run(() => byId("other").hidden), true, "nothing of that under a log");
}

/** Where the element with the focus goes, the focus stays near it: by keys alone nobody begins at the top again. */
export async function focusIsKept(page) {
    const log = text("examples/kept_tag.log");
    const now = () => page.run(() => {
        const it = document.activeElement;
        return [it === document.body ? "body" : it.id || it.dataset.key || it.textContent, it.closest("section")?.id ?? ""];
    });
    const press = async (find, key = "Enter") => {
        await page.run((find) => document.querySelector(find).focus(), find);
        await page.key(key);
        await rest(250);
        return now();
    };
    await withLog(page, log);
    await rest(200);
    const line = await page.run(() => log.judged.line);
    same(await press("#find-shortest"), ["find-shortest", "log"], "while the shortest log is looked for");
    await page.run(async () => { while (!log.made) await new Promise((done) => setTimeout(done, 20)); });
    same(await now(), ["find-shortest", "log"], "and once it is found");
    await page.run(() => byId("first").click());
    await rest(200);
    same(await press(`#marks [data-key='mark ${line}']`), [`mark ${line}`, "log"], "a mark's button");
    const held = await press("#held [data-key^='line ']");
    check(held[1] === "log" && held[0] !== "body", `the button of a line that made a register: ${held}`);
    await page.run(() => stepTo(4));
    await rest(200);
    const use = await press("#held [data-key^='next ']");
    check(use[1] === "log" && use[0] !== "body", `the next use: ${use}`);
    await page.run((line) => stepTo(line), line);
    await rest(200);
    same((await press("#step-link a"))[1], "operation", "a link to the operation leads into it");
    await withLog(page, log.replaceAll("\n", "\r\n"));
    await rest(200);
    same((await press("#evened button"))[1], "log", "the log without what is odd");
    await page.go(address + capability("003d1ffffc1a13910000000000013c08", { to: "13000" }));
    await page.run(tools);
    await page.run(() => byId("take").focus());
    await page.key("Enter");
    await rest(50);
    same((await now())[1], "capability", "the address is taken");
}

/** Notes on the way to a line are of this way. */
export async function notesAreFresh(page) {
    await withLog(page, text("examples/kept_tag.log"));
    const said = await page.run(async () => {
        const quiet = () => new Promise((done) => setTimeout(done, 120));
        type("search", "root");
        byId("find-next").click();
        await quiet();
        const found = seen("way");
        byId("next").click();
        await quiet();
        const later = seen("way");
        byId("to-fault").click();
        await quiet();
        document.querySelector("#held [data-key^='next ']").click();
        await quiet();
        const none = seen("way");
        byId("first").click();
        await quiet();
        return [found.includes("has it"), later, none.startsWith("No line after"), seen("way")];
    });
    same(said, [true, "", true, ""], "notes go with the next step");
    await page.go(address + hash({ show: "log", text: text("examples/moves.log"), line: "999" }));
    await page.run(tools);
    await page.run(settled);
    await page.run(() => globalThis.settled());
    check((await page.run(() => seen("way"))).startsWith("There is no line 999"), "a link's line that isn't there");
    for (const strange of ["1e1", "3.5", "abc"]) {
        const got = await page.run(async (text) => {
            type("line", text);
            await new Promise((done) => setTimeout(done, 80));
            return [log.line, seen("way").includes("no line's number")];
        }, strange);
        same(got[1], true, `${strange} is no line`);
    }
    await page.go(`${address}#show=log&packed=AAAA`);
    await rest(200);
    check(!(await page.run(() => document.getElementById("said").textContent)).includes(".."), "one full stop");
    same(await page.run(() => document.title), "capcheck: a log", "the title is of the view");
}

/** With forced colours the view, the line and what is wrong are marked by more than a background. */
export async function forcedColours(page) {
    await page.send("Emulation.setEmulatedMedia", { features: [{ name: "forced-colors", value: "active" }] });
    await withLog(page, text("examples/kept_tag.log"));
    await rest(200);
    const got = await page.run(() => {
        const style = (find) => getComputedStyle(document.querySelector(find));
        const [current, other] = ["[data-view=log]", "[data-view=request]"].map((find) => style(find));
        return [
            matchMedia("(forced-colors: active)").matches, current.borderTopWidth !== other.borderTopWidth,
            style("#code [aria-selected=true]").outlineStyle !== "none", style("#code .at-fault").borderLeftStyle !== "none",
            style("mark").backgroundColor !== style("body").backgroundColor, style(".differs").textDecorationLine === "underline",
        ];
    });
    same(got, Array(6).fill(true), "forced colours");
    await page.scheme("light");
}

/** With text of twice the size nothing is cut and no text lies on another. */
export async function largeText(page) {
    const logs = ["kept_tag", "stale_tag"].map((name) => hash({ show: "log", text: text(`examples/${name}.log`), line: "" }));
    const html = fs.readFileSync(file("web/out/capcheck.html"), "utf8");
    const large = file("web/out/large.html");
    fs.writeFileSync(large, html.replace("<style>", "<style>html { font-size: 200%; }"));
    for (const width of [390, 1280]) {
        await page.size(width, 900, width === 390);
        for (const link of [STATES[0], STATES[1], STATES[8], STATES.at(-1), ...logs]) {
            await page.go(pathToFileURL(large).href + link);
            await page.run(tools);
            await page.run(settled);
            if (link.includes("show=log")) await page.run(() => globalThis.settled());
            await rest(150);
            const got = await page.run(() => {
                const out = [...document.querySelectorAll("nav button, .card, .verdict, p, td, label")].filter((it) => visible(it)
                    && it.getBoundingClientRect().right > innerWidth + 1).map((it) => it.textContent.slice(0, 30));
                const cards = [...document.querySelectorAll("#why > .cards.two > .card")].map((it) => it.getBoundingClientRect().width);
                const letters = [...document.querySelectorAll("svg text")].filter(visible).map((it) => it.getBoundingClientRect().height);
                return [document.documentElement.scrollWidth <= innerWidth, out, cards.every((it) => it > 250), Math.min(...letters, 99) > (innerWidth < 500 ? 14 : 22)];
            });
            same(got, [true, [], true, true], `text of 200 per cent at ${width} pixels: ${link.slice(0, 60)}`);
        }
    }
    fs.rmSync(large);
    await page.size(1000, 1200);
}
