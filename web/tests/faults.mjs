// A refused log as its reader meets it: the sentence, the shortest log, who wrote the memory, odd bytes, ways to lines.
import { execFileSync } from "node:child_process";

import { address, check, hash, root, same, text, tools } from "./given.mjs";
import { CAPDIAG, printed, settled } from "./logs.mjs";

const WHOLE = "ffff1ffffc018004";
const ROOT = `root c1 ${WHOLE}0000000000000000\n`;
const drawn = (kind, steps, seed) =>
    execFileSync("python3", ["bench/random_log.py", kind, String(steps), String(seed)], { cwd: root, maxBuffer: 1 << 28 }).toString();

/** The page with a log that is dropped on it, once it is judged. */
async function withLog(page, log, name = "given.log") {
    await page.go(`${address}#show=log`);
    await page.run(tools);
    await page.run(settled);
    await page.run(async (text, name) => dropped(bytesOf8(text), name), log, name);
}

/** Waits for what is asked after the verdict. */
const rest = (milliseconds) => new Promise((done) => setTimeout(done, milliseconds));

/** What is copied, instead of by the browser. */
const copies = () => {
    globalThis.copied = [];
    Object.defineProperty(navigator, "clipboard", { value: { writeText: async (it) => copied.push(it) }, configurable: true });
};

export async function linksHoldLogs(page) {
    const log = drawn("mixed", 5000, 3).replace(/end \d+\n$/, "lc c20 c1 0 = 1 0000000000000000ffffffffffffffff\n");
    await withLog(page, log);
    await page.run(copies);
    const link = await page.run(async () => {
        byId("copy-link").click();
        while (copied.length === 0) await new Promise((done) => setTimeout(done, 5));
        return [copied[0], location.href, seen("verdict"), seen("said"), log.judged.text];
    });
    check(link[0] === link[1] && /[&]packed=[\w-]{1000,}&line=5003$/.test(link[0]), `the link has the log: ${link[0].slice(0, 200)}`);
    check(/^Link copied\. It has [\d,]+ letters\.$/.test(link[3]), link[3]);
    await page.go(link[0]);
    await page.run(tools);
    await page.run(settled);
    await page.run(() => globalThis.settled());
    same(await page.run(() => [log.judged.text, log.judged.count, byId("line").value]), [link[4], 5003, "5003"], "the link opens the log");
    await page.run(copies);
    const again = await page.run(async () => {
        byId("copy-link").click();
        while (copied.length === 0) await new Promise((done) => setTimeout(done, 5));
        return copied[0];
    });
    same(again, link[0], "and is copied again");
    // One that is almost too long for a link, and is copied before it is judged; text that is typed then takes its place.
    await page.go(`${address}#show=log`);
    await page.run(tools);
    await page.run(settled);
    await page.run(copies);
    const almost = drawn("memory", 80000, 4);
    const early = await page.run(async (text) => {
        openLog(new Blob([text]), "given.log");
        byId("copy-link").click();
        while (copied.length === 0) await new Promise((done) => setTimeout(done, 5));
        return copied[0];
    }, almost);
    check(early.length > 700000 && early.length <= 1000000, `a long link: ${early.length}`);
    await page.go(early);
    await page.run(tools);
    await page.run(settled);
    await page.run(() => globalThis.settled());
    same(await page.run(() => log.judged.text), "yes 80000 1\n", "a long link opens its log");
    same(await page.run(async (text) => {
        type("text", text);
        await new Promise((done) => setTimeout(done, 30));
        await globalThis.settled();
        await new Promise((done) => setTimeout(done, 500));
        return [log.judged.text, location.hash.includes("packed")];
    }, text("examples/moves.log")), ["yes 2 1\n", false], "typed text takes its place");
    // One that is too long for a link.
    const long = drawn("memory", 150000, 4);
    for (const [given, wanted] of [
             [long.replace(/end \d+\n$/, "lc c20 c1 0 = 1 0000000000000000ffffffffffffffff\n"),
                 [true, "Send the file, or a short log with its fault. Save the log Find a short log", 1]],
             [long, [true, "Send the file. Save the log", 0]]]) {
        await withLog(page, given);
        await page.run(copies);
        const told = await page.run(async () => {
            byId("copy-link").click();
            while (!seen("said")) await new Promise((done) => setTimeout(done, 5));
            const saved = await (await new Response(log.blob)).text();
            return [
                copied.length === 0 && seen("said").startsWith("A link can't hold this log: packed, it has more than 1,000,000 letters. "),
                seen("said").slice(seen("said").indexOf("Send")), document.querySelectorAll("#said button").length,
                document.querySelector("#said a").download === "given.log" && saved.length
            ];
        });
        same(told, [...wanted, given.length], "a link that can't hold the log");
    }
    await withLog(page, long.replace(/end \d+\n$/, "lc c20 c1 0 = 1 0000000000000000ffffffffffffffff\n"));
    await page.run(copies);
    const short = await page.run(async () => {
        byId("copy-link").click();
        while (!document.querySelector("#said button")) await new Promise((done) => setTimeout(done, 5));
        document.querySelector("#said button").click();
        while (!log.made) await new Promise((done) => setTimeout(done, 5));
        byId("link-shortest").click();
        await new Promise((done) => setTimeout(done, 20));
        return [log.made.text, copied[0]];
    });
    same(short[1], address + hash({ show: "log", text: short[0], line: "" }), "the shortest log goes into a link");
    for (const bad of ["AAAA", "%21%21", "7cFBCQAACAMh"]) {
        await page.go(`${address}#show=log&packed=${bad}`);
        await page.run(tools);
        await rest(100);
        const said = await page.run(() => [results(), seen("said"), byId("fault").hidden]);
        check(said[0] === 0 && said[2] && /can't be unpacked|isn't known here/.test(said[1]), `a link with a bad log: ${said}`);
    }
    return `a link of ${link[0].length} letters for 5,003 lines`;
}

/** What has to stay of a report in a shorter log. */
function essence(report) {
    const [verdict, ...rows] = report.split("\n");
    return [verdict.split(" ")[3], ...rows.filter((it) => !/^(\w+ origin|roots|steps|granules) /.test(it))].join("\n");
}

/** A fault at random in the second half of a log, the same one each time. */
function faulted(log, draw) {
    const lines = log.trimEnd().split("\n");
    for (;;) {
        const place = Math.floor(lines.length / 2) + draw(lines.length / 2 - 2);
        const line = lines[place];
        const at = line.indexOf(" = ");
        if (at < 0) continue;
        if (draw(3) === 0) lines[place] = line.replace(/= ([01]) /, (it, tag) => `= ${1 - tag} `);
        else {
            const digit = at + 5 + draw(line.length - at - 5);
            if (!/[0-9a-f]/.test(line[digit] ?? "")) continue;
            const other = ((parseInt(line[digit], 16) + 1 + draw(15)) % 16).toString(16);
            lines[place] = line.slice(0, digit) + other + line.slice(digit + 1);
        }
        if (lines[place] !== line) return `${lines.join("\n")}\n`;
    }
}

/** Ten faults at random in logs of 20,000 lines, and some that keep many lines: of the shortest log each line is tried
 * away, and it comes within five seconds. */
export async function shortestIsMinimal(page) {
    let state = 7;
    const draw = (below) => {
        state = (Math.imul(state, 1103515245) + 12345) & 0x7fffffff;
        return (state >>> 8) % Math.floor(below);
    };
    const kinds = ["mixed", "memory", "scattered", "moves"];
    const logs = Array.from({ length: 10 }, (it, k) => [`${kinds[k % 4]} ${k}`, faulted(drawn(kinds[k % 4], 20000, k + 1), draw), 12]);
    const many = (count, of) => Array.from({ length: count }, (it, k) => of(k)).join("");
    const bytes = (k) => (k % 65536).toString(16).padStart(4, "0");
    logs.push(
        ["one granule", `capcheck 1\n${ROOT}${many(20000, (k) => `store c1 0 2 ${bytes(k)}\n`)}load c1 0 2 = ffff\nend 20001\n`, 4],
        ["a cleared tag", `capcheck 1\n${ROOT}sc c1 c1 0\n${many(20000, (k) => `store c1 0 2 ${bytes(k)}\n`)}`
            + "lc c2 c1 0 = 1 ffff1ffffc0180040000000000004e1f\n", 5],
        ["a chain", `capcheck 1\n${ROOT}${many(20000, (k) => `setaddr c1 c1 000000000000${bytes(k)} = 1 ${WHOLE}000000000000${bytes(k)}\n`)}`
            + `setaddr c2 c1 0000000000000001 = 0 ${WHOLE}0000000000000001\n`, 3],
        ["a chain without a tag", `capcheck 1\n${many(20000, (k) =>
            `setaddr c1 c1 000000000000${bytes(k)} = 0 00001ffffc018004000000000000${bytes(k)}\n`)}` + `move c2 c1 = 1 00001ffffc0180040000000000000001\n`, 3]);
    const seen = [];
    for (const [name, log, most] of logs) {
        const wanted = printed(CAPDIAG, ["why"], log);
        await withLog(page, log);
        const made = await page.run(async () => {
            const began = performance.now();
            byId("find-shortest").click();
            while (!log.made) await new Promise((done) => setTimeout(done, 2));
            return { ...log.made, took: performance.now() - began, says: seen("shortest-says") };
        });
        check(made.took <= 5000, `${name}: ${made.took} ms`);
        check(made.isShortest && made.says.endsWith("Leave any line out, and the refusal or its diagnosis changes."), `${name}: ${made.says}`);
        check(made.lines <= most, `${name}: ${made.lines} lines`);
        same(essence(printed(CAPDIAG, ["why"], made.text)), essence(wanted), `${name}: the fault stays`);
        const lines = made.text.split(/(?<=\n)/);
        lines.forEach((line, k) => {
            const without = printed(CAPDIAG, ["why"], lines.filter((it, other) => other !== k).join(""));
            check(essence(without) !== essence(wanted), `${name}: without ${line.trim()} the fault is the same`);
        });
        seen.push(`${made.lines} lines in ${Math.round(made.took)} ms`);
    }
    // A limit needs as many lines as it allows: the search ends in time, and says what it doesn't know.
    const place = (k) => (k * 16).toString(16).padStart(16, "0");
    const full = `capcheck 1\n${ROOT}${many(65537, (k) => `setaddr c2 c1 ${place(k)} = 1 ${WHOLE}${place(k)}\nsc c1 c2 0\n`)}`;
    await withLog(page, full);
    const limit = await page.run(async () => {
        const began = performance.now();
        byId("find-shortest").click();
        while (!log.made) await new Promise((done) => setTimeout(done, 2));
        return [performance.now() - began, log.judged.text.slice(10, 24), seen("shortest-says")];
    });
    check(limit[0] <= 5500 && limit[1].includes("LimitPassed") && limit[2].endsWith("The time ran out: lines of it may be left out still."),
        `a limit: ${limit}`);
    return seen.join(", ");
}

/** For each access of a log the line that wrote its granule last, and the one that cleared its tag, by a plain reading. */
function authors(log) {
    const registers = {};
    const granules = new Map();
    return log.trimEnd().split("\n").map((line, k) => {
        const [kind, ...words] = line.split(" ");
        const reach = { lc: [1, 2], sc: [1, 2], load: [0, 1], store: [0, 1] }[kind];
        let before = null;
        if (kind === "root" && words[0].startsWith("@")) granules.set(BigInt(`0x${words[0].slice(1)}`) >> 4n, { wrote: k + 1, cleared: 0, tag: "1" });
        if (reach) {
            const at = BigInt.asUintN(64, (registers[words[reach[0]]]?.address ?? 0n) + BigInt(words[reach[1]])) >> 4n;
            const held = granules.get(at) ?? { wrote: 0, cleared: 0, tag: "0" };
            before = { wrote: held.wrote, cleared: held.cleared };
            if (kind === "store") granules.set(at, { wrote: k + 1, cleared: held.tag === "1" ? k + 1 : held.cleared, tag: "0" });
            if (kind === "sc") {
                const tag = registers[words[0]]?.tag ?? "0";
                const cleared = tag === "1" ? 0 : held.tag === "1" ? k + 1 : held.cleared;
                granules.set(at, { wrote: k + 1, cleared, tag });
            }
        }
        const result = line.match(/(?:^root (c\d+)|^\w+ (c\d+) .*= ([01])) ([0-9a-f]{32})$/);
        if (result) registers[result[1] ?? result[2]] = { tag: result[3] ?? "1", address: BigInt(`0x${result[4].slice(16)}`) };
        return before;
    });
}

/** Who wrote the memory that a wrong load or `lc` reads, and data that are shown as data. */
export async function memoryHasAuthors(page) {
    const log = `capcheck 1\n${ROOT}sc c1 c1 0\nstore c1 8 8 0123456789abcdef\nstore c1 0 4 0000cafe\n`;
    for (const [line, wanted] of [
             [`lc c2 c1 0 = 1 ${WHOLE}0000000000000000\n`,
                 ["It records tag 1; memory holds tag 0."],
             ],
             ["load c1 0 4 = 0000caff\n", ["It records 0x0000caff; memory holds 0x0000cafe."]]]) {
        await withLog(page, log + line);
        await rest(400);
        const shown = await page.run(() => [
            seen("verdict"), seen("wrote"), [...document.querySelectorAll("#held tr")].map((it) => it.textContent),
            [...document.querySelectorAll("#why text.halo")].map((it) => it.textContent), byId("why").textContent
        ]);
        const memory = "@0000000000000000 was last written by line 5; its tag was cleared by line 4.";
        same(shown[1], memory, "who wrote and who cleared");
        if (line.startsWith("load")) check(shown[0].includes(wanted[0]), shown[0]);
        const held = shown[2].find((it) => it.startsWith("@"));
        check(held.includes("data, by address: fe ca 00 00 00 00 00 00 ef cd ab 89 67 45 23 01") && held.includes(memory), `data: ${held}`);
        check(!shown[3].some((it) => /source|gives/.test(it)), `data isn't drawn as a capability: ${shown[3]}`);
        if (line.startsWith("lc"))
            check(shown[4].includes("data, by address: fe ca 00 00"), "the diagnosis shows data");
        await page.run(() => document.querySelectorAll("#wrote button")[1].click());
        await page.run(() => globalThis.settled());
        same(await page.run(() => byId("line").value), "4", "a button leads to the line that cleared it");
    }
    await withLog(page, `${log}load c1 8 2 = 0000\n`);
    await rest(300);
    same(await page.run(() => seen("wrote")),
        "@0000000000000000 was last written by line 5; the bytes that the line reaches, by line 4; its tag was cleared by line 4.",
        "who wrote the bytes");
    await withLog(page, `capcheck 1\n${ROOT}root @0000000000000010 ${WHOLE}0000000000000000\nlc c2 c1 16 = 0 ${WHOLE}0000000000000000\n`);
    await rest(300);
    same(await page.run(() => seen("wrote")), "@0000000000000010 holds its root, of line 3.", "a root in memory");
    await withLog(page, `capcheck 1\n${ROOT}lc c2 c1 0 = 1 ${WHOLE}0000000000000000\n`);
    await rest(300);
    same(await page.run(() => seen("wrote")), "No line before wrote @0000000000000000: it holds zeros.", "memory that none wrote");
    await withLog(page, `${log}load c1 1 2 = 0000\n`);
    await rest(300);
    same(await page.run(() => [log.judged.text.split(" ")[3].slice(0, 10), seen("wrote")]), ["Misaligned", ""], "a load that is refused before it reads");
    // The same by a plain reading, of lines at random.
    let compared = 0;
    for (const kind of ["memory", "mixed"]) {
        const long = drawn(kind, 3000, 5);
        const wanted = authors(long);
        const lines = wanted.flatMap((it, k) => (it && k % 29 === 0 ? [k + 1] : []));
        await withLog(page, long);
        const found = await page.run(async (lines) => {
            const found = [];
            for (const line of lines) found.push(await log.beside.ask({ ask: "granule", line }));
            return found;
        }, lines);
        lines.forEach((line, k) => {
            same([found[k].wrote, found[k].cleared], [wanted[line - 1].wrote, wanted[line - 1].cleared], `${kind}: the memory of line ${line}`);
            compared++;
        });
    }
    check(compared > 60, `${compared} lines compared`);
    return `${compared} lines compared`;
}

// Logs with one refused line, the last, and what is said of it.
const SENTENCES = [
    [text("examples/kept_tag.log"), "It records tag 1; the rules clear it: the request ends one byte above c3's bounds."],
    [text("examples/wrong_result.log"), "It records permissions 0x00078fff; the rules give permissions 0x00078ffe."],
    [text("examples/escaped_bound.log"), "The request ends one byte above c3's bounds."],
    [text("examples/stale_tag.log"), "It records tag 1; memory holds tag 0."],
    [text("examples/cleared_used.log"), "c4 has no tag."],
    [text("examples/local_stored.log"), "c4 has a tag and lacks Global, and c5 lacks Store Local Capability."],
    [`${ROOT}setboundsexact c2 c1 0000000000001001 = 1 ${WHOLE}0000000000000000\n`, "Rounded, the request ends 7 bytes above what it asks for."],
    ["root c1 ffff1ffffbffd0000000000000001000\nsetaddr c2 c1 0000000000008000 = 1 ffff1ffffbffd0000000000000008000\n",
        "0x8000 isn't an address that keeps c1's bounds: these are 0x800 up to 0x4800."],
    ["root c1 ffff1ffffbffd0000000000000001000\nload c1 -8 8 = 0000000000000000\n", "The access begins 8 bytes below c1's bounds."],
    ["root c1 ffff1ffffbffd0000000000000001000\nload c1 1 8 = 0000000000000000\n", "The address 0x1001 isn't a multiple of 8."],
    ["root c1 00041ffffc0180040000000000000000\nstore c1 0 1 00\n", "c1 lacks Store."],
    ["root c1 ffff1fffdc0180040000000000000000\nsetaddr c2 c1 0000000000000001 = 1 ffff1fffdc0180040000000000000001\n",
        "c1 is sealed with type 0x3fffb."],
    [`${ROOT}setaddr c2 c1 0000000000000010 = 1 ${WHOLE}0000000000000020\n`, "It records address 0x20; the rules give address 0x10."],
    [`${ROOT}setaddr c2 c1 000000000003fffc = 1 ${WHOLE}000000000003fffc\nseal c3 c1 c2 = 1 ${WHOLE}0000000000000000\n`,
        "c2's address, 0x3fffc, is above the greatest object type."],
    [`${ROOT}end 3\n`, "It says 3 steps; the log has 0."],
    [`${ROOT}${ROOT}`, "c1 has a root already."],
    ["root c1 ffff1ffffc01a0030000000000000000\n", "Its word isn't sound: the top, 0x18000000000000000, lies above 2^64, where addresses end."],
    [`${ROOT}move c2 c1 = 1 0${WHOLE.slice(1)}0000000000000000\n`, "It records permissions 0x00000fff; the rules give permissions 0x00078fff."],
    [`${ROOT}move c2 c1 = 1 ffff1ffff80810000000000000001000\n`, "It records bounds 0x1000 up to 0x1020; "
        + "the rules give bounds 0x0 up to 0x10000000000000000."],
    [`${ROOT}move c2 c1 = 0 0fff1ffff80810000000000000001000\n`,
        "It records tag 0; the rules give tag 1."],
    ["sealed\n", "No line begins with “sealed”; “seal” does."],
].map(([log, says]) => [log.startsWith("capcheck") ? log : `capcheck 1\n${log}`, says]);

/** The sentence, what the rules give beside what is recorded, and the wrong field in view at each width. */
export async function faultIsSaid(page) {
    for (const [log, says] of SENTENCES) {
        await withLog(page, log);
        const got = await page.run(() => document.querySelector("#verdict span").textContent);
        same(got, says, `the sentence of ${log.trimEnd().split("\n").at(-1)}`);
    }
    const wrong = [text("examples/kept_tag.log"), text("examples/wrong_result.log"), text("examples/stale_tag.log")];
    for (const [width, height] of [[360, 800], [600, 800], [1280, 900]]) {
        await page.size(width, height, width === 360);
        for (const log of wrong) {
            await page.go(address + hash({ show: "log", text: log, line: "" }));
            await page.run(tools);
            await page.run(settled);
            await page.run(() => globalThis.settled());
            const got = await page.run(() => {
                const box = (it) => it.getBoundingClientRect();
                const marks = [...document.querySelectorAll("#verdict mark")].map(box);
                const cards = [...document.querySelectorAll("#why > .cards.two > .card")].map(box);
                const code = box(byId("code"));
                const listed = [...document.querySelectorAll("#code mark")].map(box);
                const isIn = (it) => it.left >= 0 && it.right <= innerWidth && it.top >= 0 && it.bottom <= innerHeight;
                return [
                    marks.length > 0 && marks.every(isIn), cards.length,
                    cards[0].top === cards[1].top && cards[0].right <= cards[1].left && cards.every((it) => it.right <= innerWidth),
                    byId("why").firstElementChild.matches(".cards.two"), listed.every((it) => it.left >= code.left && it.right <= code.right),
                    innerWidth < 1000 || cards.every(isIn), byId("why").querySelectorAll(".differs").length > 1
                ];
            });
            same(got, [true, 2, true, true, true, true, true], `${width} pixels: what is wrong is in view`);
        }
    }
    await page.size(1000, 1200);
}

/** The link of a log has its verdict, whatever bytes the log has. */
export async function linksKeepVerdicts(page) {
    const log = text("examples/moves.log");
    const logs = [
        log, `\xef\xbb\xbf${log}`, log.replaceAll("\n", "\r\n"), log.replace("\n", " \n"), log.replace("move", "\0move"),
        log.replace("move", "mo\xe9ve"), log.trimEnd(), `\xff\xfe${[...log].map((it) => `${it}\0`).join("")}`, `${log}\n`, `\t${log}`,
    ];
    for (const given of logs) {
        await withLog(page, given);
        await page.run(copies);
        const [verdict, link] = await page.run(async () => {
            byId("copy-link").click();
            while (copied.length === 0) await new Promise((done) => setTimeout(done, 5));
            return [log.judged.text, copied[0]];
        });
        await page.go(link);
        await page.run(tools);
        await page.run(settled);
        await page.run(() => globalThis.settled());
        same(await page.run(() => log.judged.text), verdict, `the link of ${JSON.stringify(given.slice(0, 24))} has its verdict`);
    }
}

/** Bytes that keep a text from being a log: one verdict by whatever way it comes, a sentence, and a button. */
export async function oddBytesAreSaid(page) {
    const log = text("examples/moves.log");
    const cases = [
        [log.replaceAll("\n", "\r\n"), "no 1 1 BadHeader",
            "The log has lines that end in CR LF. Without the carriage returns its verdict is yes 2 1. Judge it so"],
        [`\xef\xbb\xbf${log}`, "no 1 1 BadHeader",
            "The log begins with a byte order mark. Without the byte order mark its verdict is yes 2 1. Judge it so"],
        [log.replace("move c2", "move\tc2"), "no 3 3 BadLine",
            "The log has tabs. With spaces in place of the tabs its verdict is yes 2 1. Judge it so"],
        [log.replace("ffff1ffffc018004", "FFFF1FFFFC018004"), "no 2 3 BadLine",
            "The log has upper-case letters. In lower case its verdict is yes 2 1. Judge it so"],
        [log.trimEnd(), "no 5 5 Truncated",
            "The log has no line feed at its end. With a last line feed its verdict is yes 2 1. Judge it so"],
        [text("examples/escaped_bound.log").replaceAll("\n", "\r\n").trimEnd(), "no 1 1 BadHeader",
            "The log has lines that end in CR LF and has no line feed at its end. Without the carriage returns and with a last line feed "
                + "its verdict is no 5 11 BoundsEscape. Judge it so"],
    ];
    for (const [given, verdict, says] of cases) {
        await withLog(page, given);
        await rest(150);
        const shown = await page.run(() => [log.judged.text.split("\n")[0], byId("evened").hidden ? "" : seen("evened")]);
        same(shown, [verdict, says], `odd bytes: ${verdict}`);
        const pasted = await page.run(async (bytes) => {
            const given = new DataTransfer();
            given.setData("text", new TextDecoder("utf-8", { ignoreBOM: true }).decode(bytesOf8(bytes)));
            log.judged = null;
            document.body.dispatchEvent(new ClipboardEvent("paste", { clipboardData: given, bubbles: true, cancelable: true }));
            await new Promise((done) => setTimeout(done, 20));
            await globalThis.settled();
            await new Promise((done) => setTimeout(done, 100));
            return [log.judged.text.split("\n")[0], byId("evened").hidden ? "" : seen("evened")];
        }, given);
        same(pasted, [verdict, says], `pasted it has the same verdict: ${verdict}`);
        const after = await page.run(async () => {
            const wanted = log.evened.verdict;
            byId("evened").querySelector("button").click();
            await new Promise((done) => setTimeout(done, 30));
            await globalThis.settled();
            return [log.judged.text.split("\n")[0] === wanted, byId("evened").hidden];
        });
        same(after, [true, true], "the button judges it so");
    }
    for (const given of [text("examples/no_mode.log"), log.slice(0, -9), "Hello\n"]) {
        await withLog(page, given);
        await rest(100);
        same(await page.run(() => byId("evened").hidden), true, "nothing odd explains another refusal");
    }
}

/** Operands first, the next use of a register, the line that made it, a text, and marked lines. */
export async function linesAreFound(page) {
    await withLog(page, text("examples/sealing.log").replace("end 4", "end 5"));
    const lines = text("examples/sealing.log").split("\n");
    const now = async () => {
        await rest(150);
        await page.run(() => globalThis.settled());
        return page.run(() => byId("line").value);
    };
    await page.run(() => stepTo(6));
    await now();
    const [, , source, authority] = lines[5].split(" ");
    const held = await page.run(() => [...document.querySelectorAll("#held th")].map((it) => it.textContent));
    same(held.slice(0, 2).sort(), [source, authority].sort(), `the operands of ${lines[5]} come first`);
    check(held.length > 2, "the other registers follow");
    await page.run(() => stepTo(2));
    await now();
    await page.run(() => stepTo(3));
    await now();
    const uses = lines.findIndex((it, k) => k > 2 && it.split(" ").slice(2, 4).includes("c1")) + 1;
    await page.run(() => document.querySelector("#held [aria-label='next line that uses c1']").click());
    same(await now(), String(uses), "the next line that uses c1");
    await page.run(() => [...document.querySelectorAll("#held tr")].find((it) => it.cells[0].textContent === "c1").querySelector("button").click());
    same(await now(), "2", "the line that made c1");
    await page.run(() => stepTo(6));
    await now();
    const last = await page.run(async () => {
        document.querySelector("#held [aria-label^='next line that uses']").click();
        await new Promise((done) => setTimeout(done, 50));
        return seen("way");
    });
    check(/^No line after 6 uses c\d+\.$/.test(last), last);
    const search = async (what, id) => {
        await page.run((what, id) => {
            type("search", what);
            byId(id).click();
        }, what, id);
        return [await now(), await page.run(() => seen("way"))];
    };
    await page.run(() => stepTo(1));
    await now();
    same(await search("seal ", "find-next"), [String(lines.findIndex((it) => it.startsWith("seal")) + 1),
        `Line ${lines.findIndex((it) => it.startsWith("seal")) + 1} has it.`], "the next line with a text");
    const ends = lines.findIndex((it) => it.startsWith("end")) + 1;
    await page.run(() => stepTo(2));
    await now();
    same(await search("end", "find-back"), [String(ends), `Line ${ends} has it. It is the last one of the log.`], "the line before, from the end");
    same((await search("nowhere", "find-next"))[1], "No line has “nowhere”.", "a text that no line has");
    // Marks are jumped to, and stay in the link.
    await page.run(() => stepTo(3));
    await now();
    await page.run(() => byId("mark").click());
    await now();
    await page.run(() => stepTo(5));
    await now();
    await page.run(() => byId("mark").click());
    await now();
    const marked = () => page.run(() => [...document.querySelectorAll("#marks button")].map((it) => it.textContent));
    const fault = await page.run(() => log.judged.line);
    same(await marked(), ["line 3", "line 5", `line ${fault}, refused`], "the marked lines and the refused one");
    await page.run(() => document.querySelector("#marks button").click());
    same(await now(), "3", "a jump to a marked line");
    await page.run(() => [...document.querySelectorAll("#marks button")].at(-1).click());
    same(await now(), String(fault), "a jump to the refused line");
    await rest(500);
    const link = await page.run(() => location.href);
    check(link.endsWith("&marks=3%2C5"), `the link has the marks: ${link.slice(-60)}`);
    await page.go(link);
    await page.run(tools);
    await page.run(settled);
    await page.run(() => globalThis.settled());
    same(await marked(), ["line 3", "line 5", `line ${fault}, refused`], "the link restores the marks");
    await page.run(() => stepTo(3));
    await now();
    await page.run(() => byId("mark").click());
    await now();
    same(await marked(), ["line 5", `line ${fault}, refused`], "a mark is taken away");
}
