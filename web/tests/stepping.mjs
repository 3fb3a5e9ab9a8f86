// A log on the page: how it is opened, gone through line by line, shortened and used.
import { execFileSync } from "node:child_process";
import fs from "node:fs";
import os from "node:os";
import path from "node:path";
import zlib from "node:zlib";
import { pathToFileURL } from "node:url";

import { address, built, check, file, hash, root, same, text, tools } from "./given.mjs";
import { CAPCHECK, CAPDIAG, drawnLogs, examples, opened, printed, settled } from "./logs.mjs";
import { contrasts, overlaps } from "./use.mjs";

const state = (name, line = "") => hash({ show: "log", text: text(`examples/${name}.log`), line });

/** The page at a link of a log, once it is judged. */
async function at(page, link) {
    await page.go(address + link);
    await page.run(tools);
    await page.run(settled);
    await page.run(() => globalThis.settled());
}

export async function logsAreOpened(page) {
    await page.run(settled);
    const log = text("examples/wrong_result.log");
    const ways = await page.run(async (text) => {
        const says = [];
        const done = async (act) => {
            byId("text").value = "";
            changed();
            act();
            await new Promise((done) => setTimeout(done, 30));
            await globalThis.settled();
            says.push(seen("verdict").slice(0, 54));
        };
        const paste = (where, what) => {
            const given = new DataTransfer();
            given.setData("text", what);
            where.dispatchEvent(new ClipboardEvent("paste", { clipboardData: given, bubbles: true, cancelable: true }));
        };
        const drop = (what) => {
            const given = new DataTransfer();
            given.setData("text", what);
            document.body.dispatchEvent(new DragEvent("drop", { dataTransfer: given, bubbles: true, cancelable: true }));
        };
        await done(() => paste(document.body, text));
        await done(() => paste(byId("text"), text));
        await done(() => paste(byId("word"), text));
        await done(() => drop(text));
        await done(() => type("text", text));
        await done(() => document.querySelector("[data-log=wrong_result]").click());
        return says;
    }, log);
    same(ways, Array(6).fill("No: line 6 is refused: 23 WrongResult. It records perm"), "pasted, dropped, typed, as an example");
    same(await page.run(() => view), "log", "a log that is pasted turns to its part");
    await new Promise((done) => setTimeout(done, 500));
    const link = await page.run(() => location.href);
    check(link === address + state("wrong_result", 6), `the link has a small log: ${link}`);
    await at(page, state("wrong_result", 4));
    same(await page.run(() => [seen("verdict").slice(0, 23), byId("line").value,
                            document.querySelector("[aria-selected=true]").dataset.line]),
        ["No: line 6 is refused: ", "4", "4"], "the link is restored");
    const without = await page.run(async (text) => {
        await dropped(bytesOf8(text.slice(0, -1)), "cut.log");
        const first = [log.judged.text.split("\n")[0], seen("code").includes("the bytes end here")];
        await dropped(bytesOf8(""), "nothing.log");
        const second = [log.judged.text.split("\n")[0], seen("code").includes("the bytes end here")];
        await dropped(bytesOf8(`${text}\xff\x00<b>\\`), "more.log");
        return [first, second, [log.judged.text.split("\n")[0], document.querySelector("#code .at-fault")?.textContent]];
    }, text("examples/moves.log"));
    same(without, [["no 5 5 Truncated", false], ["no 1 5 Truncated", true], ["no 6 4 Misplaced", "6\\xff\\x00<b>\\x5c"]],
        "cut, empty, other bytes");
    // A long log is read, stopped, and another opened.
    const folder = fs.mkdtempSync(path.join(os.tmpdir(), "capcheck-logs-"));
    try {
        const name = path.join(folder, "long.log");
        fs.writeFileSync(name, execFileSync("sh", ["bench/million.sh", "mixed"], { cwd: root, maxBuffer: 1 << 28 }));
        const { says } = await opened(page, name);
        check(says.includes("Yes"), says);
        await page.run(() => byId("stop").click());
        const told = await page.run(async () => {
            openLog(new Blob([new Uint8Array(5e7)]), "big.log");
            const works = [!byId("work").hidden, seen("doing").includes("50.0 MB"), byId("progress").labels.length];
            byId("stop").click();
            const stopped = [byId("work").hidden, results()];
            document.querySelector("[data-log=memory]").click();
            await new Promise((done) => setTimeout(done, 30));
            await globalThis.settled();
            return [...works, ...stopped, seen("verdict").slice(0, 4)];
        });
        same(told, [true, true, 1, true, 0, "Yes:"], "progress, stopped, and another log");
    } finally {
        fs.rmSync(folder, { recursive: true });
    }
    const fetched = page.requests.filter((url) => !/^(data|blob|file|about):/.test(url));
    same(fetched, [], "nothing is fetched");
    const stopped = await page.run(() => new Promise((done) => {
        const worker = new Worker(URL.createObjectURL(
            new Blob(["fetch('data:,x').then(() => postMessage('went through'), () => postMessage('stopped'))"])));
        worker.onmessage = ({ data }) => done(data);
    }));
    same(stopped, "stopped", "a fetch from a worker");
}

/** What the page says that registers and granules hold before a line, beside what the program says of it. */
export async function linesAreStepped(page) {
    await page.run(settled);
    const drawn = await drawnLogs(page, 60);
    const logs = [...examples.map((name) => text(`examples/${name}`)), ...drawn];
    const NULL = `0 00001ffffc018004${"0".repeat(16)}`;
    let registers = 0;
    let granules = 0;
    for (const log of logs) {
        const verdict = printed(CAPCHECK, ["judge"], log).split(" ");
        const lines = log.split("\n");
        const last = verdict[0] === "yes" ? lines.length - 1 : Math.min(Number(verdict[1]), lines.length - 1);
        const first = lines[0] === "capcheck 2" ? 3 : 2;
        if (last <= first) continue;
        const isAccess = (it, k) => k >= first && k < last && /^(lc|sc|load|store) /.test(it);
        const access = lines.flatMap((it, k) => (isAccess(it, k) ? [k + 1] : []));
        for (const line of new Set([last, first + 1 + (log.length % (last - first)), ...access.slice(-2)])) {
            const shown = await page.run(async (text, line) => {
                if (log.textOf !== text) await dropped(bytesOf8(text), "given.log");
                log.textOf = text;
                stepTo(line);
                await globalThis.settled();
                await new Promise((done) => setTimeout(done, 90));
                for (let k = 0; k < 200 && /^(lc|sc|load|store) /.test(log.at.texts[line - log.at.from] ?? "") && !log.granule;
                     k++)
                    await new Promise((done) => setTimeout(done, 5));
                return Object.fromEntries([...document.querySelectorAll("#held tr")].map(
                    (it) => [it.cells[0].textContent, it.querySelector("a").textContent]));
            }, log, line);
            const before = `${lines.slice(0, line - 1).join("\n")}\n`;
            const said = (step) => printed(CAPDIAG, ["why"], before + step).match(/^source (\S+) ([01] \S+)$/m);
            // The end line's state is the last one.
            if (/^end/.test(lines[line - 2])) continue;
            for (const number of [1, 1 + (line % 8), 9]) {
                const found = ["0", "1"].map((digit) => said(`move c1 c${number} = 1 ${digit.repeat(32)}\n`)).find((it) => it);
                same(shown[`c${number}`] ?? NULL, found[2], `c${number} before line ${line} of ${before.slice(0, 60)}`);
                registers++;
            }
            const [kind, one, two, three] = lines[line - 1].split(" ");
            const reached = { lc: [two, three], sc: [two, three], load: [one, two], store: [one, two] }[kind];
            const found =
                reached &&
                ["0", "1"].map((digit) => said(`lc c1 ${reached.join(" ")} = 1 ${digit.repeat(32)}\n`)).find((it) => it);
            if (!found) continue;
            same(shown[found[1]], found[2], `${found[1]} before line ${line}`);
            granules++;
        }
    }
    check(registers > 150 && granules >= 20, `${registers} registers and ${granules} granules were compared`);
    // Links lead from a line to its operation, and from a register to its capability.
    await at(page, state("escaped_bound", 5));
    const [marked, operation, capability] = await page.run(() => {
        const marked = [...document.querySelectorAll("#code mark")].map((it) => it.textContent);
        document.querySelector("#step-link a").click();
        return new Promise((done) => setTimeout(() => {
            const operation = [view, document.querySelector(".outcome").innerText];
            history.back();
            setTimeout(() => {
                document.querySelector("#held a").click();
                setTimeout(() => done([marked, operation, [view, rows("lines").word]]), 100);
            }, 200);
        }, 100));
    });
    same(marked, ["0000000000000021"], "the length is marked");
    check(
        operation[0] === "operation" && operation[1].includes("11 BoundsEscape") && operation[1].includes("0x1000 up to 0x1021"),
        `the step: ${operation}`);
    same(capability, ["capability", "ffff1ffff80810000000000000001000"], "the capability of an operand");
    for (const [name, wanted] of [["wrong_result", ["f"]], ["kept_tag", ["1"]], ["local_stored", ["c2"]],
             ["cleared_used", ["c4"]], ["no_mode", null]]) {
        await at(page, state(name));
        const found = await page.run(() => [...document.querySelectorAll("#code .at-fault mark")].map((it) => it.textContent));
        const line = printed(CAPDIAG, ["why"], text(`examples/${name}.log`)).match(/^line (.*)$/m)[1];
        if (wanted?.[0] === "c2" || wanted?.[0] === "c4")
            check(found.length === 1 && line.split(" ").includes(found[0]), `${name}: marked ${found} of ${line}`);
        else same(found, wanted ?? [line], `${name}: marked`);
    }
    const rounded = "capcheck 1\nroot c1 ffff1ffffc0180040000000000000000\n"
        + "setaddr c2 c1 0000000000001000 = 1 ffff1ffffc0180040000000000001000\n"
        + "setbounds c4 c2 0000000000001001 = 1 ffff1ffffc0010000000000000001000\nend 2\n";
    for (const [log, wanted] of [
             [text("examples/wrong_result.log"), ["e", "permissions 0x00078ffe", "f", "permissions 0x00078fff", "differs: perms"]],
             [text("examples/kept_tag.log"), ["no tag", "tag cleared: 11 BoundsEscape", "tag 1", "differs: tag"]],
             [rounded, ["2", "bounds 0x1000 up to 0x2008", "0", "bounds 0x1000 up to 0x2000", "differs: t"]],
         ]) {
        const red = await page.run(async (given) => {
            await dropped(bytesOf8(given), "given.log");
            return [...document.querySelectorAll(".card .differs")].map((it) => it.textContent);
        }, log);
        same(red, wanted, "what differs is red");
    }
    return `${registers} registers and ${granules} granules`;
}

export async function shortLogsAreJudged(page) {
    await page.run(settled);
    const drawn = await drawnLogs(page, 120);
    let shorter = 0;
    let none = 0;
    for (const log of [...examples.map((name) => text(`examples/${name}`)), ...drawn]) {
        const wanted = printed(CAPDIAG, ["why"], log);
        if (wanted.startsWith("yes")) continue;
        const made = await page.run(async (given) => {
            await dropped(bytesOf8(given), "given.log");
            byId("find-shortest").click();
            while (!log.made) await new Promise((done) => setTimeout(done, 2));
            return { ...log.made, says: seen("shortest-says"), saved: byId("save-shortest").href.startsWith("blob:") };
        }, log);
        if (!made.text) {
            none++;
            continue;
        }
        const again = printed(CAPDIAG, ["why"], made.text);
        const refusal = wanted.split("\n")[0].split(" ")[3];
        same(again.split("\n")[0].split(" ").slice(2), wanted.split("\n")[0].split(" ").slice(2), `the same refusal: ${made.text}`);
        same(again.split("\n")[1], wanted.split("\n")[1], "the same line");
        const rest = (report) => report.split("\n").slice(2).filter((it) => !/^\w+ origin /.test(it));
        if (!["Misplaced", "Truncated", "WrongCount", "LimitPassed"].includes(refusal))
            same(rest(again), rest(wanted), "the same report, except for origins");
        check(made.isShortest, `nothing can be left out of ${made.text}`);
        check(made.saved && made.says.includes(again.split("\n")[0]) && made.text.length <= log.length + 14, `${made.says}`);
        shorter++;
    }
    check(shorter >= 80 && none <= 4, `${shorter} short logs, and none for ${none}`);
    // Of a long log with a fault at its end, a few lines are left.
    const long = execFileSync("python3", ["bench/random_log.py", "mixed", "100000"], { cwd: root, maxBuffer: 1 << 28 }).toString()
        .replace(/end \d+\n$/, "lc c20 c1 0 = 1 0000000000000000ffffffffffffffff\n");
    const [took, lines, verdict] = await page.run(async (given) => {
        await dropped(bytesOf8(given), "long.log");
        const began = performance.now();
        byId("find-shortest").click();
        while (!log.made) await new Promise((done) => setTimeout(done, 2));
        return [performance.now() - began, log.made.lines, log.made.verdict];
    }, long);
    check(took < 3000 && lines < 20 && verdict.includes("23 WrongResult"), `a long one: ${took} ms, ${lines} lines, ${verdict}`);
    return `${shorter} short logs, none for ${none}; a long one ${lines} lines in ${Math.round(took)} ms`;
}

// The shortest log with the fault of wrong_result.log: both operands are roots.
const SHORT = "capcheck 1\nroot c3 ffff1fffdc0180040000000000000000\nroot c4 fffe1ffffc018004000000000003fffb\n"
    + "unseal c5 c3 c4 = 1 ffff1ffffc0180040000000000000000\n";

/** What is copied and saved. */
export async function logsAreKept(page) {
    const folder = fs.mkdtempSync(path.join(os.tmpdir(), "capcheck-saved-"));
    try {
        await page.browser.send("Browser.setDownloadBehavior", { behavior: "allow", downloadPath: folder });
        await at(page, state("wrong_result"));
        const kept = await page.run(async () => {
            const copied = [];
            Object.defineProperty(navigator, "clipboard", { value: { writeText: async (it) => copied.push(it) }, configurable: true });
            byId("copy-report").click();
            byId("find-shortest").click();
            while (!log.made) await new Promise((done) => setTimeout(done, 5));
            byId("copy-shortest").click();
            byId("save-shortest").click();
            await new Promise((done) => setTimeout(done, 20));
            return [...copied, seen("said")];
        });
        const report = printed(CAPDIAG, ["why"], text("examples/wrong_result.log"));
        same(kept, [report, SHORT, "Log copied."], "the report and the short log are copied");
        const saved = path.join(folder, "shortest.log");
        for (let k = 0; k < 200 && !fs.existsSync(saved); k++) await new Promise((done) => setTimeout(done, 20));
        same(fs.readFileSync(saved, "utf8"), SHORT, "the short log is saved");
        await at(page, state("origins"));
        const origins = await page.run(async () => {
            const copied = [];
            Object.defineProperty(navigator, "clipboard", { value: { writeText: async (it) => copied.push(it) }, configurable: true });
            byId("origins").open = true;
            while (!log.origins) await new Promise((done) => setTimeout(done, 5));
            byId("copy-origins").click();
            return copied;
        });
        same(origins, [printed(CAPCHECK, ["judge", "--origins"], text("examples/origins.log"))], "the origins are copied");
    } finally {
        fs.rmSync(folder, { recursive: true });
    }
}

/** All of it by keys, with names, contrast and on narrow and wide screens in light and dark. */
export async function logsAreUsable(page) {
    await at(page, state("wrong_result"));
    const wanted = await page.run(() => [...document.querySelectorAll("button, input, textarea, select, summary, a[href], [tabindex='0']")]
        .filter((it) => visible(it) && !it.disabled).map((it) => it.id || it.dataset.view || it.dataset.log || it.textContent));
    const reached = [];
    for (let k = 0; k < wanted.length; k++) {
        await page.key("Tab");
        const [name, style] = await page.run(() => {
            const it = document.activeElement;
            return [it.id || it.dataset.view || it.dataset.log || it.textContent, getComputedStyle(it).outlineStyle];
        });
        reached.push(name);
        check(style !== "none", `focus is seen at ${name}`);
    }
    same(reached, wanted, "reached by Tab");
    await page.go(`${address}#show=log`);
    await page.run(tools);
    await page.run(settled);
    await page.run(() => document.querySelector("[data-log=escaped_bound]").focus());
    await page.key("Enter");
    await page.run(() => globalThis.settled());
    same(await page.run(() => seen("verdict").slice(0, 38)), "No: line 5 is refused: 11 BoundsEscape", "an example by Enter");
    await page.run(() => byId("code").focus());
    const lineNow = async () => {
        await new Promise((done) => setTimeout(done, 60));
        await page.run(() => globalThis.settled());
        return page.run(() => [byId("line").value, byId("code").getAttribute("aria-activedescendant"), document.activeElement.id]);
    };
    for (const [key, line] of [["ArrowUp", "4"], ["ArrowDown", "5"], ["Home", "1"], ["PageDown", "6"], ["End", "6"], ["PageUp", "1"]]) {
        await page.key(key);
        same(await lineNow(), [line, `line-${line}`, "code"], `${key} in the lines`);
    }
    await page.run(() => byId("to-fault").focus());
    await page.key("Enter");
    same((await lineNow())[0], "5", "to the fault by Enter");
    const { nodes } = await page.send("Accessibility.getFullAXTree");
    const named = ["textbox", "button", "link", "image", "listbox", "option", "progressbar", "region"];
    for (const { role, name } of nodes.filter((it) => !it.ignored && named.includes(it.role?.value))) {
        check((name?.value ?? "").trim() !== "", `${role.value} without a name`);
    }
    let least = Infinity;
    for (const dark of ["light", "dark"]) {
        await page.scheme(dark);
        for (const [width, height] of [[360, 800], [1280, 1000]]) {
            await page.size(width, height, width === 360);
            for (const name of examples.map((it) => it.slice(0, -4))) {
                await at(page, state(name));
                await page.run(async () => {
                    for (const it of document.querySelectorAll("#log details")) if (visible(it)) it.open = true;
                    if (visible(byId("find-shortest"))) byId("find-shortest").click();
                    for (let k = 0; k < 200 && log.judged.state === 2 && !log.made; k++) await new Promise((done) => setTimeout(done, 5));
                });
                same(await page.run(overlaps), [true, [], []], `${width} pixels: ${name}`);
                for (const [kind, which, ratio, enough] of await page.run(contrasts)) {
                    check(ratio >= enough, `${dark} ${kind} ${which}: contrast ${ratio.toFixed(2)} below ${enough}`);
                    if (kind === "text") least = Math.min(least, ratio);
                }
            }
        }
    }
    await page.scheme("light");
    await page.size(1000, 1200);
    return `least contrast of a text ${least.toFixed(2)}`;
}

/** With bytes of the judge's module changed the page says what the changed module answers, or that it failed. */
export async function changedJudges(page) {
    const bytes = fs.readFileSync(file("web/out/judge.wasm"));
    const html = fs.readFileSync(built, "utf8");
    const changed = file("web/out/changed.html");
    const shownWith = async (at, value) => {
        const other = Buffer.from(bytes);
        check(other[at] !== value, `byte ${at} is another`);
        other[at] = value;
        fs.writeFileSync(changed,
            html.replace(/(<script id="judge"[^>]*>)[^<]*/, (_, head) => head + zlib.gzipSync(other).toString("base64")));
        await page.go(pathToFileURL(changed).href + state("wrong_result"));
        await page.run(tools);
        await page.run(() => new Promise((done) => setTimeout(done, 1500)));
        return page.run(() => [seen("verdict"), results(), !byId("fault").hidden]);
    };
    const at = bytes.indexOf("WrongResult");
    check(at > 0, "the names are in the module's data");
    const [renamed, seenThen] = await shownWith(at, "V".charCodeAt(0));
    check(renamed.includes("23 VrongResult") && seenThen === 2, `a name comes from the module's data: ${renamed}`);
    const [, none, fault] = await shownWith(8, 0x7f);
    same([none, fault], [0, true], "a module that is none is refused");
    fs.rmSync(changed);
}
