// A log on the page, beside what the programs print of it.
import { execFileSync, spawnSync } from "node:child_process";
import fs from "node:fs";
import os from "node:os";
import path from "node:path";

import { drawing } from "./drawn.mjs";
import { check, file, root, same, text } from "./given.mjs";

export const CAPCHECK = process.env.CAPCHECK ?? file("crates/capcheck/out/capcheck");
export const CAPDIAG = process.env.CAPDIAG ?? file("crates/capdiag/out/capdiag");
export const examples = fs.readdirSync(file("examples")).filter((name) => name.endsWith(".log"));

/** What a program prints of a log: its verdict, and the report or the origins. */
export function printed(program, words, log) {
    const { stdout, error } = spawnSync(program, words, { input: Buffer.from(log, "latin1"), maxBuffer: 1 << 28 });
    // It reads nothing after a refused line.
    if (error && error.code !== "EPIPE") throw new Error(`${program}: ${error.message}; build it, or name one by CAPCHECK and CAPDIAG`);
    return stdout.toString();
}

const wantedOf = (log) => ({
    verdict: printed(CAPCHECK, ["judge"], log),
    report: printed(CAPDIAG, ["why"], log),
    origins: printed(CAPCHECK, ["judge", "--origins"], log),
});

/** Logs at random, the same ones each time. */
export async function drawnLogs(page, count) {
    await page.run(drawing);
    return page.run((most, others) => drawnLogs(most, others), count, examples.map((name) => text(`examples/${name}`)));
}

/** Waits until a log is judged and its line is shown. */
export const settled = () => {
    globalThis.settled = async () => {
        const still = () => !byId("work").hidden || !log.judged || !log.at || log.at.line !== log.line;
        for (let k = 0; k < 5000 && still(); k++) await new Promise((done) => setTimeout(done, 4));
        if (still()) throw new Error(`no verdict: ${dump().slice(0, 300)}`);
    };
    globalThis.dropped = async (bytes, name) => {
        const given = new DataTransfer();
        given.items.add(new File([bytes], name));
        log.judged = null;
        document.body.dispatchEvent(new DragEvent("drop", { dataTransfer: given, bubbles: true, cancelable: true }));
        await new Promise((done) => setTimeout(done, 4));
        await globalThis.settled();
    };
    globalThis.bytesOf8 = (text) => Uint8Array.from(text, (letter) => letter.charCodeAt(0));
};

/** What the page says of logs: the sentence, and the whole report as it is copied. */
const said = async (logs) => {
    const found = [];
    for (const it of logs) {
        await dropped(bytesOf8(it), "given.log");
        byId("origins").open = log.judged.state === 1;
        while (byId("origins").open && !log.origins) await new Promise((done) => setTimeout(done, 2));
        found.push([
            seen("verdict"), log.judged.text, seen("report-text"), byId("fault").hidden,
            log.origins ?? log.judged.text.split(/(?<=\n)/)[0],
            [...document.querySelectorAll("#origins-of li")].map((it) => it.textContent)
        ]);
    }
    return found;
};

function sentenceOf(verdict) {
    const [answer, first, second, third] = verdict.trim().split(" ");
    const decimal = (number) => number.replace(/\B(?=(\d{3})+$)/g, ",");
    const many = (number, what) => `${decimal(number)} ${what}${number === "1" ? "" : "s"}`;
    return answer === "yes" ? `Yes: a run of the machine. ${many(first, "step")} from ${many(second, "root")}.`
        : `No: line ${decimal(first)} is refused: ${second} ${third}. `;
}

export async function logsAreJudged(page) {
    await page.run(settled);
    const drawn = await drawnLogs(page, 200);
    const logs = [...examples.map((name) => text(`examples/${name}`)), ...drawn];
    const shown = await page.run(said, logs);
    const kinds = {};
    logs.forEach((log, k) => {
        const name = examples[k] ?? `random log ${k - examples.length}`;
        const wanted = wantedOf(log);
        const [sentence, report, visible, fine, origins, list] = shown[k];
        check(sentence.startsWith(sentenceOf(wanted.verdict)), `${name}: “${sentence}”, where the program has ${wanted.verdict}`);
        same(report, wanted.report, name);
        same(origins, wanted.origins, `${name}: origins`);
        const places = [...origins.matchAll(/^origin (\S+) (\S+)$/gm)].map(
            ([, place, from]) => `${place} descends from the root at ${from}`);
        if (places.length) same(list, places, `${name}: the list of origins`);
        check(visible === report && fine && report.startsWith(wanted.verdict), `${name}: it is seen`);
        const kind = wanted.verdict.split(" ")[3]?.trim() ?? "yes";
        kinds[kind] = (kinds[kind] ?? 0) + 1;
    });
    check(Object.keys(kinds).length >= 15, `verdicts of the logs: ${Object.keys(kinds)}`);
    return Object.entries(kinds).map(([kind, count]) => `${kind} ${count}`).join(", ");
}

/** A file of the disk is opened by the page's button: what it takes, and the longest time in which the page did nothing. */
export async function opened(page, name) {
    const { root: top } = await page.send("DOM.getDocument");
    const { nodeId } = await page.send("DOM.querySelector", { nodeId: top.nodeId, selector: "#file" });
    await page.run(() => {
        globalThis.gaps = [];
        let last = performance.now();
        globalThis.ticking = setInterval(() => {
            globalThis.gaps.push(performance.now() - last);
            last = performance.now();
        }, 5);
        log.judged = null;
        document.getElementById("file").addEventListener(
            "change", () => (globalThis.began = performance.now()), { capture: true, once: true });
    });
    await page.send("DOM.setFileInputFiles", { nodeId, files: [name] });
    return page.run(async () => {
        while (!log.judged || !log.at) await new Promise((done) => setTimeout(done, 5));
        const took = performance.now() - globalThis.began;
        clearInterval(globalThis.ticking);
        return { took, gap: Math.max(...globalThis.gaps), says: seen("verdict") };
    });
}

const LONG = ["moves", "mixed", "varied", "down"];

/** Logs of a million steps: the verdict within three seconds, while the page goes on, and any line within one. */
export async function longLogsAreJudged(page) {
    await page.run(settled);
    const folder = fs.mkdtempSync(path.join(os.tmpdir(), "capcheck-logs-"));
    const times = [];
    try {
        for (const kind of LONG) {
            const name = path.join(folder, `${kind}.log`);
            fs.writeFileSync(name, execFileSync("sh", ["bench/million.sh", kind], { cwd: root, maxBuffer: 1 << 28 }));
            const { took, gap, says } = await opened(page, name);
            check(says.startsWith("Yes: a run of the machine. 1,000,000 steps from 1 root."), `${kind}: ${says}`);
            check(took <= 3000, `${kind}: ${took} ms`);
            check(gap <= 250, `${kind}: the page did nothing for ${gap} ms`);
            const stepped = await page.run(async () => {
                const began = performance.now();
                stepTo(654321);
                await globalThis.settled();
                return [performance.now() - began, seen("code"), document.querySelectorAll("#held tr").length];
            });
            check(stepped[0] <= 1500 && stepped[1].includes("654,321") && stepped[2] > 1, `${kind}: stepped: ${stepped}`);
            times.push(`${kind} ${Math.round(took)} ms, longest gap ${Math.round(gap)}, a step ${Math.round(stepped[0])}`);
        }
    } finally {
        fs.rmSync(folder, { recursive: true });
    }
    return times.join("; ");
}
