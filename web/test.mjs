// The page in a browser: see test.sh. What is expected comes from examples/, the header, conformance/vectors.py and docs/.
import fs from "node:fs";
import path from "node:path";

import * as answers from "./tests/answers.mjs";
import { Browser } from "./tests/browser.mjs";
import * as ease from "./tests/ease.mjs";
import * as faults from "./tests/faults.mjs";
import { address, capability, count, file, hash, same, STATES, text, tools } from "./tests/given.mjs";
import * as heaps from "./tests/heaps.mjs";
import * as logs from "./tests/logs.mjs";
import * as module from "./tests/module.mjs";
import * as pasting from "./tests/pasting.mjs";
import * as drawings from "./tests/pictures.mjs";
import * as runs from "./tests/runs.mjs";
import * as shown from "./tests/shown.mjs";
import * as stepping from "./tests/stepping.mjs";
import * as use from "./tests/use.mjs";

// Each group of checks takes the page, and may say something of what it saw.
const GROUPS = {
    vectorsAreShown: answers.vectorsAreShown,
    wordsAreExplained: answers.wordsAreExplained,
    layoutIsTheHeaders: answers.layoutIsTheHeaders,
    logsAreFollowed: answers.logsAreFollowed,
    refusalsAreNamed: answers.refusalsAreNamed,
    badInputIsRefused: answers.badInputIsRefused,
    logsAreJudged: logs.logsAreJudged,
    longLogsAreJudged: logs.longLogsAreJudged,
    logsAreOpened: stepping.logsAreOpened,
    linesAreStepped: stepping.linesAreStepped,
    shortLogsAreJudged: stepping.shortLogsAreJudged,
    logsAreKept: stepping.logsAreKept,
    logsAreUsable: stepping.logsAreUsable,
    changedJudges: stepping.changedJudges,
    linksHoldLogs: faults.linksHoldLogs,
    shortestIsMinimal: faults.shortestIsMinimal,
    memoryHasAuthors: faults.memoryHasAuthors,
    faultIsSaid: faults.faultIsSaid,
    linksKeepVerdicts: faults.linksKeepVerdicts,
    oddBytesAreSaid: faults.oddBytesAreSaid,
    linesAreFound: faults.linesAreFound,
    runsAreJudged: runs.runsAreJudged,
    runsHaveOptions: runs.runsHaveOptions,
    objectsAreDrawn: runs.objectsAreDrawn,
    runsAreUsable: runs.runsAreUsable,
    picturesAreDrawn: drawings.picturesAreDrawn,
    picturesAreGiven: drawings.picturesAreGiven,
    longPicturesAreDrawn: drawings.longPicturesAreDrawn,
    picturesLead: drawings.picturesLead,
    heapsAreJudged: heaps.heapsAreJudged,
    liveObjectsAreDrawn: heaps.liveObjectsAreDrawn,
    heapsAreUsable: heaps.heapsAreUsable,
    formlessIsSaid: ease.formlessIsSaid,
    othersAreKnown: ease.othersAreKnown,
    focusIsKept: ease.focusIsKept,
    notesAreFresh: ease.notesAreFresh,
    forcedColours: ease.forcedColours,
    largeText: ease.largeText,
    verdictIsInView: shown.verdictIsInView,
    excessIsDrawn: shown.excessIsDrawn,
    offsetsAreInRange: shown.offsetsAreInRange,
    requestsAreMadeExact: shown.requestsAreMadeExact,
    wordsAreGlossed: shown.wordsAreGlossed,
    pageIsKept: shown.pageIsKept,
    ticksAreDrawn: shown.ticksAreDrawn,
    pastedIsTaken: pasting.pastedIsTaken,
    dumpsAreRead: pasting.dumpsAreRead,
    putRight: pasting.putRight,
    linksRestore: use.linksRestore,
    addressMoves: use.addressMoves,
    usableByKeys: use.usableByKeys,
    everythingHasAName: use.everythingHasAName,
    contrastSuffices: use.contrastSuffices,
    fitsTheScreen: use.fitsTheScreen,
    nothingIsFetched: module.nothingIsFetched,
    withoutAnEngine: module.withoutAnEngine,
    changedModules: module.changedModules,
};

const logOf = (name, line = "") => hash({ show: "log", text: text(`examples/${name}.log`), line });

// Pictures to look at: name, width, scheme, state.
const PICTURES = [
    ["light", 1000, "light", STATES[0]],
    ["dark", 1000, "dark", STATES[1]],
    ["narrow", 360, "light", STATES[1]],
    ["request", 1000, "light", STATES[8]],
    ["request-dark-narrow", 360, "dark", STATES[8]],
    ["operation", 1000, "dark", STATES.at(-1)],
    ["operation-narrow", 360, "light", STATES.at(-1)],
    ["wrapped", 1000, "light", STATES[4]],
    ["unsound", 1000, "light", STATES[3]],
    ["narrow-bad", 360, "light", capability("12g")],
    ["log", 1280, "light", logOf("kept_tag")],
    ["log-dark", 1280, "dark", logOf("wrong_result")],
    ["log-narrow", 360, "light", logOf("local_stored")],
    ["run", 1280, "light", hash({ show: "log", text: text("conformance/runs/36-of-the-second.log"), line: "" })],
    ["run-dark-narrow", 390, "dark", hash({ show: "log", text: text("conformance/runs/36-of-the-second.log"), line: "" })],
    ["heap", 1280, "light", hash({ show: "log", text: text("conformance/heaps/24.41-28-by-rounding-of-the-new-object.log"), line: "" })],
    ["log-yes-narrow", 360, "dark", logOf("memory", "9")],
    [
        "dump", 1000, "dark",
        capability(
            "c1: 0x1 0xffff1ffffbffd000 0x0000000000001000\nc2 0 ffff1fffdc0180040000000000000000\n0x1800 [rwRW,0x1000-0x2000]",
            { which: "2" })
    ],
];

/** Pictures of the head of the page, with an address that would lose the bounds, and with a log: docs/page_log.png. */
async function picturesOfHeads(page) {
    await page.scheme("light");
    for (const [name, width, height, link] of [
             ["page.png", 900, 850, capability("003d1ffffc1a13910000000000013c08", { to: "19400" })],
             ["page_log.png", 960, 880, logOf("kept_tag")]]) {
        await page.size(width, height);
        await page.go(address + link);
        await page.run(quiet);
        await page.picture(file(`web/out/pictures/${name}`), false);
    }
}

/** Waits until a log that is shown is judged. */
const quiet = async () => {
    for (let k = 0; k < 500 && view === "log" && !log.at; k++) await new Promise((done) => setTimeout(done, 10));
    await new Promise((done) => setTimeout(done, 200));
};

async function pictures(page) {
    const folder = file("web/out/pictures");
    fs.mkdirSync(folder, { recursive: true });
    for (const [name, width, scheme, link] of PICTURES) {
        await page.size(width, 900, width === 360);
        await page.scheme(scheme);
        await page.go(address + link);
        await page.run(quiet);
        await page.picture(path.join(folder, `${name}.png`));
    }
}

async function main() {
    const browser = Browser.start();
    try {
        const page = await browser.open(address);
        for (const [name, group] of Object.entries(GROUPS)) {
            // ONLY names parts of groups, with commas between them.
            if (!(process.env.ONLY ?? "").split(",").some((part) => name.includes(part))) continue;
            const before = count.passed + count.failed;
            await page.size(1000, 1200);
            await page.go(address);
            await page.run(tools);
            const said = await group(page);
            const faults = page.faults.splice(0).filter((fault) => !/data:,x|Fetch API/.test(fault));
            same(faults, [], `${name}: faults in the browser's console`);
            console.log(`${name}: ${count.passed + count.failed - before} checks${said ? `, ${said}` : ""}`);
        }
        await pictures(page);
        await picturesOfHeads(page);
    } finally {
        await browser.end();
    }
    console.log(`${count.passed} passed, ${count.failed} failed`);
    process.exit(count.failed ? 1 : 0);
}

await main();
