"use strict";
// A log: how it is opened, and what is shown of what the judge beside the page says.

const SMALL = 4000; // as many letters of a log are in a link as they are
const AROUND = 6; // lines shown on either side of one
const FEW = 500; // origins shown

/** A worker with one log. What it tells goes to `told`; what it is asked is answered later. */
class Beside {
    constructor(blob, told, asks) {
        this.asked = new Map();
        this.worker = new Worker(Beside.address);
        this.worker.onmessage = ({ data }) => {
            if (!this.asked.has(data.id)) told(data);
            else if (data.problem) told(data);
            else this.asked.get(data.id)(data.answer);
            this.asked.delete(data.id);
        };
        this.worker.onerror = (event) => told({ problem: event.message });
        this.worker.postMessage({ blob, asks, modules: Beside.modules });
    }

    ask(question) {
        const id = (Beside.last = (Beside.last ?? 0) + 1);
        return new Promise((done) => {
            this.asked.set(id, done);
            this.worker.postMessage({ id, ...question });
        });
    }

    end() { this.worker.terminate(); }
}

// The log that is open: its worker, what it is called, its bytes, its text where that is in the field, and what was said
// of it.
const closed = {
    beside: null, name: "", blob: null, text: null, size: 0, packed: "", judged: null, report: null, faulty: "", origins: null,
    made: null, line: 0, at: null, granule: null, wrote: null, evened: null, objects: null, timeline: null, others: null, asks: "", shown: "", isAnew: false, isGiven: false, isPictured: false,
};
const log = { ...closed, wait: 0 };

const sizeOf = (bytes) => (bytes < 1e6 ? `${decimal(bytes)} bytes` : `${(bytes / 1e6).toFixed(1)} MB`);

/** Opens a log. Where it is small and plain, its text goes into the field, and so into the link. */
async function openLog(blob, name) {
    // A byte order mark is a byte of the log: it isn't dropped.
    const text = blob.size <= SMALL ? new TextDecoder("utf-8", { ignoreBOM: true }).decode(await blob.arrayBuffer()) : "";
    const plain = /^[\n -~]+$/.test(text) ? text : null;
    byId("text").value = plain ?? "";
    byId("line").value = "";
    byId("given-text").open = false;
    Object.assign(chosen, { packed: "", marks: "" });
    judgeLog(blob, name, plain);
    if (view === "log") changed();
    else turnTo("log");
}

function judgeLog(blob, name, text, packed = "") {
    log.beside?.end();
    byId("find-shortest").removeAttribute("aria-disabled");
    Object.assign(log, closed, { name, blob, text, packed, size: blob.size, asks: asksText() });
    log.beside = new Beside(blob, toldOfLog, asksOf(chosen));
    tellWork("Reading", 0);
    tellWay("");
    showResults(false);
}

/** Opens the log that this file has in it, unless a link has another, at its picture. */
async function openGiven() {
    const given = document.getElementById("given");
    if (!given || location.hash !== "" && (view !== "log" || valueOf("text") !== "" || chosen.packed !== "")) return;
    const { name, freed, owned } = given.dataset;
    for (const [field, value] of Object.entries({ freed, owned })) setValue(field, value ?? "");
    await openLog(new Blob([await unpacked("given")]), name);
    log.isGiven = true;
}

/** Opens the log that a link has packed. */
async function openPacked(packed) {
    log.beside?.end();
    Object.assign(log, closed, { packed });
    byId("given-text").open = false;
    showResults(false);
    try {
        const blob = await unpackedLog(packed);
        if (log.packed === packed) judgeLog(blob, "", null, packed);
    } catch (problem) {
        byId("said").textContent = `The link's log can't be unpacked: ${problem.message.replace(/\.$/, "")}. Was the link cut?`;
    }
}

function showResults(isShown) {
    for (const results of byId("log").querySelectorAll(".results")) results.hidden = !isShown;
}

function tellWork(what, read) {
    byId("work").hidden = what === null;
    if (what === null) return;
    const bar = byId("progress");
    byId("doing").textContent = `${what} ${log.name ? `${log.name}, ` : ""}${sizeOf(log.size)}`;
    if (what === "Judging") bar.removeAttribute("value");
    else bar.value = log.size ? read / log.size : 0;
}

// Refusals of a line that isn't one of a log: something odd about the bytes may be why.
const FORMLESS = [1, 2, 3, 4, 5, 25];

function toldOfLog(told) {
    if (told.read !== undefined) return tellWork(told.read < log.size ? "Reading" : "Judging", told.read);
    tellWork(null);
    if (told.problem) return failed(new Error(told.problem), "There is no verdict");
    log.judged = told.judged;
    // With other options an earlier line may be refused: nothing is known of the line that was shown.
    const typed = Number(byId("line").value);
    const asked = log.isAnew && log.judged.line && typed > log.judged.line ? 0 : typed;
    const last = Math.max(log.judged.count, log.judged.line);
    stepTo(asked || log.judged.line || log.judged.count, asked > last ? `There is no line ${decimal(asked)}: this is the last.` : "");
    askOthers();
    offerPicture();
    if (FORMLESS.includes(log.judged.refusal)) askEvened();
}

/** What is open is shown; where the field has another text, or the link another log, that is judged first. */
function showLog() {
    const typed = byId("text").value;
    if (typed !== (log.text ?? "")) {
        if (typed !== "") {
            chosen.packed = "";
            byId("given-text").open = document.activeElement === byId("text");
            return judgeLog(new Blob([typed]), "", typed);
        }
        log.beside?.end();
        Object.assign(log, closed);
        byId("given-text").open = true;
    }
    if (chosen.packed !== "" && chosen.packed !== log.packed) return void openPacked(chosen.packed);
    showResults(log.judged !== null);
    showAsks();
    if (log.judged === null) return;
    if (log.judged.isRun && log.asks !== asksText()) {
        judgeLog(log.blob, log.name, log.text, log.packed);
        log.isAnew = true;
        return;
    }
    const typedLine = byId("line").value.trim();
    const asked = /^\d+$/.test(typedLine) ? Number(typedLine) : 0;
    if (typedLine !== "" && !asked) tellWay(`“${typedLine.slice(0, 20)}” is no line's number.`);
    if (asked && asked !== log.line) return stepTo(asked);
    if (log.shown !== `${log.size} ${widthOf("why")}`) showVerdict();
    showStep();
}

function showVerdict() {
    log.shown = `${log.size} ${widthOf("why")}`;
    const { state, line, refusal, count, took, text, isRun, isHeap } = log.judged;
    const isOther = isRun || isHeap;
    log.report = state !== 2 ? null : isHeap ? heapReportOf(text) : reportOf(text);
    log.faulty = log.report?.line ?? "";
    const [first, second] = verdictSaid();
    byId("verdict").className = `verdict ${state === 1 ? "yes" : "no"}`;
    document.title = titleOf();
    const facts = [...(log.name ? [log.name] : []), counted(count, "line"), sizeOf(log.size), `judged in ${decimal(Math.ceil(took))} ms`];
    const faulty = make("code", { class: "faulty" }, make("i", {}, `line ${decimal(line)}: `));
    if (state === 2) faulty.append(...marked(log.faulty, (it) => it));
    byId("verdict").replaceChildren(make("h2", {}, first), " ", make("span", {}, second), " ", ...(state === 2 ? [faulty] : []),
        make("small", {}, facts.join(", ")));
    byId("other").hidden = true;
    if (state === 2 && line === 1 && !isOther) showOther();
    byId("why").replaceChildren(...(log.report ? reportShown(log.report) : isHeap ? [heapCosts(text)] : []));
    byId("report-text").textContent = text;
    byId("find-shortest").hidden = state !== 2 || isOther;
    byId("to-fault").hidden = state !== 2;
    byId("log").querySelector(".gloss").hidden = state !== 2 || FORMLESS.includes(refusal);
    byId("origins").hidden = state !== 1 || isOther;
    byId("before").hidden = Boolean(isHeap);
    showOthers();
    showPicture();
    showEvened();
    showWrote();
    showOrigins();
    showShortest();
}

/** The verdict, and a sentence. */
function verdictSaid() {
    const { state, line, refusal, steps, roots } = log.judged;
    const { isRun, isHeap, objects } = log.judged;
    const heapSays = isHeap ? heapVerdict(log.judged) : null;
    const allocated = isRun ? `, with ${counted(objects, "object")} allocated` : "";
    if (state === 1) return heapSays ?? ["Yes: a run of the machine.", `${counted(steps, "step")} from ${counted(roots, "root")}${allocated}.`];
    if (state !== 2) return ["No verdict.", "There wasn't memory enough."];
    return [`No: line ${decimal(line)} is refused: ${refusal} ${log.report.refusal}.`, faultSentence(log.report, log.faulty)];
}

// ---- What isn't a log, but something else that the page knows ----

const SOME = 1 << 23; // as many bytes of such a file are read

/** A vector file is checked; a dump can be read in the first part. */
async function showOther() {
    const { beside, blob } = log;
    const text = blob.size <= SOME ? latin1.decode(await blob.arrayBuffer()) : "";
    if (log.beside !== beside || text === "") return;
    const isVectors = /^(bounds|keeps|round|memory) .* = /.test(text);
    if (isVectors) {
        const { verdict, has } = vectorsSaid(c, text);
        byId("other").replaceChildren("This is a vector file. As ", make("code", {}, "capcheck vectors"), " it has the verdict ",
            make("code", {}, verdict), has ? `: ${has}.` : ".");
    } else if (blob.size <= SMALL && pasted(text).length > 0) {
        const button = make("button", { type: "button", class: "small" }, "Read it as a capability");
        button.addEventListener("click", () => {
            setValue("order", "register");
            byId("word").value = text;
            byId("word").dispatchEvent(new Event("input"));
            turnTo("capability");
        });
        byId("other").replaceChildren("This isn't a log, but it has capabilities. ", button);
    } else return;
    byId("other").hidden = false;
}

const latin1 = new TextDecoder("latin1");

// ---- Bytes that keep a text from being a log ----

const ODD = {
    utf16: ["is UTF-16", "in ASCII"],
    mark: ["begins with a byte order mark", "without the byte order mark"],
    returns: ["has lines that end in CR LF", "without the carriage returns"],
    tabs: ["has tabs", "with spaces in place of the tabs"],
    capitals: ["has upper-case letters", "in lower case"],
    blanks: ["has blanks at the ends of lines or several in a row", "without these blanks"],
    empty: ["has empty lines", "without the empty lines"],
    feed: ["has no line feed at its end", "with a last line feed"],
};

async function askEvened() {
    const { beside } = log;
    const evened = await beside.ask({ ask: "evened" });
    if (log.beside !== beside || !log.judged || !evened) return;
    // A line that was cut is refused with a line feed too.
    const isSame = evened.verdict === log.judged.text.split("\n")[0];
    const isCut = evened.kinds.join() === "feed" && evened.verdict.startsWith(`no ${log.judged.line} `);
    if (isSame || isCut) return;
    log.evened = evened;
    showEvened();
}

function showEvened() {
    byId("evened").hidden = log.evened === null;
    if (log.evened === null) return;
    const { kinds, verdict, blob } = log.evened;
    const [has, without] = [0, 1].map((side) => listed(kinds.map((kind) => ODD[kind][side])));
    const button = make("button", { type: "button", class: "small" }, "Judge it so");
    button.addEventListener("click", () => openLog(blob, log.name));
    byId("evened").replaceChildren(`The log ${has}. ${without[0].toUpperCase()}${without.slice(1)} its verdict is `,
        make("code", {}, verdict), ". ", button);
}

// ---- The diagnosis ----

const isData = (cap, isLoad) => cap.tag === "0" && (cap.place.startsWith("@") || isLoad);
const NAMES = { gives: "the rules give", recorded: "the line records", holds: "the place holds" };

function reportShown(report) {
    const { caps, spans, counts, values, needs, object, more } = report;
    const isLoad = log.faulty.startsWith("lc ");
    const shown = [];
    const card = ([name, cap]) => capabilityCard(name, cap, report, isData(cap, isLoad && (name === "gives" || name === "recorded")));
    const results = Object.entries(caps).filter(([name]) => name === "gives" || name === "recorded");
    if (results.length) shown.push(make("div", { class: "cards two" }, ...results.map(card)));
    if (values.gives) shown.push(make("div", { class: "cards two" }, ...Object.entries(values).map(valueCard)));
    shown.push(make("p", { id: "wrote", role: "status" }));
    const bars = barsOf(report, isLoad);
    if (bars.length > 1) {
        const says = bars.map(({ name, ...it }) => `${name} ${span(it)}`).join("; ");
        shown.push(make("div", { class: "drawing", role: "img", "aria-label": says }, axisDrawing(bars, widthOf("why"))));
    }
    const others = Object.entries(caps).filter(([name]) => name !== "gives" && name !== "recorded");
    if (others.length) shown.push(make("div", { class: "cards" }, ...others.map(card)));
    const rows = [
        ...Object.entries(spans).map(([name, it]) => [name, span(it), SPANS[name]]),
        ...(object ? [[`object ${object.number}`, ...objectSaid(object)]] : []),
        ...(needs ? [["needs", permissionNames(Number(`0x${needs}`)).join(", "), "the permissions that the authority needs"]] : []),
        ...Object.entries(counts).map(([name, value]) => [name, value, (log.judged.isHeap ? HEAP_COUNTS : COUNTS)[name]]),
        ...more.map(([name, ...rest]) => [name, rest.join(" ")]),
    ];
    if (rows.length) shown.push(make("table", {}, make("tbody", {}, ...rows.map(row))));
    return shown;
}

/** The kind of bar for a capability: what a refused `object` line asks for is red, and what goes by a freed object has
 * that one's colour: who holds it, an authority of it, and a register that would free it again. */
function kindOfCap(name, { bounds, tag }, { spans: { extent }, object }) {
    if (tag !== "1") return "untagged";
    if (name === "register" && extent && bounds[0] === extent.base && bounds[1] === extent.top) return "refused-extent";
    const isOfObject = name === "holder" || name === "authority" || (name === "register" && !extent);
    return isOfObject && object && !object.isLive ? "freed" : "bounds";
}

/** The ranges of a report, in order, with what goes beyond the source's or the authority's bounds. */
function barsOf(report, isLoad) {
    const { caps, spans, object } = report;
    const kindOfSpan = (name) => (name === "extent" || (name === "access" && object) ? "refused-extent" : /^(representable|live)/.test(name) ? "range" : "asked");
    const bars = [
        ...Object.entries(caps).filter(([, cap]) => !isData(cap, isLoad)).map(([name, cap]) =>
            ({ name, base: cap.bounds[0], top: cap.bounds[1], kind: kindOfCap(name, cap, report) })),
        ...Object.entries(spans).map(([name, it]) => ({ name, ...it, kind: kindOfSpan(name) })),
        ...(object ? [{ name: `object ${object.number}, ${stateOf(object)}`, base: object.base, top: object.top, kind: object.isLive ? "range" : "freed" }] : []),
    ].filter(({ base, top }) => base <= top).sort((one, other) => placeInOrder(one) - placeInOrder(other));
    return withExcess(bars, log.judged.isHeap ? { rounded: "request", "live rounded": "live request" } : undefined);
}

const placeInOrder = ({ name }) => ORDER.indexOf(name in SPANS ? name : name.split(" ")[0]);

/** A capability of the report, or data. What differs between what the rules give and what is recorded is marked. */
function capabilityCard(name, cap, { differs, cleared, caps }, isPlain) {
    const both = name === "gives" || name === "recorded";
    const mark = (field) => (both && differs.includes(field) ? { class: "differs" } : {});
    const other = (both && caps[name === "gives" ? "recorded" : "gives"]) || cap;
    const word = make("a", { href: linkOf(cap.word, cap.tag), class: "mono" }, ...digitsMarked(cap.word, other.word));
    const bound = ["ie", "e", "b", "t"].find((it) => differs.includes(it));
    const meaning = isPlain ? [make("span", {}, "data, by address: ", make("span", { class: "mono" }, dataOf(cap.word)))] : [
        make("span", mark(bound), `bounds ${span(boundsOf(cap))}`),
        make("span", mark("address"), `address ${addressOf(cap)}`),
        make("span", mark("perms"), `permissions 0x${cap.perms[0]}`),
        make("span", mark("otype"), `type ${cap.otype.join(" ")}`),
    ];
    const lines = [
        make("span", mark("tag"), cap.tag === "1" ? "tag 1" : "no tag"),
        word,
        ...meaning,
        ...(cap.origin ? [`from the root at ${cap.origin[0]}`] : []),
        ...(cap.owner ? [`owned by object ${cap.owner[0]}`] : []),
        ...(name === "gives" && cleared ? [make("span", { class: "differs" }, `tag cleared: ${cleared}`)] : []),
        ...(name === "recorded" && differs.length ? [make("span", { class: "differs" }, `differs: ${differs.join(", ")}`)] : []),
    ];
    return make("div", { class: "card" }, make("h3", {}, `${NAMES[name] ?? name}, ${cap.place}`), ...lines.map((it) => make("div", {}, it)));
}

function valueCard([name, value], place, both) {
    const other = both[1 - place][1];
    return make("div", { class: "card" }, make("h3", {}, name === "gives" ? "memory holds" : NAMES[name]),
        make("div", { class: "mono" }, "0x", ...digitsMarked(value, other)));
}

/** Digits, with those marked that another text has otherwise. */
function digitsMarked(digits, other) {
    const pieces = digits.match(/./g).map((digit, k) => ({ digit, is: digit !== other[k] }));
    return runsOf(pieces).map(({ text, is }) => (is ? make("span", { class: "differs" }, text) : text));
}

/** Letters put together, those that are wrong and those that aren't. */
function runsOf(letters) {
    const runs = [];
    for (const { digit, is } of letters) {
        if (runs.at(-1)?.is === is) runs.at(-1).text += digit;
        else runs.push({ is, text: digit });
    }
    return runs;
}

/** The sixteen bytes of a granule without a tag, in order of address. */
const dataOf = (word) => [...c.toMemory(read(word))].map((byte) => hex(byte, 2)).join(" ");

const linkOf = (word, tag) => `#${new URLSearchParams({ show: "capability", word, order: "register", tag, to: "" })}`;

/** A button that leads to a line; `where` tells it from others that lead there. */
function lineButton(line, text = `line ${decimal(line)}`, where = "line") {
    const button = make("button", { type: "button", class: "small", "data-key": `${where} ${line}` }, text);
    button.addEventListener("click", () => stepTo(line));
    return button;
}

/** Who wrote a granule and the bytes of it that a line reaches, and who cleared its tag. */
function historyOf({ place, wrote, reached, cleared, isRoot }) {
    if (!wrote) return [`No line before wrote ${place}: it holds zeros.`];
    if (isRoot) return [`${place} holds its root, of `, lineButton(wrote), "."];
    return [
        `${place} was last written by `, lineButton(wrote), ...(cleared === wrote ? [", which cleared its tag"] : []),
        ...(reached === wrote ? [] : ["; the bytes that the line reaches, by ", reached ? lineButton(reached) : "none"]),
        ...(cleared && cleared !== wrote ? ["; its tag was cleared by ", lineButton(cleared)] : []), ".",
    ];
}

function showWrote() {
    if (byId("wrote")) byId("wrote").replaceChildren(...(log.wrote ? historyOf(log.wrote) : []));
}

// The origins are asked for once they are to be seen: they cost a judging of the whole log.
async function askOrigins() {
    if (!byId("origins").open || log.origins) return;
    const { beside } = log;
    const origins = await beside.ask({ ask: "origins" });
    if (log.beside !== beside) return;
    log.origins = origins;
    showOrigins();
}

function showOrigins() {
    if (!log.origins) byId("origins").open = false;
    const found = (log.origins ?? "").split("\n", FEW + 2).slice(1).filter((it) => it !== "").map((it) => it.split(" "));
    byId("origins-of").replaceChildren(
        ...found.slice(0, FEW).map(([, place, root]) => make("li", {}, `${place} descends from the root at ${root}`)),
        ...(found.length ? [] : [make("li", {}, "No place holds a tagged capability.")]),
        ...(found.length > FEW ? [make("li", {}, "There are more; the copied text has all.")] : []));
}

// ---- A short log ----

/** A disabled button would lose the focus: while it looks for the log it is only called disabled. */
async function findShortest() {
    const button = byId("find-shortest");
    if (button.getAttribute("aria-disabled") === "true") return;
    button.setAttribute("aria-disabled", "true");
    const { beside } = log;
    const made = await beside.ask({ ask: "shortest" });
    button.removeAttribute("aria-disabled");
    if (log.beside !== beside) return;
    log.made = made ?? { text: "" };
    showShortest();
}

function showShortest() {
    byId("shortest").hidden = !log.made;
    if (!log.made) return;
    const { text, verdict, lines, isShortest } = log.made;
    const whole = isShortest ? "Leave any line out, and the refusal or its diagnosis changes." : "The time ran out: lines of it may be left out still.";
    byId("shortest-says").textContent = text
        ? `${counted(lines, "line")} with the same fault, judged by itself: ${verdict}. ${whole}`
        : "No shorter log was found that has the same fault.";
    byId("shortest-text").textContent = text.length < 1 << 16 ? text : `${text.slice(0, 1 << 16)}…`;
    for (const id of ["shortest-text", "save-shortest", "copy-shortest", "link-shortest"]) byId(id).hidden = !text;
    byId("link-shortest").hidden ||= text.length > SMALL;
    if (!text) return;
    URL.revokeObjectURL(byId("save-shortest").href);
    byId("save-shortest").href = URL.createObjectURL(log.made.blob);
}

// ---- The link ----

/** Copies the link. A log that isn't in it as text goes into it packed, where a link can hold it. */
async function copyLink() {
    if (view === "log" && log.blob && valueOf("text") === "" && log.packed === "") {
        const { beside } = log;
        const packed = await packedLog(log.blob);
        if (log.beside !== beside) return;
        if (packed === null) return showTooLong();
        log.packed = packed;
        chosen.packed = packed;
    }
    const link = linkTo();
    await copy(location.href.split("#")[0] + link, "Link");
    if (link.length > SMALL) byId("said").append(` It has ${decimal(link.length)} letters.`);
    history.replaceState(null, "", link);
}

function showTooLong() {
    const save = make("a", { class: "button", download: log.name || "log.log", href: URL.createObjectURL(log.blob) }, "Save the log");
    const find = make("button", { type: "button", class: "small" }, "Find a short log");
    find.addEventListener("click", () => {
        findShortest();
        byId("find-shortest").scrollIntoView({ block: "center" });
    });
    const isNo = log.judged?.state === 2;
    byId("said").replaceChildren(`A link can't hold this log: packed, it has more than ${decimal(LINK)} letters. `
        + `Send the file${isNo ? ", or a short log with its fault" : ""}. `, save, ...(isNo ? [" ", find] : []));
}

function listenToLog() {
    byId("open").addEventListener("click", () => byId("file").click());
    byId("file").addEventListener("change", () => {
        const [file] = byId("file").files;
        if (file) openLog(file, file.name);
        byId("file").value = "";
    });
    for (const button of document.querySelectorAll("[data-log]")) {
        button.addEventListener("click", () => openLog(new Blob([byId(button.dataset.log).textContent.trimStart()]), ""));
    }
    // Text that is dropped into a field, or pasted there, is a log only where it begins as one, or nearly. It is judged as
    // it is.
    const isLog = (text) => /^\ufeff?(capcheck|heap|run)\s+\d\s*\n/i.test(text);
    addEventListener("dragover", (event) => {
        if (event.target.matches?.("input, textarea") && !event.dataTransfer.types.includes("Files")) return;
        event.preventDefault();
        byId("drop").classList.add("over");
    });
    addEventListener("dragleave", () => byId("drop").classList.remove("over"));
    addEventListener("drop", (event) => {
        byId("drop").classList.remove("over");
        const [file] = event.dataTransfer.files;
        const text = event.dataTransfer.getData("text");
        if (!file && !isLog(text)) return;
        event.preventDefault();
        openLog(file ?? new Blob([text]), file?.name ?? "");
    });
    addEventListener("paste", (event) => {
        const text = event.clipboardData.getData("text");
        if (!isLog(text)) return;
        event.preventDefault();
        openLog(new Blob([text]), "");
    });
    byId("stop").addEventListener("click", () => {
        log.beside?.end();
        tellWork(null);
        refocus();
    });
    byId("copy-report").addEventListener("click", () => copy(log.judged.text, "Report"));
    byId("origins").addEventListener("toggle", askOrigins);
    byId("copy-origins").addEventListener("click", () => copy(log.origins, "Origins"));
    byId("find-shortest").addEventListener("click", findShortest);
    byId("copy-shortest").addEventListener("click", () => copy(log.made.text, "Log"));
    byId("link-shortest").addEventListener("click", () =>
        copy(`${location.href.split("#")[0]}#${new URLSearchParams({ show: "log", text: log.made.text, line: "" })}`, "Link"));
    listenToAsks();
    listenToPicture();
    listenToSteps();
}
