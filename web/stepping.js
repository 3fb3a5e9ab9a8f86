"use strict";
// A log line by line: what each line is about, what registers and memory hold before it, and ways to other lines.

/** Shows a line; `says` is what is said of the way to it. */
function stepTo(wanted, says = "") {
    const { count, line: fault } = log.judged;
    const line = Math.max(1, Math.min(Math.max(count, fault), Math.trunc(wanted) || 1));
    const { beside } = log;
    const passed = () => log.beside !== beside || log.line !== line || !log.judged;
    log.line = line;
    byId("line").value = String(line);
    tellWay(says);
    beside.ask({ ask: "at", line, from: Math.max(1, line - AROUND), to: line + AROUND }).then((at) => {
        if (passed()) return;
        Object.assign(log, { at, granule: null, objects: null });
        changed();
        askObjects(line, passed);
        // Each granule costs a judging of all lines before: one that is passed by isn't asked for.
        clearTimeout(log.wait);
        log.wait = setTimeout(async () => {
            const granule = passed() ? null : await beside.ask({ ask: "granule", line });
            if (passed() || !granule) return;
            log.granule = granule;
            const isWrong = line === log.judged.line && log.report?.refusal === "WrongResult";
            if (isWrong && !log.judged.isRun && /^(lc|load) /.test(log.faulty)) log.wrote = granule;
            showStep();
            showWrote();
        }, 60);
    });
}

function showStep() {
    const { at, judged } = log;
    if (!at || !judged) return;
    byId("count").textContent = judged.line > judged.count ? `of ${decimal(judged.count)}, where the bytes end` : `of ${decimal(judged.count)}`;
    const texts = [...at.texts];
    if (judged.line > judged.count && at.from + texts.length === judged.line) texts.push("");
    byId("code").replaceChildren(...texts.map((text, k) => codeLine(at.from + k, text)));
    byId("code").setAttribute("aria-activedescendant", `line-${at.line}`);
    const { registers, line } = at;
    const parts = judged.isHeap ? null : partsOf(at.texts[line - at.from] ?? "", RUN_FORMS);
    byId("before-says").textContent = registers === null
        ? `The judge stopped at line ${decimal(judged.line)}: nothing is known of the lines after it.`
        : registers.length === 0 ? `No register ${whose(at)}was written so far.`
            : `What the step reads comes first. ${judged.isRun ? `An object's number is that of the owner.${whose(at) && ` The registers are those ${whose(at).trim()}.`}`
                : "Each register is as the line beside it made it; the judge found that line right."}`;
    byId("step-link").replaceChildren(...stepLink(parts, registers));
    const rows = (registers ?? []).map((it) => heldRow(it, parts));
    showObjects();
    if (log.granule) rows.push(granuleRow(log.granule));
    const isRead = (it) => it.classList.contains("read");
    byId("held").tBodies[0].replaceChildren(...rows.filter(isRead), ...rows.filter((it) => !isRead(it)));
    showMarks();
    refocus();
    // On a narrow screen what is marked in the faulty line may be far to the right.
    const [code, mark] = [byId("code"), document.querySelector("#code mark")];
    if (!mark) return;
    const [left, right] = [mark.offsetLeft - 80, mark.offsetLeft + mark.offsetWidth + 16];
    code.scrollLeft = right > code.clientWidth ? Math.min(left, right - code.clientWidth) : 0;
}

/** Of which hart the registers are, if several were named. */
const whose = ({ hart }) => (Number.isInteger(hart) ? `of hart ${hart} ` : "");

function codeLine(line, text) {
    const fault = line === log.judged.line;
    const item = make("li", { role: "option", id: `line-${line}`, "data-line": line, "aria-selected": String(line === log.line) },
        make("i", {}, decimal(line)), ...(fault ? marked(text) : [escaped(text)]));
    if (fault) item.className = "at-fault";
    return item;
}

const escaped = (text) => text.replace(/[^ -[\]-~]/g, (it) => `\\x${hex(it.charCodeAt(0), 2)}`);

/** The faulty line, with what is wrong in it marked: the digits that differ, or the operand that the refusal is about. */
function marked(text, shown = escaped) {
    const { refusal, caps, values } = log.report;
    const parts = log.judged.isHeap ? null : partsOf(text, RUN_FORMS);
    const wrong = new Set();
    const markPart = (name) => { for (let k = 0; k < parts[name].length; k++) wrong.add(placeOf(text, name) + k); };
    if (text === "") return [make("mark", {}, "the bytes end here")];
    if (refusal === "WrongResult" && caps.gives && parts?.word) {
        if (caps.gives.tag !== parts.tag) markPart("tag");
        [...parts.word].forEach((digit, k) => { if (digit !== caps.gives.word[k]) wrong.add(placeOf(text, "word") + k); });
    } else if (refusal === "WrongResult" && parts?.value) {
        [...parts.value].forEach((digit, k) => { if (digit !== values.gives[k]) wrong.add(placeOf(text, "value") + k); });
    } else {
        const about = parts && ABOUT[refusal]?.split(" ").find((name) => name in parts);
        if (about) markPart(about);
        else for (let k = 0; k < text.length; k++) wrong.add(k);
    }
    return runsOf([...text].map((digit, k) => ({ digit, is: wrong.has(k) })))
        .map((it) => (it.is ? make("mark", {}, shown(it.text)) : shown(it.text)));
}

/** What a register holds, the line that made it or the object that owns it, and a way to the next line that uses it. */
function heldRow({ number, place = `c${number}`, tag, word, by, owner }, parts) {
    const role = ["source", "authority", "special", "code", "data", "target"].filter((name) => parts?.[name] === place);
    const isRead = role.some((it) => it !== "target");
    const next = make("button", { type: "button", class: "small", "data-key": `next ${place}`, "aria-label": `next line that uses ${place}` }, "next use");
    next.addEventListener("click", () => stepToUse(place));
    const made = by ? [lineButton(by)] : [];
    if (by) made[0].title = `the line that made ${place}`;
    const bounds = `${tag ? "" : "no tag; "}${span(c.decode(read(word)))}${owner ? `; owned by object ${owner}` : ""}`;
    return make("tr", isRead ? { class: "read" } : {}, make("th", { scope: "row" }, place), make("td", {},
        make("a", { href: linkOf(word, tag), class: "mono" }, `${tag} ${word}`),
        make("small", {}, `${bounds}${role.length ? `; the step's ${role.join(" and ")}` : ""}`),
        make("span", { class: "ways" }, ...made, next)));
}

/** What the granule holds that the step reaches. Without a tag it is data. */
function granuleRow({ place, tag, word, owner, ...history }) {
    const owned = owner ? `; owned by object ${owner}` : "";
    const says = tag ? `${span(c.decode(read(word)))}${owned}; the memory that the step reaches`
        : `data, by address: ${dataOf(word)}; the memory that the step reaches`;
    return make("tr", { class: "read" }, make("th", { scope: "row" }, place), make("td", {},
        make("a", { href: linkOf(word, tag), class: "mono" }, `${tag} ${word}`), make("small", {}, says),
        ...(log.judged.isRun ? [] : [make("small", {}, ...historyOf({ place, tag, ...history }))])));
}

async function stepToUse(place) {
    const { beside, line } = log;
    const next = await beside.ask({ ask: "nextUse", line, place });
    if (log.beside !== beside) return;
    if (next) stepTo(next);
    else tellWay(`No line after ${decimal(line)} uses ${place}.`);
}

async function find(backward) {
    const { beside, line } = log;
    const text = byId("search").value;
    if (text === "") return tellWay("Type what to look for.");
    const found = await beside.ask({ ask: "find", text, line, backward });
    if (log.beside !== beside) return;
    const around = found && (backward ? found >= line : found <= line) ? ` ${backward ? "It is the last" : "It is the first"} one of the log.` : "";
    if (found) stepTo(found, `Line ${decimal(found)} has it.${around}`);
    else tellWay(`No line has “${text}”.`);
}

const tellWay = (text) => (byId("way").textContent = text);

// ---- Marked lines ----

const marks = () => chosen.marks.split(",").filter((it) => it !== "").map(Number);

/** Marks the line that is shown, or takes its mark away. The link has the marks. */
function turnMark() {
    const others = marks().filter((it) => it !== log.line);
    const all = others.length < marks().length ? others : [...others, log.line].slice(-FEW_MARKS);
    chosen.marks = all.sort((one, other) => one - other).join(",");
    changed();
}

const FEW_MARKS = 50;

/** A button for the refused line and for each marked one. */
function showMarks() {
    const { count, line: fault } = log.judged;
    const here = marks().filter((it) => it >= 1 && it <= count && it !== fault);
    byId("mark").textContent = marks().includes(log.line) ? "Unmark this line" : "Mark this line";
    byId("marks").hidden = !fault && here.length === 0;
    const button = (line) => lineButton(line, line === fault ? `line ${decimal(line)}, refused` : `line ${decimal(line)}`, "mark");
    byId("marks").replaceChildren("Refused and marked lines: ",
        ...[...here, ...(fault ? [fault] : [])].sort((one, other) => one - other).flatMap((line) => [button(line), " "]));
}

/** A link to the operation of a step, with what its operands hold; and to the capability of a root. */
function stepLink(parts, registers) {
    if (parts?.kind === "root") return [make("a", { href: linkOf(parts.word, "1") }, "Show this root")];
    if (!parts || !registers || !Object.hasOwn(OPERATIONS, parts.kind)) return [];
    const held = (name) => registers.find(({ number }) => number === registerOf(name)) ?? { tag: 0, word: c.textOf(c.nothing()) };
    const source = parts.kind === "lc" ? log.granule : parts.source ? held(parts.source) : null;
    if (parts.kind === "lc" && !source) return [];
    const authority = parts.authority ? held(parts.authority) : null;
    const fields = {
        show: "operation", do: parts.kind,
        ...(source ? { source: source.word, sourcetag: source.tag } : {}),
        ...(authority ? { authority: authority.word, authoritytag: authority.tag } : {}),
        ...(parts.length ?? parts.address ?? parts.mask ? { value: parts.length ?? parts.address ?? parts.mask } : {}),
        ...(parts.offset ? { offset: parts.offset } : {}), ...(parts.size ? { size: parts.size } : {}),
    };
    return [make("a", { href: `#${new URLSearchParams(fields)}` }, "Show this step as an operation")];
}

function listenToSteps() {
    const steps = {
        first: () => 1, back: () => log.line - 1, next: () => log.line + 1, last: () => log.judged.count, "to-fault": () => log.judged.line,
    };
    for (const [id, to] of Object.entries(steps)) byId(id).addEventListener("click", () => stepTo(to()));
    byId("mark").addEventListener("click", turnMark);
    byId("find-next").addEventListener("click", () => find(false));
    byId("find-back").addEventListener("click", () => find(true));
    byId("search").addEventListener("keydown", (event) => { if (event.key === "Enter") find(event.shiftKey); });
    byId("code").addEventListener("click", (event) => {
        const line = event.target.closest("[data-line]");
        if (line) stepTo(Number(line.dataset.line));
    });
    byId("code").addEventListener("keydown", (event) => {
        const to = {
            ArrowUp: log.line - 1, ArrowDown: log.line + 1, PageUp: log.line - 2 * AROUND, PageDown: log.line + 2 * AROUND,
            Home: 1, End: log.judged.count,
        }[event.key];
        if (to === undefined) return;
        event.preventDefault();
        stepTo(to);
    });
}
