"use strict";
// The objects of a run log: what is asked of them, where they lie, and who holds them.

const LISTED = 100; // objects in the list
const DRAWN_GAP = 8n; // a gap of so many times what is drawn parts objects that are drawn from others

const asksText = () => `${chosen.freed} ${chosen.owned}`;
const asksOf = ({ freed, owned }) => ({ held: freed !== "used", used: freed !== "", owned: owned === "1" });

function showAsks() {
    byId("asks").hidden = !log.judged?.isRun;
    byId("freed").value = chosen.freed;
    byId("owned").checked = chosen.owned === "1";
}

function listenToAsks() {
    byId("freed").addEventListener("input", () => { chosen.freed = byId("freed").value; changed(); });
    byId("owned").addEventListener("input", () => { chosen.owned = byId("owned").checked ? "1" : ""; changed(); });
}

/** The choices that ask what the chosen ones don't. */
function otherChoices() {
    const { freed, owned } = chosen;
    const other = freed === "used" ? { option: "--freed held", freed: "", owned } : { option: "--freed used", freed: "used", owned };
    return [...(freed === "both" ? [] : [other]), ...(owned ? [] : [{ option: "--owned", freed, owned: "1" }])];
}

/** The other choices cost a judging of the log each: for a long log they are asked for by a button. */
async function askOthers(isWanted = log.judged.count <= PICTURED) {
    if (!log.judged.isRun) return;
    const { beside } = log;
    const choices = otherChoices();
    const found = isWanted && choices.length ? await beside.ask({ ask: "under", asks: choices.map(asksOf) }) : [];
    if (log.beside !== beside || !log.judged) return;
    log.others = choices.map((it, k) => ({ ...it, verdict: found[k] ?? null }));
    showOthers();
}

/** What the log is under the other choices. A refusal that is shown already isn't said again. */
function showOthers() {
    const others = (log.others ?? []).filter(({ verdict }) => verdict !== log.judged.text.split("\n")[0] || log.judged.state === 1);
    const accepted = others.filter(({ verdict }) => verdict?.startsWith("yes")).map(({ option }) => make("code", {}, option));
    const refused = others.filter(({ verdict }) => verdict?.startsWith("no "));
    const parts = [...refused.flatMap(refusedUnder), ...(accepted.length ? ["Accepted under ", ...accepted.flatMap((it, k) => [...(k ? [" and "] : []), it]), "."] : [])];
    if (others.some(({ verdict }) => verdict === null)) {
        const button = make("button", { type: "button", class: "small" }, "Ask the other questions too");
        button.addEventListener("click", () => askOthers(true));
        parts.push(button);
    }
    byId("asked").hidden = parts.length === 0;
    byId("asked").replaceChildren(...parts);
}

function refusedUnder({ option, freed, owned, verdict }) {
    const [, line, number, refusal] = verdict.split(" ");
    if (refusal === "Truncated") return ["No line is refused under ", make("code", {}, option), ": the log only lacks its end line. "];
    const button = make("button", { type: "button", class: "small" }, "Ask this");
    button.addEventListener("click", () => {
        Object.assign(chosen, { freed, owned });
        byId("line").value = "";
        changed();
    });
    return ["Refused under ", make("code", {}, option), `: line ${decimal(line)}, ${number} ${refusal}. `, button, " "];
}

const stateOf = ({ isLive, held }) => (isLive ? "live" : held ? "freed, still held" : "freed");
const atFault = () => log.line === log.judged.line;

/** An object's extent, and who holds it and which lines allocated and freed it: the latter is in a report, and in the picture. */
function objectSaid(it) {
    const { base, top, line, held, holder } = it;
    const freed = it.freed ?? (it.isLive ? 0 : log.timeline?.objects[it.number - 1]?.freed);
    const extent = `${span({ base, top })}, ${counted(top - base, "byte")}`;
    if (log.judged.isHeap) return [extent, make("span", {}, "allocated by ", lineButton(line, undefined, `object ${it.number}`))];
    const holders = held === 0 ? "no place holds it" : `${counted(held, "place")} ${held === 1 ? "holds" : "hold"} it${holder ? `, first ${holder}` : ""}`;
    return [
        extent,
        make("span", {}, `${stateOf(it)}; ${holders}; allocated by `, lineButton(line, undefined, `object ${it.number}`),
            ...(freed ? [", freed by ", lineButton(freed, undefined, `freed ${it.number}`)] : [])),
    ];
}

/** The objects cost a judging of the lines before: those of a line that is passed by aren't asked for. */
async function askObjects(line, passed) {
    if (passed() || !log.judged.isRun && !log.judged.isHeap) return;
    const { beside } = log;
    const about = log.judged.isRun && log.judged.state === 2 ? reportOf(log.judged.text).object : null;
    const objects = await beside.ask({ ask: "objects", line, met: about?.number ?? 0, listed: LISTED });
    if (passed()) return;
    log.objects = objects;
    showStep();
}

function showObjects() {
    byId("objects").hidden = !log.objects;
    if (!log.objects) return;
    const { objects, isAll, here } = log.objects;
    const { isHeap } = log.judged;
    const asked = atFault() ? log.report?.spans[isHeap ? "rounded" : "extent"] : null;
    const about = objects.find(({ number }) => atFault() && number === log.report?.object?.number) ?? null;
    const count = (wanted) => counted(objects.filter(wanted).length, "object");
    const some = isAll ? "" : `Of the nearest ${decimal(objects.length)}: `;
    const none = isHeap ? "No object is live." : "No object is live, and none that was freed is held.";
    const freed = isHeap ? "." : `; ${count(({ isLive }) => !isLive)} freed that some place still holds.`;
    byId("objects-say").textContent = objects.length === 0 ? none : `${some}${count(({ isLive }) => isLive)} live${freed}`;
    const near = nearObjects(objects, about ?? asked ?? (here === null ? objects[0] : { base: here }));
    byId("extents").hidden = objects.length === 0;
    const asks = isHeap ? "the bounds of the refused request" : "what the refused line asks for";
    byId("extents").replaceChildren(...(objects.length ? [extentsDrawing(near, about, asked, asks, widthOf("objects"))] : []));
    const away = objects.length - near.length;
    if (away) byId("objects-say").append(` ${counted(away, "object")} ${away === 1 ? "lies" : "lie"} far from those that are drawn.`);
    byId("extents").setAttribute("aria-label", near.slice(0, LISTED).map((it) => `object ${it.number} ${span(it)}, ${stateOf(it)}`).join("; "));
    const nearest = objects.slice(0, LISTED).sort((one, other) => (other === about) - (one === about) || one.number - other.number);
    byId("object-rows").tBodies[0].replaceChildren(...nearest.map((it) => {
        const made = row([`object ${it.number}`, ...objectSaid(it)]);
        if (it === about) made.className = "read";
        return made;
    }));
    if (objects.length > LISTED) byId("objects-say").append(` The list has the nearest ${LISTED}.`);
}

/** The objects that lie near one: no gap between them is far greater than what they take. */
function nearObjects(objects, middle) {
    const all = [...objects].sort((one, other) => (one.base < other.base ? -1 : one.base > other.base ? 1 : 0));
    let [from, to] = [all.findIndex(({ top }) => middle && top > middle.base), 0];
    if (from < 0) from = Math.max(0, all.length - 1);
    to = from + 1;
    const taken = () => all[to - 1].top - all[from].base + 64n;
    for (let grown = true; grown && all.length;) {
        grown = false;
        if (from > 0 && all[from].base - all[from - 1].top <= DRAWN_GAP * taken()) [from, grown] = [from - 1, true];
        if (to < all.length && all[to].base - all[to - 1].top <= DRAWN_GAP * taken()) [to, grown] = [to + 1, true];
    }
    return all.slice(from, to);
}

/** Extents on one axis, a row for each state, and one for what the refused line asks for. */
function extentsDrawing(objects, about, asked, asks, width) {
    const all = [...objects, ...(asked ? [asked] : [])];
    const from = all.reduce((least, { base }) => (base < least ? base : least), all[0].base);
    const end = all.reduce((greatest, { top }) => (top > greatest ? top : greatest), all[0].top);
    const room = (end - from) / 16n + 1n;
    const axis = scaled(from - room, end - from + 2n * room, 12, width - 12);
    const rows = [
        ["live", "bounds", objects.filter(({ isLive }) => isLive)],
        ["freed, still held", "freed", objects.filter(({ isLive }) => !isLive)],
        [asks, "refused-extent", asked ? [asked] : []],
    ].filter(([, , extents]) => extents.length);
    const nodes = rows.flatMap(([title, kind, extents], row) => [
        words(0, row * 44 + 13, title, "note", "start"),
        ...extents.flatMap(({ base, top }) => {
            const [left, right] = [axis.cut(base), axis.cut(top)];
            return [bar(left, right, row * 44 + 18, 18, kind), ...(kind === "freed" ? [hatched(left, right, row * 44 + 18, 18)] : [])];
        }),
    ]);
    const y = rows.length * 44;
    const named = about ? [about] : objects.length <= 6 ? objects : [];
    const points = [
        ...named.map(({ number, base }) => ({ x: axis.cut(base), number: hex(base), note: `object ${number}` })),
        ...[from, end].map((at) => ({ x: axis.x(at), number: hex(at), note: at === from ? "least base" : "greatest top" })),
    ];
    const below = labels(points, width, y + 8);
    return canvas(width, y + 12 + below.height, ...nodes, line(axis.left, y, axis.right, y, "axis"), ...below.nodes);
}
