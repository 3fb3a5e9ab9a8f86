"use strict";
// The picture of a run log: time along, addresses up, an object's bar from the line that allocates it to the one that frees it, and
// hatched from there on as long as some place holds it. Below it curves, by the same lines.

const PICTURED = 100000; // lines of a log whose picture is drawn without being asked for
const HIGH = 300; // of the bars, in pixels
const CURVES = [["live", "bytes live"], ["held", "bytes freed and held"], ["holders", "places that hold freed objects"]];
const CURVE = 56; // high
const NAMED = 40; // at most so many objects are named in their bars
const CUTS = 24; // at most so many gaps between addresses are cut

/** The picture costs a judging of the log, line by line: it is asked for once it is to be seen. */
async function askPicture() {
    const { beside, judged } = log;
    if (!byId("picture").open || log.isPictured || !judged?.isRun) return;
    log.isPictured = true;
    const timeline = await beside.ask({ ask: "timeline" });
    if (log.beside !== beside || !log.judged) return;
    log.timeline = timeline;
    showPicture();
    showObjects();
    if (log.isGiven) byId("picture").scrollIntoView();
    log.isGiven = false;
}

/** Whether there is a picture, and whether it is open at first. */
function offerPicture() {
    byId("picture").hidden = !log.judged.isRun;
    const isKept = log.isGiven || log.isAnew && byId("picture").open;
    byId("picture").open = log.judged.isRun && (log.judged.count <= PICTURED || isKept);
    byId("pictured").replaceChildren();
    byId("picture-says").textContent = "";
    askPicture();
}

function showPicture() {
    if (!log.timeline) return;
    const { objects, last } = log.timeline;
    const asked = askedFor();
    const drawn = objects.length || asked;
    byId("pictured").replaceChildren(...(drawn ? [pictureDrawing(log.timeline, asked, widthOf("picture"))] : []));
    byId("picture-says").replaceChildren(...pictureSaid(objects, asked, last));
    byId("pictured").setAttribute("aria-label", byId("picture-says").textContent);
}

/** What the refused line asks for, and the object that it meets. */
function askedFor() {
    const { extent, access } = log.report?.spans ?? {};
    const asked = log.judged.isRun && (extent ?? access);
    return asked ? { ...asked, object: log.report.object, line: log.judged.line } : null;
}

const isHeld = (it) => it.freed > 0 && it.gone === 0;

function pictureSaid(objects, asked, last) {
    const held = objects.filter(isHeld).sort((one, other) => one.freed - other.freed);
    const says = [`${counted(objects.length, "object")} up to line ${decimal(last)}. `];
    if (held.length) {
        const [first] = held;
        says.push(`At the end ${counted(held.length, "freed object")} ${held.length === 1 ? "is" : "are"} still held, object ${first.number} since `,
            lineButton(first.freed, undefined, "held since"), ". ");
    } else says.push("At the end no freed object is held. ");
    if (!asked) return says;
    const { object, line } = asked;
    says.push(`In red: ${span(asked)}, which `, lineButton(line, undefined, "asks for"), " asks for. ");
    if (!object) return says;
    const found = objects[object.number - 1];
    says.push(`It meets object ${object.number}, `, ...(found?.freed ? ["freed by ", lineButton(found.freed, undefined, "met, freed by"), ", "] : ["live, "]),
        `held by ${holdersSaid(object)}.`);
    return says;
}

/** The places that hold an object: those that the judge names, and how many more there are. */
function holdersSaid({ held }) {
    const { holders } = log.timeline;
    const named = holders.slice(0, 8);
    const more = held - named.length;
    return listed([...named, ...(more > 0 ? [`${counted(more, "place")}${named.length ? " more" : ""}`] : [])]) || "no place";
}

/** Where addresses lie: ranges of them, one above the other. Gaps that are greater than half of what the objects take are cut. */
function addressScale(extents, bottom, height) {
    const sorted = [...extents].sort((one, other) => (one.base < other.base ? -1 : one.base > other.base ? 1 : 0));
    const parts = [];
    for (const { base, top } of sorted) {
        const end = top > base ? top : base + 1n;
        const part = parts.at(-1);
        if (part && base <= part.to) part.to = end > part.to ? end : part.to;
        else parts.push({ from: base, to: end });
    }
    const taken = parts.reduce((sum, { from, to }) => sum + to - from, 0n);
    const gaps = parts.slice(1).map(({ from }, k) => ({ k, size: from - parts[k].to })).filter(({ size }) => 2n * size > taken)
        .sort((one, other) => (one.size > other.size ? -1 : 1)).slice(0, CUTS);
    const cuts = new Set(gaps.map(({ k }) => k));
    const ranges = [];
    parts.forEach(({ from, to }, k) => {
        if (k === 0 || cuts.has(k - 1)) ranges.push({ from, to });
        else ranges.at(-1).to = to;
    });
    const room = height - 8 * (ranges.length - 1);
    const least = Math.min(12, room / ranges.length);
    const all = Number(ranges.reduce((sum, { from, to }) => sum + to - from, 0n));
    let y = bottom;
    for (const it of ranges) {
        const share = least + (room - least * ranges.length) * (Number(it.to - it.from) / all);
        Object.assign(it, { low: y, high: y - share });
        y -= share + 8;
    }
    const place = (address) => {
        const it = ranges.find(({ to }) => address <= to) ?? ranges.at(-1);
        return it.low - Math.max(0, Math.min(1, Number(address - it.from) / Number(it.to - it.from))) * (it.low - it.high);
    };
    return { ranges, place };
}

/** One path of bars: those that cover the same pixels are in it once. */
class Bars {
    constructor() { Object.assign(this, { path: "", seen: new Set(), count: 0 }); }

    add(left, right, low, high) {
        const [x, y] = [Math.round(left), Math.round(high)];
        const [width, height] = [Math.max(1, Math.round(right) - x), Math.max(2, Math.round(low) - y)];
        const piece = `M${x} ${y}h${width}v${height > 4 ? height - 1 : height}h${-width}z`;
        this.count++;
        if (this.seen.has(piece)) return;
        this.seen.add(piece);
        this.path += piece;
    }

    drawn(kind, more = {}) { return shape("path", { d: this.path, class: kind, "data-count": this.count, ...more }); }
}

function pictureDrawing({ objects, samples, last }, asked, width) {
    const scale = addressScale([...objects, ...(asked ? [asked] : [])], HIGH, HIGH - 4);
    const names = scale.ranges.flatMap(({ from, to }) => [ox(from), ox(to)]);
    const left = Math.min(width / 3, Math.max(...names.map((it) => it.length)) * LETTER.number + 8);
    const right = width - 14;
    const end = last + 1;
    const x = (line) => left + ((line - 1) / Math.max(1, end - 1)) * (right - left);
    const [live, held] = [new Bars(), new Bars()];
    for (const { line, base, top, freed, gone } of objects) {
        const [low, high] = [scale.place(base), scale.place(top)];
        live.add(x(line), x(freed || end), low, high);
        if (freed && gone !== freed) held.add(x(freed), x(gone || end), low, high);
    }
    const nodes = [hatching(), live.drawn("bounds"), held.drawn("freed"), held.drawn("hatching", { fill: "url(#hatching)" })];
    for (const { low, high, from, to } of scale.ranges) {
        nodes.push(line(left, low, right, low, "leader"), words(left - 4, low - 1, ox(from), "number", "end"));
        if (low - high > 40) nodes.push(words(left - 4, high + 11, ox(to), "number", "end"));
    }
    const across = asked ? askedNodes(asked, scale, left, right) : { nodes: [] };
    if (objects.length <= NAMED && width > 600) nodes.push(...objects.flatMap((it) => nameNodes(it, x, scale, end, across.says)));
    nodes.push(...across.nodes);
    const curves = CURVES.flatMap((it, k) => curveNodes(it, samples, x, HIGH + 14 + k * (CURVE + 22), left, right));
    const bottom = HIGH + 14 + CURVES.length * (CURVE + 22);
    const below = labels([{ x: x(1), number: "line 1", note: "" }, { x: x(end), number: `line ${decimal(asked?.line ?? last)}`, note: "" }], width, bottom);
    return canvas(width, bottom + below.height + 4, ...nodes, ...curves, ...below.nodes);
}

/** The number of an object in its bar, where there is room, also for what is said at a height. */
function nameNodes({ number, line: at, base, top, freed, gone }, x, scale, end, says) {
    const [low, high] = [scale.place(base), scale.place(top)];
    const [left, right] = [x(at), x(freed ? gone || end : end)];
    const text = `object ${number}`;
    const isTaken = Math.abs((low + high) / 2 + 4 - says) < 14;
    if (isTaken || low - high < 16 || right - left < text.length * LETTER.note + 8) return [];
    return [words((left + right) / 2, (low + high) / 2 + 4, text, "note halo")];
}

const hatching = () => shape("defs", {}, shape("pattern", { id: "hatching", width: 6, height: 6, patternUnits: "userSpaceOnUse", patternTransform: "rotate(45)" },
    line(0, 0, 0, 6, "hatch")));

/** What the refused line asks for, across the picture, and who holds the object that it meets. */
function askedNodes({ base, top, object, line: at }, scale, left, right) {
    const [low, high] = [scale.place(top > base ? base : base), scale.place(top > base ? top : base + 1n)];
    const height = Math.max(4, low - high);
    const says = object ? `object ${object.number}: ${holdersSaid(object)}` : `line ${decimal(at)}`;
    const y = low - height > 18 ? low - height - 5 : low + 15;
    const nodes = [
        shape("rect", { x: left, y: low - height, width: right - left, height, class: "asked-across" }),
        shape("rect", { x: right - 4, y: low - height, width: 8, height, class: "refused-extent" }),
        line(right, 0, right, HIGH, "lost"),
        words(right - 8, y, says, "note lost halo", "end"),
    ];
    return { nodes, says: y };
}

/** A curve by lines, with its greatest value. */
function curveNodes([name, title], samples, x, y, left, right) {
    const values = samples.map((it) => Number(it[name]));
    const most = Math.max(0, ...values);
    const [low, high] = [y + 18 + CURVE, y + 20];
    const place = (value) => low - (most ? (value / most) * (low - high) : 0);
    const path = values.map((value, k) => `H${x(samples[k].line).toFixed(1)}V${place(value).toFixed(1)}`).join("");
    return [
        words(right - left < 400 ? 2 : left, y + 12, `${title}: at most ${decimal(most)}, at the end ${decimal(values.at(-1) ?? 0)}`, "note", "start"),
        line(left, low, right, low, "axis"),
        shape("path", { d: `M${left} ${low}${path}H${right}`, class: `curve ${name}` }),
    ];
}

/** A click on the picture leads to the line there. */
function stepByPicture(event) {
    const drawing = byId("pictured").firstElementChild;
    const bars = drawing?.querySelector(".axis");
    if (!bars) return;
    const { left, width } = drawing.getBoundingClientRect();
    const at = ((event.clientX - left) / width) * drawing.viewBox.baseVal.width;
    const [from, to] = ["x1", "x2"].map((name) => bars[name].baseVal.value);
    stepTo(1 + Math.round((at - from) / (to - from) * log.timeline.last));
}

function listenToPicture() {
    byId("picture").addEventListener("toggle", askPicture);
    byId("pictured").addEventListener("click", stepByPicture);
}
