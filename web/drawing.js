"use strict";
// The drawings. What is computed here are places on the screen; the numbers written beside them are passed in.

const shape = (name, attributes, ...children) => {
    const made = document.createElementNS("http://www.w3.org/2000/svg", name);
    for (const [key, value] of Object.entries(attributes)) made.setAttribute(key, value);
    made.append(...children);
    return made;
};
const line = (x1, y1, x2, y2, kind) => shape("line", { x1, y1, x2, y2, class: kind });
const words = (x, y, text, kind, anchor = "middle") => shape("text", { x, y, class: kind, "text-anchor": anchor }, text);
const bar = (left, right, y, height, kind) =>
    shape("rect", { x: Math.min(left, right - 3), y, width: Math.max(3, right - left), height, class: kind });

function canvas(width, height, ...children) {
    const frame = { width: width * zoom(), height: height * zoom(), viewBox: `0 0 ${width} ${height}`, "aria-hidden": "true" };
    return shape("svg", frame, ...children);
}

/** Numbers from `from` on, `size` of them, between two pixels. */
function scaled(from, size, left, right) {
    const x = (number) => left + (Number(((number - from) << 20n) / size) / 2 ** 20) * (right - left);
    const cut = (number) => Math.max(left, Math.min(right, x(number)));
    const at = (pixel) => from + (size * BigInt(Math.round(Math.max(0, Math.min(1, (pixel - left) / (right - left))) * 2 ** 20)) >> 20n);
    return { from, size, left, right, x, cut, at };
}

const LETTER = { number: 7.4, note: 6.6, strong: 8.2 };

/** Places labels of two lines below points of an axis, or of one where there are no notes, so that none lies on another
 * or on another's leader. */
function labels(points, width, top) {
    const high = points.some(({ note }) => note) ? 36 : 21;
    const merged = [];
    for (const { x, number, note } of points) {
        const same = merged.find((it) => it.number === number && Math.abs(it.x - x) < 1);
        if (same) same.note += `, ${note}`;
        else merged.push({ x, number, note });
    }
    merged.sort((one, other) => one.x - other.x);
    for (const it of merged) it.width = Math.max(it.number.length * LETTER.number, it.note.length * LETTER.note);
    let placed = null;
    for (let rows = 1; !placed && rows <= merged.length + 1; rows++) placed = placing(merged, [], rows, width);
    placed = placed || merged.map((it, row) => ({ ...it, row, anchor: "start", left: Math.min(it.x, width - it.width) }));
    const nodes = placed.flatMap(({ x, number, note, row, anchor, left, width: w }) => {
        const y = top + row * high;
        const text = anchor === "middle" ? left + w / 2 : anchor === "start" ? left : left + w;
        return [
            line(x, top - 6, x, y + (anchor === "middle" ? 2 : high - 6), "leader"),
            words(text, y + 14, number, "number", anchor), ...(note ? [words(text, y + 29, note, "note", anchor)] : []),
        ];
    });
    return { nodes, height: Math.max(0, ...placed.map((it) => it.row + 1)) * high };
}

function placing(wanted, placed, rows, width) {
    if (placed.length === wanted.length) return placed;
    const it = wanted[placed.length];
    for (let row = 0; row < rows; row++) {
        for (const anchor of ["middle", "start", "end"]) {
            const shift = { middle: -it.width / 2, start: 5, end: -it.width - 5 }[anchor];
            const left = anchor === "middle" ? Math.max(0, Math.min(width - it.width, it.x + shift)) : it.x + shift;
            const mine = { ...it, row, anchor, left };
            if (left < 0 || left + it.width > width || placed.some((other) => collide(mine, other))) continue;
            const rest = placing(wanted, [...placed, mine], rows, width);
            if (rest) return rest;
        }
    }
    return null;
}

function collide(one, other) {
    const covers = (box, x) => x > box.left - 4 && x < box.left + box.width + 4;
    const apart = one.left > other.left + other.width + 10 || other.left > one.left + one.width + 10;
    if (one.row === other.row) {
        return !apart || (one.anchor !== "middle" && covers(other, one.x)) || (other.anchor !== "middle" && covers(one, other.x));
    }
    const [upper, lower] = one.row < other.row ? [one, other] : [other, one];
    return covers(upper, lower.x);
}

/** What the drawing of a capability shows of the address space: its representable range with a quarter of it
 * on either side, or all of the space, twice it where the top lies above. */
function domainOf(facts, width) {
    const { range, bounds } = facts;
    if (!range.every) {
        const quarter = range.size / 4n;
        const centre = range.start + range.size / 2n;
        const place = (number) => centre + BigInt.asIntN(64, number - centre);
        return { ...scaled(range.start - quarter, range.size + 2n * quarter, 0, width), place, end: range.start + range.size };
    }
    const size = bounds.top > SPACE ? 2n * SPACE : SPACE;
    return { ...scaled(0n, size, 0, width), place: (number) => number, end: size };
}

/** The address line: bounds and representable range to scale, and the address that is tried. */
function rangeDrawing(facts, tried, width) {
    const { range, bounds, scale } = facts;
    const domain = domainOf(facts, width);
    const { x, cut, place } = domain;
    const [high, low] = [74, 108];
    const nodes = [];
    const zone = (from, to, text) => {
        nodes.push(bar(cut(from), cut(to), high, low - high, "outside"));
        if (cut(to) - cut(from) > text.length * 6) nodes.push(words((cut(from) + cut(to)) / 2, high - 6, text, "note lost"));
    };
    if (!range.every) {
        zone(domain.from, range.start, "bounds lost");
        zone(domain.end, domain.from + domain.size, "bounds lost");
        nodes.push(bar(x(range.start), x(domain.end), high + 8, low - high - 8, "range"));
    } else {
        nodes.push(bar(0, x(SPACE), high + 8, low - high - 8, "range"));
        if (domain.size > SPACE) zone(SPACE, domain.size, "above 2^64");
    }
    const base = place(bounds.base);
    const top = base + bounds.top - bounds.base;
    if (top >= base) nodes.push(bar(cut(base), cut(top), high, low - high, "bounds"));
    const lost = [];
    if (tried && !tried.keeps) {
        const other = place(tried.bounds.base);
        const end = other + tried.bounds.top - tried.bounds.base;
        const seen = end > domain.from && other < domain.from + domain.size;
        if (seen) {
            nodes.push(bar(cut(other), cut(end), high + 3, low - high - 3, "ghost"));
            const { bounds: there } = tried;
            lost.push({ x: (cut(other) + cut(end)) / 2, number: `${hex(there.base)}..${hex(there.top)}`, note: "bounds there" });
        }
    }
    nodes.push(line(0, low, width, low, "axis"));
    const eighth = scale.step << (facts.fields.ie ? 8n : 11n);
    const first = range.every ? 0n : range.start;
    for (let at = first; at <= domain.end; at += eighth) nodes.push(line(x(at), low, x(at), low + 7, "tick"));
    const points = [
        { x: x(base), number: hex(bounds.base), note: "base" },
        { x: cut(top), number: hex(bounds.top), note: "top" },
        { x: x(place(facts.fields.address)), number: hex(facts.fields.address), note: "address" },
        ...lost,
    ];
    if (!range.every) {
        points.push({ x: x(range.start), number: hex(range.start), note: "range begins" });
        if (facts.end !== null) points.push({ x: x(domain.end), number: hex(facts.end), note: "range ends" });
        const zero = place(0n);
        if (zero > domain.from && zero < domain.from + domain.size) {
            nodes.push(line(x(zero), high - 4, x(zero), low + 7, "zero"));
            points.push({ x: x(zero), number: "0", note: "addresses wrap" });
        }
    }
    const below = labels(points, width, low + 14);
    nodes.push(...below.nodes, ...marker(domain, tried, width, low));
    return { svg: canvas(width, low + 18 + below.height, ...nodes), domain };
}

/** The address that is tried, with its handle. */
function marker(domain, tried, width, low) {
    if (!tried) return [];
    const place = domain.x(domain.place(tried.address));
    const at = Math.max(11, Math.min(width - 11, place));
    const kind = tried.keeps ? "tried" : "tried lost";
    const says = `${hex(tried.address)} ${tried.keeps ? "keeps the bounds" : "loses the bounds"}`;
    const text = place < 0 ? `← ${says}` : place > width ? `${says} →` : says;
    const half = (text.length * LETTER.strong) / 2;
    return [
        ...(tried.typed ? [words(Math.max(half, Math.min(width - half, at)), 14, text, `number ${kind}`)] : []),
        line(at, 34, domain.cut(domain.place(tried.address)), low, kind),
        shape("circle", { cx: at, cy: 34, r: 10, class: kind }),
        !tried.typed ? shape("path", { d: `M${at - 2} 30l-4 4l4 4m4 -8l4 4l-4 4`, class: "sign" })
            : tried.keeps ? shape("path", { d: `M${at - 4} 34l3 4l5 -7`, class: "sign" })
            : shape("path", { d: `M${at - 4} 30l8 8m0 -8l-8 8`, class: "sign" }),
    ];
}

/** The neighbourhood of one bound, magnified: a tick for each unit, a long one where a bound can lie. */
function nearDrawing({ bound, scale, ie, bars, points }, width) {
    const unit = ie ? scale.step >> 3n : 1n;
    const { from, size, x, cut } = scaled(bound - 24n * unit, 48n * unit, 0, width);
    const end = from + size;
    const low = 14 + bars.length * 28;
    const nodes = [];
    if (from < 0n) nodes.push(bar(0, x(0n), 8, low - 8, "outside"));
    if (end > SPACE && bound <= SPACE) nodes.push(bar(x(SPACE), width, 8, low - 8, "outside"));
    bars.forEach(({ base, top, kind }, row) => {
        if (base < end && top > from) nodes.push(bar(cut(base), cut(top), 12 + row * 28, 22, kind));
    });
    nodes.push(line(0, low, width, low, "axis"));
    for (let at = (from / unit) * unit; at <= end; at += unit) {
        const long = ie ? at % scale.step === 0n : true;
        if (at >= from && at >= 0n) nodes.push(line(x(at), low, x(at), low + (long ? 14 : 6), long ? "tick long" : "tick"));
    }
    const seen = points.filter(({ at }) => at >= from && at <= end);
    const below = labels(seen.map(({ at, number, note }) => ({ x: x(at), number, note })), width, low + 20);
    return canvas(width, low + 24 + below.height, ...nodes, ...below.nodes);
}

/** A request above what it is rounded to, to scale. The padding at each side is marked. */
function requestDrawing({ base, length, rounded, lost }, width) {
    const room = (rounded.top - rounded.base) / 8n + 2n;
    const { x } = scaled(rounded.base - room, rounded.top - rounded.base + 2n * room, 0, width);
    const low = 108;
    const nodes = [
        words(x(rounded.base), 14, "requested", "note", "start"), bar(x(base), x(base + length), 20, 28, "asked"),
        words(x(rounded.base), 66, "rounded", "note", "start"), bar(x(rounded.base), x(rounded.top), 72, 28, "bounds"),
        ...(lost.below ? [bar(x(rounded.base), x(base), 72, 28, "padding")] : []),
        ...(lost.above ? [bar(x(base + length), x(rounded.top), 72, 28, "padding")] : []),
        line(0, low, width, low, "axis"),
    ];
    const points = [
        { x: x(base), number: hex(base), note: "requested base" },
        { x: x(base + length), number: hex(base + length), note: "requested top" },
        { x: x(rounded.base), number: hex(rounded.base), note: "base" },
        { x: x(rounded.top), number: hex(rounded.top), note: "top" },
    ];
    const below = labels(points, width, low + 8);
    return canvas(width, low + 12 + below.height, ...nodes, ...below.nodes);
}

/** Ranges with what of each goes beyond the source's or the authority's bounds, where it asks for some of these. */
function withExcess(bars, owner = { request: "source", rounded: "source", access: "authority" }) {
    return bars.map((it) => {
        const within = bars.find(({ name }) => name === owner[it.name]);
        if (!within) return it;
        const below = within.base > it.base ? { base: it.base, top: it.top < within.base ? it.top : within.base } : null;
        const above = it.top > within.top ? { base: it.base > within.top ? it.base : within.top, top: it.top } : null;
        const sized = (part, side) => (part ? [`${counted(part.top - part.base, "byte")} ${side}`] : []);
        const says = [...sized(below, "below"), ...sized(above, "above")].join(", ");
        return { ...it, excess: [below, above].filter((part) => part !== null), says: says && `${says} the ${within.name}'s bounds` };
    });
}

/** Bars of the same range as one, with all their names, unless one has no tag, was freed or is refused and the other not. */
function alike(bars) {
    const rows = [];
    const group = ({ kind }) => (["untagged", "freed", "refused-extent"].includes(kind) ? kind : "");
    for (const it of bars) {
        const same = rows.find((other) => other.base === it.base && other.top === it.top && group(other) === group(it));
        if (!same) rows.push({ excess: [], says: "", ...it, names: [it.name] });
        else {
            same.names.push(it.name);
            if (!same.says && it.says) Object.assign(same, { says: it.says, excess: it.excess });
        }
    }
    return rows;
}

/** Strokes across a rectangle, for what has no tag or was freed. */
function hatched(left, right, y, height) {
    let path = "";
    for (let at = left - height; at < right; at += 7) {
        const [from, to] = [Math.max(left, at), Math.min(right, at + height)];
        if (to > from) path += `M${from} ${y + height - (from - at)}L${to} ${y + height - (to - at)}`;
    }
    return shape("path", { d: path, class: "hatch" });
}

const NEAR_ENDS = 16n; // an end is near ranges if it is at most so many times their size away
const extremes = (all) => all.reduce(([least, most], at) => [at < least ? at : least, at > most ? at : most], [all[0], all[0]]);

/** Ranges one below the other on one axis, each below its names; equal ones are drawn once. What goes beyond others is
 * red, what has no tag or was freed hatched. Where some are far smaller than others, the axis is for those and for the
 * ends near them, and an arrow says that a range goes on. */
function axisDrawing(bars, width) {
    const rows = alike(bars);
    const sizes = rows.map(({ base, top }) => top - base).filter((size) => size > 0n);
    const least = sizes.reduce((one, other) => (other < one ? other : one), sizes[0] ?? 1n);
    const near = rows.filter(({ base, top }) => top - base <= least << 12n);
    const all = rows.flatMap(({ base, top }) => [base, top]);
    const [low, high] = extremes(near.flatMap(({ base, top }) => [base, top]));
    const [from, end] = extremes(all.filter((at) => at >= low - NEAR_ENDS * (high - low) && at <= high + NEAR_ENDS * (high - low)));
    const room = (end - from) / 8n + 1n;
    const axis = scaled(from - room, end - from + 2n * room, 12, width - 12);
    let y = 0;
    const nodes = rows.flatMap((it) => {
        const { nodes, height } = axisRow(it, axis, y);
        y += height;
        return nodes;
    });
    const seen = all.filter((at) => axis.x(at) >= axis.left && axis.x(at) <= axis.right);
    const points = [...new Set(seen)].map((at) => ({ x: axis.x(at), number: hex(at), note: "" }));
    const below = labels(points, width, y + 8);
    const guides = points.map(({ x }) => line(x, 4, x, y, "leader"));
    return canvas(width, y + 12 + below.height, ...guides, ...nodes, line(axis.left, y, axis.right, y, "axis"), ...below.nodes);
}

/** A row: names, what is too much, and the bar. */
function axisRow({ names, base, top, kind, excess, says }, axis, y) {
    const { left, right } = axis;
    const title = `${names.join(", ")}${kind === "untagged" ? ", no tag" : ""}`;
    const isLong = (title.length + says.length + 2) * LETTER.note > right;
    const under = (x, at, text) => shape("rect", { x, y: at - 12, width: text.length * LETTER.note + 4, height: 15, class: "under" });
    const nodes = [under(0, y + 13, title), words(0, y + 13, title, "note halo", "start")];
    if (says) nodes.push(under(isLong ? 0 : title.length * LETTER.note + 14, y + (isLong ? 29 : 13), says));
    if (says) nodes.push(words(isLong ? 0 : title.length * LETTER.note + 14, y + (isLong ? 29 : 13), says, "note lost halo", "start"));
    const at = y + (isLong && says ? 34 : 18);
    const [x1, x2] = [axis.cut(base), axis.cut(top)];
    nodes.push(bar(x1, x2, at, 16, kind));
    if (kind === "untagged" || kind === "freed") nodes.push(hatched(x1, x2, at, 16));
    for (const part of excess) {
        const [from, to] = [axis.cut(part.base), axis.cut(part.top)];
        if (to > left && from < right) nodes.push(bar(from, to, at, 16, "excess"));
    }
    if (axis.x(base) < left) nodes.push(shape("path", { d: `M${left} ${at}l-8 8l8 8z`, class: kind }));
    if (axis.x(top) > right) nodes.push(shape("path", { d: `M${right} ${at}l8 8l-8 8z`, class: kind }));
    return { nodes, height: at - y + 24 };
}
