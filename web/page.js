"use strict";
// The page: what its fields hold, what is shown of it, and the link that has both.

const byId = (id) => document.getElementById(id);
const make = (tag, attributes, ...children) => {
    const made = document.createElement(tag);
    for (const [key, value] of Object.entries(attributes)) made.setAttribute(key, value);
    made.append(...children);
    return made;
};

/** What is typed and can't be taken; its text is beside the field. */
class Refused extends Error {}

let c = null;

// ---- What is typed ----

function hexadecimal(digits) {
    const other = [...digits].find((letter) => !/[0-9a-f]/.test(letter));
    if (other !== undefined) throw new Refused(`“${other}” isn't a hexadecimal digit.`);
    return digits;
}

function exactly(digits, wanted) {
    if (digits.length === wanted) return digits;
    const gap = digits.length < wanted ? `${wanted - digits.length} missing` : `${digits.length - wanted} too many`;
    throw new Refused(`${digits.length} digits instead of ${wanted}: ${gap}.`);
}

/** The word that a text has in the register's order: its digits alone, or as others print it; of several lines the one
 * that is chosen. With it what was told besides: a tag, a register, what the word can't have. */
function foundIn(text, which = 0) {
    if (text.trim() === "") throw new Refused("Type 32 hexadecimal digits.");
    const all = pasted(text);
    const it = all[which] ?? all[0];
    if (!it) return { all, word: read(wordDigits(text)), tag: null, says: "" };
    if (it.parts) return { all, ...it, ...madeOf(c, it.parts) };
    if (it.memory) return { all, ...it, word: wordOfBytes(it.memory), says: "It was read from memory, in order of address." };
    const word = read(it.digits);
    const says = [...(it.says ?? []), ...(it.beside ? [disputed(c, word, it.beside)] : [])].filter((one) => one !== "");
    return { all, ...it, word, says: says.join(" ") };
}

/** Spaces and underscores between digits, `0x` before them, and upper-case digits are taken. */
const plainDigits = (text) => text.trim().toLowerCase().replace(/^0x/, "").replace(/[\s_]/g, "");
const digitsOf = (text) => hexadecimal(plainDigits(text));

// The forms of a text for a capability, for one that has none of them.
const ACCEPTED = "None of the accepted forms: 32 digits; TAG and 32 digits; 0xHIGH 0xLOW; 0xADDRESS [rwxRW,0xBASE-0xTOP]; "
    + "v:1 p:PERMS b:BASE l:LENGTH o:OFFSET; a dump of memory; or a line of a log.";

/** The digits of a word. A text that isn't nearly that is told the forms. */
function wordDigits(text) {
    const register = addressAlone(text);
    if (register) throw new Refused(`${register} has a number of at most 16 digits beside it, an address alone: a capability has 32 digits.`);
    if (granulesIn(text)) throw new Refused("No 16 bytes from a multiple of 16 on are whole in this dump of memory: a capability has 16 bytes there.");
    const digits = plainDigits(text);
    const strange = digits.replace(/[0-9a-f]/g, "");
    if ([...strange].length > 1 || /[[\]:=,]/.test(strange)) throw new Refused(ACCEPTED);
    return exactly(hexadecimal(digits), 32);
}

/** Bytes may be separated by spaces, commas or underscores, and each may have its own `0x`. */
function bytesOf(text) {
    const parts = text.trim().toLowerCase().split(/[\s,_]+/).filter((part) => part !== "");
    const digits = parts.map((part) => {
        if (!part.startsWith("0x")) return part;
        if (part.length === 4 || parts.length === 1) return part.slice(2);
        throw new Refused(`“${part}” is a number, not a byte: write the bytes in order of address.`);
    });
    return exactly(hexadecimal(digits.join("")), 32);
}

const wordOfBytes = (digits) => c.fromMemory(Uint8Array.from(digits.match(/../g), (byte) => parseInt(byte, 16)));

/** The word that a text has in memory order: bytes, or a dump of memory with their addresses. */
function fromMemory(text, which = 0) {
    if (text.trim() === "") throw new Refused("Type 32 hexadecimal digits.");
    if (granulesIn(text)) return foundIn(text, which);
    return { all: [], word: wordOfBytes(bytesOf(text)), says: "" };
}

function numberOf(text) {
    const digits = digitsOf(text);
    if (digits === "") throw new Refused("Type a hexadecimal number.");
    if (digits.length > 16) throw new Refused(`${digits.length} digits, and at most 16 are accepted.`);
    return read(digits.padStart(32, "0")).low;
}

/** A length; that of the whole address space is no length of a request. */
function lengthOf(text) {
    if (/^10{16}$/.test(plainDigits(text))) throw new Refused("2^64 bytes are the whole address space: a request has at most ffffffffffffffff.");
    return numberOf(text);
}

function offsetOf(text) {
    if (!/^[+-]?\d{1,18}$/.test(text.trim())) throw new Refused("Type a decimal number from -2048 to 2047, such as -8.");
    const offset = BigInt(text.trim().replace("+", ""));
    if (offset < -2048n || offset > 2047n) throw new Refused(`${offset} is out of range: an offset is a number from -2048 to 2047.`);
    return offset;
}

function read(digits) {
    const { present, word } = c.readWord(digits);
    if (!present) throw new Error("it doesn't read 32 digits");
    return word;
}

/** What a field holds, or null where it can't be taken; the field says why. */
function taken(id, reading) {
    const field = byId(id);
    let value = null;
    let problem = "";
    try {
        value = reading(field.value);
    } catch (fault) {
        if (!(fault instanceof Refused)) throw fault;
        problem = fault.message;
    }
    refuse(id, problem);
    return value;
}

function refuse(id, problem) {
    byId(id).setAttribute("aria-invalid", String(problem !== ""));
    if (byId(`${id}-error`).textContent !== problem) byId(`${id}-error`).textContent = problem;
}

// ---- What is shown ----

// Drawings are made for letters of 16 pixels, and grow with the letters of the page.
const zoom = () => parseFloat(getComputedStyle(document.documentElement).fontSize) / 16;
const widthOf = (id) => Math.max(280, Math.floor(byId(id).clientWidth / zoom()));

const row = ([name, value, remark]) =>
    make("tr", {}, make("th", { scope: "row" }, name), make("td", {}, value, ...(remark ? [make("small", {}, remark)] : [])));

function fill(id, rows) {
    byId(id).tBodies[0].replaceChildren(...rows.map(row));
}

function figure(caption, drawing) {
    return make("figure", { role: "img", "aria-label": caption }, make("figcaption", {}, caption), drawing);
}

const opened = new Set();

/** A word that opens a line of text. */
function term(name, text) {
    const button = make("button", { type: "button", class: "term", "data-term": name, "aria-expanded": String(opened.has(name)) }, text);
    return opened.has(name) ? [button, make("span", { class: "meaning" }, TERMS[name])] : [button];
}

function openTerm(name) {
    if (!opened.delete(name)) opened.add(name);
    show();
    document.querySelector(`section:not([hidden]) [data-term=${name}]`)?.focus();
}

const shown = { facts: null, domain: null, tried: null, exact: null };

function showCapability() {
    const order = document.querySelector("[name=order]:checked").value;
    const which = Number(chosen.which);
    const found = taken("word", (text) => (order === "memory" ? fromMemory : foundIn)(text, which));
    byId("capability").querySelector(".results").hidden = found === null;
    shown.facts = null;
    showChoice(found?.all ?? []);
    byId("made").textContent = "";
    byId("taken").textContent = "";
    byId("offer").replaceChildren();
    if (found === null) return;
    const { word } = found;
    const facts = factsOf(c, { word, tag: Number(byId("tag").checked) });
    shown.facts = facts;
    showTaken(found, facts, order);
    byId("means").textContent = sentenceOf(c, facts);
    byId("perms").replaceChildren(permissionsOf(facts));
    byId("type").textContent = found.isUnknown ? "Object type not told; the text says that it is sealed, and type 0x0 is in its place."
        : `Object type ${ox(facts.fields.otype)}, ${facts.kind}.`;
    showTried(facts);
    showGrid(facts);
    showLines(facts);
}

/** The lines of `capcheck explain`, and the length; names that are terms open their texts. */
function showLines(facts) {
    fill("lines", explained(facts));
    for (const it of byId("lines").tBodies[0].rows) {
        const [{ textContent: name }] = it.cells;
        if (!(name in TERMS)) continue;
        const [button, ...meaning] = term(name, name);
        it.cells[0].replaceChildren(button);
        it.cells[1].append(...meaning);
    }
    if (!facts.sound) return;
    const length = ["length", `${ox(facts.length)}, ${counted(facts.length, "byte")}`, "the top minus the base; capcheck doesn't print it"];
    byId("lines").tBodies[0].rows[13].after(row(length));
}

/** Where bounds can lie, and both of them magnified. */
function showGrid(facts) {
    const { fields, scale, range } = facts;
    byId("range-says").replaceChildren(...(range.every
        ? ["Every address keeps these bounds: the ", ...term("range", "representable range"), " is the whole address space."]
        : ["The ", ...term("range", "representable range"), ` is ${ox(range.size)} addresses from ${ox(range.start)} on, 2^14 units of `
            + `2^${scale.cut} bytes; a tick is an eighth of it. Where an address leaves it, the digits mean other bounds.`]));
    byId("grid-says").textContent = (fields.ie
        ? `E is ${fields.e}. A short tick is a unit, 2^${scale.cut} bytes; a bound can lie at each long one, `
            + `8 units, ${ox(scale.step)} bytes apart.`
        : "Without an exponent (ie 0) the unit is one byte, and a bound can lie at each tick.")
        + (facts.sound ? ` The length is ${ox(facts.length)} bytes.` : ` The word isn't sound: ${facts.why}.`);
    const { base, top } = facts.bounds;
    const near = (bound, note) => nearDrawing({
        bound, scale, ie: fields.ie, bars: base <= top ? [{ base, top, kind: "bounds" }] : [],
        points: [
            { at: bound, number: hex(bound), note },
            { at: fields.address, number: hex(fields.address), note: "address" },
        ],
    }, widthOf("near") >= 660 ? Math.floor((widthOf("near") - 16) / 2) : widthOf("near"));
    byId("near").replaceChildren(figure("At the base", near(base, "base")), figure("At the top", near(top, "top")));
}

// What the link has beside the fields: the word that is chosen in a dump, a log that is packed, marked lines, and what is
// asked of a run log.
const chosen = { which: "0", packed: "", marks: "", freed: "", owned: "" };
const CHOSEN = {
    which: /^\d{1,4}$/, packed: /^[\w-]*$/, marks: /^(\d{1,9}(,\d{1,9})*)?$/, freed: /^(used|both)?$/, owned: /^1?$/,
};
const OPTIONAL = ["packed", "marks", "freed", "owned"]; // not in a link where they are empty

/** The words of a dump, of which one is chosen. */
function showChoice(all) {
    byId("choice").hidden = all.length < 2;
    byId("which").replaceChildren(...all.map(({ name, tag, digits, memory, parts }, k) => {
        const shown = digits ?? memory ?? span({ base: parts.base, top: parts.base + parts.length });
        const says = `${name ? `${name}: ` : ""}${tag ?? ""} ${shown}`;
        return make("option", { value: k, ...(k === Number(chosen.which) ? { selected: "" } : {}) }, says.trim());
    }));
    byId("which").size = Math.min(8, Math.max(2, all.length));
    document.querySelector("label[for=which]").textContent = `${all.length} capabilities: choose one`;
}

/** What was taken of a text that isn't just digits, and what it would be read the other way. */
function showTaken({ says, name, parts, memory, digits, isHalves }, facts, order) {
    const plain = byId("word").value.trim().toLowerCase() === facts.text;
    const whose = `${name ? `, of ${name}` : ""}: ${facts.text}${parts ? ", made by the library" : ""}`;
    byId("taken").textContent = (order === "memory" && !memory) || plain ? "" : `Taken${whose}. ${says}`.trim();
    // Almost any digits are sound: what a word is likely to be has its address in its bounds too.
    const isLikely = (it) => c.sound(it) && c.contains(it, c.split(it).address, 1n);
    if (isLikely(facts.word) || order === "memory" || !digits) return;
    const offer = (other, text, label, act) => {
        if (!isLikely(other)) return;
        const button = make("button", { type: "button", class: "small" }, label);
        button.addEventListener("click", () => { act(); changed(); });
        const also = facts.sound ? ", and its address lies in its bounds" : "";
        byId("offer").append(`${text}: the other way it is sound${also}. `, button, " ");
    };
    offer(wordOfBytes(digits), "Looks like memory order", "Read it so", () => {
        byId("word").value = digits;
        setValue("order", "memory");
    });
    const turned = digits.slice(16) + digits.slice(0, 16);
    if (isHalves) offer(read(turned), "Looks like the low half first", "Turn the halves", () => { byId("word").value = turned; });
}

function permissionsOf({ view }) {
    return make("ul", { class: "perms" }, ...PERMISSIONS.map(([bit, name]) => view & bit
        ? make("li", {}, name)
        : make("li", { class: "lacks" }, make("span", { class: "unseen" }, "lacks "), name)));
}

function showTried(facts) {
    const typed = byId("to").value.trim() !== "";
    const address = typed ? taken("to", numberOf) : facts.fields.address;
    if (!typed) refuse("to", "");
    const cap = { word: facts.word, tag: facts.tag };
    const tried = address === null ? null : { ...moved(c, cap, address), typed };
    const { svg, domain } = rangeDrawing(facts, tried, widthOf("range"));
    byId("range").replaceChildren(svg);
    Object.assign(shown, { domain, tried });
    byId("take").disabled = !typed || tried === null;
    refocus();
    byId("to-says").replaceChildren(...(typed && tried ? triedText(facts, tried) : []));
    if (!tried) return;
    const place = domain.cut(domain.place(address)) / (domain.right - domain.left);
    byId("range").setAttribute("aria-valuenow", String(Math.round(place * 1000)));
    byId("range").setAttribute("aria-valuetext", 
        typed ? `${ox(address)}, ${tried.keeps ? "keeps the bounds" : "loses the bounds"}` : `${ox(address)}, the address itself`);
}

function triedText(facts, tried) {
    const there = ox(tried.address);
    if (!tried.keeps) {
        const strict = tried.strict.refusal ? `setaddr is refused: ${refusal(tried.strict.refusal)}`
            : "the word has no tag, so nothing refuses it";
        const clear = !facts.tag ? "" : tried.clear.tag ? "; in clear mode the tag stays" : "; in clear mode the tag goes";
        return [
            make("span", { class: "lost-text" }, `${there} loses the bounds`),
            `: with it the word has ${span(tried.bounds)}. At this address ${strict}${clear}.`,
        ];
    }
    const outside = ", and lies outside them: it may come back, but nothing can be reached there";
    const inside = !facts.sound ? "" : tried.inside ? ", and lies inside them" : outside;
    const sealed = tried.strict.refusal ? ` setaddr is refused all the same: ${refusal(tried.strict.refusal)}.` : "";
    return [`${there} keeps the bounds${inside}.${sealed}`];
}

const refusal = (number) => `${number} ${c.refusalName(number)}`;

function showRequest() {
    const base = taken("base", numberOf);
    const length = taken("length", lengthOf);
    const facts = base === null || length === null ? null : requestFacts(c, base, length);
    const beyond = facts !== null && facts.rounded.top > SPACE;
    if (beyond) refuse("length", "Base plus length is above 2^64, where addresses end: there is no such request.");
    byId("request").querySelector(".results").hidden = facts === null || beyond;
    if (facts === null || beyond) return;
    const { rounded, scale } = facts;
    byId("rounding").replaceChildren(requestDrawing(facts, widthOf("rounding")));
    const end = base + length;
    byId("rounding-says").textContent = `Requested: ${span({ base, top: end })}, ${counted(length, "byte")}. `
        + (rounded.exact ? "Both bounds are the requested ones." : `Rounded: ${span(rounded)}, ${paddingAtSides(facts)}. `
        + `With E ${rounded.e} bounds can lie at multiples of ${ox(scale.step)}, 8 units of 2^${scale.cut} bytes. `
        + (rounded.e ? "With a smaller E there would be 1024 of its steps or more between them, and a word has room for 1023."
            : "From a length of 4096 on the word contains an exponent, which takes three bits of each bound."));
    byId("rounding").setAttribute("aria-label", `Requested: ${span({ base, top: end })}. Rounded: ${span(rounded)}.`);
    showTakeExact(facts);
    const near = (bound, note, request) => nearDrawing({
        bound, scale, ie: rounded.ie,
        bars: [{ base, top: end, kind: "asked" }, { base: rounded.base, top: rounded.top, kind: "bounds" }],
        points: [{ at: bound, number: hex(bound), note }, request],
    }, widthOf("ends") >= 660 ? Math.floor((widthOf("ends") - 16) / 2) : widthOf("ends"));
    const asked = (at, number) => ({ at, number, note: "requested" });
    byId("ends").replaceChildren(
        figure("At the base: requested above, rounded below", near(rounded.base, "base", asked(base, hex(base)))),
        figure("At the top: requested above, rounded below", near(rounded.top, "top", asked(end, hex(end)))));
    fill("round-lines", [
        ["base", hex(rounded.base, 16), `the requested base, ${hex(base)}, rounded down: ${paddingIn(facts.lost.below)}`],
        ["top", hex(rounded.top, 17), `the requested top, ${hex(end)}, rounded up: ${paddingIn(facts.lost.above)}`],
        ["ie", String(rounded.ie), rounded.ie ? "the word contains an exponent, from a length of 4096 on" : "the word contains no exponent"],
        ["e", String(rounded.e), rounded.ie ? "the least exponent for this length" : "without an exponent, 0"],
        ["exact", rounded.exact ? "yes" : "no", "whether both bounds are the requested ones"],
    ]);
    fill("exact-lines", exactRows(facts));
}

const paddingIn = (bytes) => (bytes ? `${counted(bytes, "byte")} of padding` : "no padding");
const paddingAtSides = ({ lost }) => `with ${counted(lost.below, "byte")} of padding below and ${counted(lost.above, "byte")} above`;

/** The button that takes the least length and the next aligned base with which the request is exact. */
function showTakeExact({ rounded, wanted, below, above }) {
    const at = rounded.exact ? null : above ?? below;
    shown.exact = at && { base: at.base, length: wanted };
    byId("take-exact").hidden = !at;
    if (at) byId("take-exact").textContent = `Take an exact request: ${ox(wanted)} bytes from ${ox(at.base)}`;
}

function exactRows(facts) {
    const { wanted, mask, whole, alignment, below, above } = facts;
    const place = (got) => (got ? `${hex(got.base, 16)} up to ${hex(got.top, 17)}` : "none");
    return [
        ["length", hex(wanted, 17), whole ? "only the whole address space, 2^64 bytes, is exact"
            : `${decimal(wanted)} bytes: the least length from the requested one on that can be exact`],
        ["alignment", hex(alignment), `${decimal(alignment)} bytes: with this length the request is exact if the base is a multiple of it`],
        ["mask", hex(mask, 16), "base AND mask is the base if it is such a multiple"],
        ["at or before", place(below), "the last exact place for that length at or before the base"],
        ["at or after", place(above), "the next exact place for that length at or after the base"],
    ];
}

function showOperation() {
    const operation = OPERATIONS[byId("do").value];
    const { takes } = operation;
    for (const field of byId("operation").querySelectorAll("[data-takes]")) {
        field.hidden = !field.dataset.takes.split(" ").some((name) => takes.includes(name));
    }
    const value = takes.find((name) => ["length", "address", "mask"].includes(name));
    if (value) document.querySelector("label[for=value]").textContent = `${value[0].toUpperCase()}${value.slice(1)}, hexadecimal`;
    const cap = (id) => {
        const found = taken(id, (text) => foundIn(text));
        byId(`${id}-taken`).textContent = found?.says ? `Taken: ${c.textOf(found.word)}. ${found.says}` : "";
        return found && { word: found.word, tag: Number(byId(`${id}tag`).checked) };
    };
    const given = {};
    if (takes.includes("source")) given.source = cap("source");
    if (takes.includes("authority")) given.authority = cap("authority");
    if (value) given.value = taken("value", numberOf);
    if (takes.includes("offset")) given.offset = taken("offset", offsetOf);
    if (takes.includes("size")) given.size = BigInt(byId("size").value);
    const whole = Object.values(given).every((it) => it !== null);
    byId("operation").querySelector(".results").hidden = !whole;
    if (!whole) return;
    byId("outcomes").replaceChildren(...outcomes(byId("do").value, operation, given));
    const bars = rangesOf(c, operation, given);
    byId("ranges").setAttribute("aria-label", bars.map(({ name, ...it }) => `${name} ${span(it)}`).join("; "));
    byId("ranges").replaceChildren(axisDrawing(bars, widthOf("ranges")));
}

function outcomes(name, operation, given) {
    if (operation.access) {
        const { address, refusal: number } = operation.access(c, given);
        if (number) return [refused(["In both modes"], name, given, number)];
        const cap = operation.result && operation.result(c, given);
        const what = { lc: "the register gets", sc: "memory gets" }[name];
        return [outcome(["In both modes"], `Allowed, at ${ox(address)}${what ? `; ${what}` : ""}`, cap)];
    }
    const strict = operation.strict(c, given);
    const clear = operation.clear(c, given);
    const headings = { Strict: term("strict", "Strict"), Clear: term("clear", "Clear") };
    const lost = strict.refusal && given.source.tag ? `The result has no tag: ${refusal(strict.refusal)}` : "The result";
    return [
        strict.refusal ? refused(headings.Strict, name, given, strict.refusal) : outcome(headings.Strict, "The result", strict.cap),
        outcome(headings.Clear, lost, clear),
    ];
}

function refused(mode, name, given, number) {
    return make("div", { class: "outcome refused" }, make("h3", {}, ...mode),
        make("p", {}, "Refused: ", make("span", { class: "name" }, refusal(number))), make("p", {}, compared(c, name, given, number)));
}

function outcome(mode, says, cap) {
    const made = make("div", { class: "outcome" }, make("h3", {}, ...mode), make("p", {}, says));
    if (!cap) return made;
    const text = c.textOf(cap.word);
    const link = new URLSearchParams({ show: "capability", word: text, order: "register", tag: cap.tag, to: "" });
    made.append(
        make("p", { class: "mono" }, `${cap.tag} ${text}`),
        make("p", {}, `bounds ${span(c.decode(cap.word))}, permissions ${ox(c.permView(cap.word))}, `
            + `object type ${ox(c.split(cap.word).otype)}${c.sound(cap.word) ? "" : "; not sound"}`),
        make("p", {}, make("a", { href: `#${link}` }, "Show this capability")));
    return made;
}

// ---- What a link has ----

const VIEWS = { capability: showCapability, request: showRequest, operation: showOperation, log: showLog };
const FIELDS = {
    capability: ["word", "which", "order", "tag", "to"],
    request: ["base", "length"],
    operation: ["do", "source", "sourcetag", "authority", "authoritytag", "value", "offset", "size"],
    log: ["text", "packed", "line", "marks", "freed", "owned"],
};
const defaults = {};
let view = "capability";
let writing = 0;

const controlsOf = (name) => (name === "order" ? [...document.querySelectorAll("[name=order]")] : [byId(name)]);

function valueOf(name) {
    if (name in chosen) return chosen[name];
    const control = controlsOf(name).find((it) => it.type !== "radio" || it.checked);
    if (name === "text" && control.value.length > SMALL) return "";
    return control.type === "checkbox" ? String(Number(control.checked)) : control.value;
}

/** Whether a field can have a value; it then has it. */
function setValue(name, value) {
    if (name in chosen) {
        const isTaken = CHOSEN[name].test(value);
        chosen[name] = isTaken ? value : defaults[name];
        return isTaken;
    }
    const [control, ...others] = controlsOf(name);
    const choices = control.type === "radio" ? [control, ...others].map((it) => it.value)
        : control.type === "checkbox" ? ["0", "1"] : control.tagName === "SELECT" ? [...control.options].map((it) => it.value) : null;
    if (choices && !choices.includes(value)) {
        setValue(name, defaults[name]);
        return false;
    }
    if (control.type === "radio") for (const it of [control, ...others]) it.checked = it.value === value;
    else if (control.type === "checkbox") control.checked = value === "1";
    else control.value = value;
    return true;
}

function linkTo() {
    const values = FIELDS[view].map((name) => [name, valueOf(name)]).filter(([name, value]) => value !== "" || !OPTIONAL.includes(name));
    return `#${new URLSearchParams([["show", view], ...values])}`;
}

/** Takes the fields from the part of the address after `#`; what isn't there is as at the start. */
function restore() {
    clearTimeout(writing);
    const parts = new URLSearchParams(location.hash.slice(1));
    const wanted = parts.get("show") ?? "capability";
    view = Object.hasOwn(VIEWS, wanted) ? wanted : "capability";
    const strange = [["show", wanted], ...FIELDS[view].map((name) => [name, parts.get(name) ?? defaults[name]])]
        .filter(([name, value]) => (name === "show" ? value !== view : !setValue(name, value)));
    show();
    byId("said").textContent = strange.map(([name, value]) => `The link's “${name}=${value.slice(0, 40)}” isn't known here. `).join("");
}

const TITLES = { capability: "what a capability means", request: "a request", operation: "an operation" };
const titleOf = () => `capcheck: ${TITLES[view] ?? (log.name || "a log")}`;

// The element that had the focus last, until a person leaves it.
let focused = null;

/** Where the element with the focus is gone, hidden or disabled, one like it gets the focus, or else what is near it: a tab
 * from there doesn't begin at the top of the page. */
function refocus() {
    const isSeen = (it) => it && it.isConnected && !it.disabled && it.getClientRects().length > 0;
    if (focused === null || isSeen(focused)) return;
    const { key, after } = focused.dataset;
    const like = [...document.querySelectorAll("[data-key]")].find((it) => it.dataset.key === key && isSeen(it));
    const near = [like, byId(after ?? ""), ...(view === "log" ? [byId("code")] : []), byId(view)].find(isSeen);
    near?.focus({ preventScroll: near === byId(view) });
}

function show() {
    document.title = titleOf();
    for (const name of Object.keys(VIEWS)) byId(name).hidden = name !== view;
    for (const button of document.querySelectorAll("[data-view]")) {
        if (button.dataset.view === view) button.setAttribute("aria-current", "page");
        else button.removeAttribute("aria-current");
    }
    byId("said").textContent = "";
    byId("link").hidden = true;
    if (c === null) return;
    try {
        VIEWS[view]();
        byId("fault").hidden = true;
    } catch (problem) {
        failed(problem);
    }
    refocus();
}

/** Where a module fails, nothing is shown that isn't its. */
function failed(problem, says = "The module failed, and so nothing is shown") {
    const needs = typeof WebAssembly === "object" ? "" : " It needs WebAssembly: Chrome or Edge 103, Firefox 113, Safari 16.4 or later.";
    byId("fault").textContent = `${says}: ${problem.message}${needs}`;
    byId("fault").hidden = false;
    for (const results of document.querySelectorAll(".results")) results.hidden = true;
}

/** Shows what the fields have; the address follows once they rest, since browsers limit how often it may. */
function changed() {
    show();
    clearTimeout(writing);
    writing = setTimeout(() => history.replaceState(null, "", linkTo()), 350);
}

/** Another view: going back in the browser leads to the one before. */
function turnTo(name) {
    if (writing) history.replaceState(null, "", linkTo());
    clearTimeout(writing);
    view = name;
    history.pushState(null, "", linkTo());
    show();
}

async function copy(text, what) {
    let said = `${what} copied.`;
    try {
        await navigator.clipboard.writeText(text);
    } catch {
        byId("link").value = text;
        byId("link").hidden = false;
        byId("link").select();
        said = "This browser doesn't let the page copy: copy it from the field below.";
    }
    byId("said").textContent = said;
}

// ---- What a person does ----

/** A word from the fields of its parts. */
function makeWord() {
    const letters = (text) => (text.trim() === "" ? 0x78fffn : /^[rwxRW]+$/.test(text.trim()) ? maskOf(text.trim()) : numberOf(text));
    const type = (text) => {
        const found = text.trim() === "" ? 0x3ffffn : numberOf(text);
        if (found > 0x3ffffn) throw new Refused("A type has 18 bits: 3ffff is unsealed.");
        return Number(found);
    };
    const parts = {
        base: taken("make-base", numberOf), length: taken("make-length", numberOf),
        mask: taken("make-perms", letters), otype: taken("make-type", type),
    };
    if (Object.values(parts).includes(null)) return;
    const { word, says } = madeOf(c, { ...parts, address: parts.base });
    setValue("order", "register");
    byId("word").value = c.textOf(word);
    byId("tag").checked = true;
    changed();
    byId("made").textContent = says;
}

function tryAddress(address) {
    byId("to").value = hex(BigInt.asUintN(64, address), 16);
    changed();
}

function tryAtPixel(event) {
    const { domain } = shown;
    const { left, width } = byId("range").firstElementChild.getBoundingClientRect();
    const address = domain.at(((event.clientX - left) * domain.right) / width);
    tryAddress(shown.facts.range.every && address > GREATEST ? GREATEST : address);
}

/** The keys of a slider: a unit, an eighth of the range, and the first and last address that keep the bounds. */
function tryByKey(event) {
    const { facts, tried } = shown;
    if (!facts || !tried) return;
    const { range, scale, fields } = facts;
    const unit = fields.ie ? scale.step >> 3n : 1n;
    const eighth = unit << 11n;
    const to = {
        ArrowLeft: tried.address - unit, ArrowDown: tried.address - unit, ArrowRight: tried.address + unit, ArrowUp: tried.address + unit,
        PageDown: tried.address - eighth, PageUp: tried.address + eighth,
        Home: range.every ? 0n : range.start, End: range.every ? GREATEST : range.start + range.size - 1n,
    }[event.key];
    if (to === undefined) return;
    event.preventDefault();
    tryAddress(to);
}

function listen() {
    for (const name of Object.values(FIELDS).flat()) {
        if (name !== "word" && !(name in chosen)) for (const control of controlsOf(name)) control.addEventListener("input", changed);
    }
    for (const button of document.querySelectorAll("[data-view]")) {
        button.addEventListener("click", () => { if (view !== button.dataset.view) turnTo(button.dataset.view); });
    }
    // A tag in the text is that of the capability, until it is changed.
    const takeTag = (id, tag, which) => {
        const all = tag === "tag" && valueOf("order") === "memory" ? [] : pasted(byId(id).value);
        const found = (all[which] ?? all[0])?.tag ?? null;
        if (found !== null) byId(tag).checked = found === 1;
        changed();
    };
    const takeChoice = (which) => {
        chosen.which = which;
        takeTag("word", "tag", Number(which));
    };
    byId("word").addEventListener("input", () => takeChoice("0"));
    byId("which").addEventListener("input", () => takeChoice(byId("which").value));
    for (const id of ["source", "authority"]) byId(id).addEventListener("input", () => takeTag(id, `${id}tag`, 0));
    byId("make").addEventListener("click", makeWord);
    byId("copy-link").addEventListener("click", copyLink);
    byId("take-exact").addEventListener("click", () => {
        const { base, length } = shown.exact;
        byId("base").value = hex(base);
        byId("length").value = hex(length);
        changed();
    });
    byId("copy-text").addEventListener("click", () =>
        copy(explained(shown.facts).map(([name, value]) => `${name} ${value}\n`).join(""), "Lines"));
    byId("take").addEventListener("click", () => {
        const { there } = shown.tried;
        setValue("order", "register");
        byId("word").value = c.textOf(there);
        byId("to").value = "";
        changed();
    });
    const range = byId("range");
    range.addEventListener("keydown", tryByKey);
    range.addEventListener("pointerdown", (event) => {
        if (!shown.facts || event.button !== 0) return;
        range.setPointerCapture(event.pointerId);
        range.focus({ preventScroll: true, focusVisible: false });
        tryAtPixel(event);
    });
    range.addEventListener("pointermove", (event) => { if (range.hasPointerCapture(event.pointerId)) tryAtPixel(event); });
    // What is typed is in the address before a link leads elsewhere, so that going back leads to it.
    addEventListener("click", ({ target }) => {
        if (target.closest('a[href^="#"]')) history.replaceState(null, "", linkTo());
        if (target.dataset.term) openTerm(target.dataset.term);
    }, { capture: true });
    addEventListener("focusin", ({ target }) => { focused = target; });
    addEventListener("pointerdown", () => { focused = null; }, { capture: true });
    addEventListener("hashchange", restore);
    addEventListener("resize", () => requestAnimationFrame(show));
}

async function start() {
    for (const it of document.querySelectorAll("[data-gloss]")) it.textContent = UP_TO;
    byId("do").append(...Object.entries(OPERATIONS).map(([name, { title }]) => make("option", { value: name }, title)));
    for (const name of Object.values(FIELDS).flat()) defaults[name] = valueOf(name);
    try {
        c = library(await unpacked("module"));
        const compiled = async (id) => WebAssembly.compile(await unpacked(id));
        Beside.modules = { judge: await compiled("judge"), runs: await compiled("runs") };
        Beside.address = URL.createObjectURL(new Blob([await textOf("worker-script")]));
    } catch (problem) {
        failed(problem);
        return;
    }
    listen();
    listenToLog();
    restore();
    await openGiven();
}
