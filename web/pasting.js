"use strict";
// What people paste: words as debuggers, emulators and crash dumps print them. PASTING.md has the grammar, and
// tests/dumps.rows what it gives for dumps. A line gives a word, or the parts of one, or nothing; lines of memory give a
// word for each granule.

// The permission that a letter means in `[rwxRW,BASE-TOP]`.
const LETTERS = { r: "Load", w: "Store", x: "Execute", R: "Load Capability", W: "Store Capability" };

// The types that the texts name by a word or by a negative number: all bits set is unsealed, one less a sentry.
const UNSEALED = 0x3ffff;
const SENTRY = 0x3fffe;

const TAG = /\b(?:v|tag)\s*[:=]\s*([01])\b/i;
const NOTE = /\(\s*((?:untagged|invalid|unsound|sealed|sentry)(?:\s*,\s*(?:untagged|invalid|unsound|sealed|sentry))*)\s*\)/i;
const FIELD = /\b([vspbloat])\s*[:=]\s*(-?)(?:0x)?([0-9a-f]+)\b/gi;
const REGISTER = /^[^\w$[(<]*(?:cap\s+register\s+)?(\$?(?:c\d{1,2}|c[ast]\d{1,2}|c[a-z]{2,5}|[a-z]*pcc|r?ddc|x\d{1,2}))(?:\/\w+)?\s*(?:[:=|]+\s*|\s+)/i;
const VARIABLE = /^(\$\d+|[a-z_][\w.>-]*|\[\d+\])\s*[:=]\s*/i;

const maskOf = (letters) => [...letters].reduce((mask, it) => mask | (PERMISSIONS.find(([, name]) => name === LETTERS[it])?.[0] ?? 0), 0);
const numberIn = (digits) => BigInt(`0x${digits.replace(/^0x/i, "")}`);

/** The parts of a word, where they are in the ranges of their fields. */
const inRange = (parts) => (parts.base > GREATEST || parts.length < 0n || parts.length > SPACE || parts.address > GREATEST
    || parts.mask > 0xffffffff || parts.otype > UNSEALED ? null : parts);

/** A line without the name in front of it, and that name. Letters that are all digits are a name only where a register
 * has it. */
function named(text, form) {
    const [whole, name] = text.match(form) ?? ["", ""];
    const isDigits = /^[0-9a-f]+$/i.test(name) && !/^(c\d{1,2}|ca\d|ddc)$/i.test(name);
    return isDigits ? { name: "", rest: text } : { name, rest: text.slice(whole.length) };
}

/** `(untagged,sealed)`: what a note says of the tag and of the type, and the text without it. */
function noted(text) {
    const note = text.match(NOTE)?.[1] ?? "";
    return {
        text: text.replace(NOTE, " "), tag: /untagged|invalid/i.test(note) ? 0 : null,
        isSealed: /seal|sentry/i.test(note), otype: /sentry/i.test(note) ? SENTRY : null,
    };
}

/** `0x1000 <name+4> [rwRW,0x1000-0x2000]`: an address, where it may be a symbol, letters of permissions, bounds; and the
 * text before the address. */
function bracketed(text) {
    const found = text.match(/^([^[]*|.*<.*>\s*)\[([rwxRWE]*),\s*(0x[0-9a-f]+)\s*-\s*(0x[0-9a-f]+)\]/i);
    if (!found) return null;
    const [, before, letters, from, to] = found;
    const plain = before.replace(/<.*>/g, " ");
    const at = plain.match(/(?:^|[\s=:({])(0x[0-9a-f]{1,16}|[0-9a-f]{1,16})\s*$/i)?.[1] ?? null;
    const [base, top] = [numberIn(from), numberIn(to)];
    const says = [
        ...(/E/.test(letters) ? ["E is no permission of this word."] : []),
        ...(at ? [] : ["The text has no address: the base is in its place."]),
    ];
    const parts = { base, length: top - base, letters, mask: maskOf(letters), otype: null, address: at ? numberIn(at) : base, hasAddress: at !== null, says };
    return inRange(parts) && { before: at ? plain.slice(0, plain.lastIndexOf(at)) : plain, parts };
}

/** An object type in hexadecimal digits, or as a negative number. */
function typeIn(digits) {
    if (digits === undefined) return null;
    const type = BigInt.asIntN(64, digits.startsWith("-") ? -numberIn(digits.slice(1)) : numberIn(digits));
    if (type >= 0n && type < 0xfffffff0n) return Number(type);
    return Number(BigInt.asUintN(18, type));
}

/** `v:1 s:0 p:00078fff b:0000000000001000 l:0000000000000fff o:0 t:3ffff`: fields with a letter each. */
function lettered(text) {
    const fields = [...text.matchAll(FIELD)];
    const found = Object.fromEntries(fields.map(([, name, minus, digits]) => [name.toLowerCase(), minus + digits]));
    if (!("b" in found && "l" in found)) return null;
    if (Object.entries(found).some(([name, digits]) => name !== "t" && digits.startsWith("-"))) return null;
    const base = numberIn(found.b);
    const type = typeIn(found.t);
    return inRange({
        base, length: numberIn(found.l), mask: Number(numberIn(found.p ?? "0")), otype: type === UNSEALED ? null : type,
        address: found.a ? numberIn(found.a) : BigInt.asUintN(64, base + numberIn(found.o ?? "0")), hasAddress: true,
        tag: Number(found.v !== "0"), isSealed: found.s === "1", says: [],
    });
}

const isHex = (text) => /^(0x)?[0-9a-f]+$/i.test(text);
const plainHex = (text) => text.replace(/^0x/i, "").toLowerCase();

/** The digits of one word: a number of 32, or these in groups with blanks or `_` between them. If a group has `0x`, all
 * have the same length. */
function wholeDigits(text) {
    const groups = text.trim().split(/[\s_]+/);
    if (!groups.every(isHex)) return null;
    const digits = groups.map(plainHex);
    const isEven = digits.every((it) => it.length === digits[0].length);
    return digits.join("").length === 32 && (isEven || !groups.some((it) => /^0x/i.test(it))) ? digits.join("") : null;
}

/** The digits of two halves, the high one first. A half with `0x` may lack its leading zeros, another has 16 digits. */
function halves(text) {
    const groups = text.trim().split(/[\s,:|_]+/);
    const isHalf = (it) => (/^0x/i.test(it) ? it.length > 4 && it.length <= 18 : it.length === 16);
    return groups.length === 2 && groups.every((it) => isHex(it) && isHalf(it)) ? groups.map((it) => plainHex(it).padStart(16, "0")).join("") : null;
}

/** The digits of a word, with a tag before or after them; `-` is a tag that isn't known. */
function digitsIn(text) {
    const plain = text.replace(/[()[\]]/g, " ").trim();
    const [, first, after] = plain.match(/^((?:0x)?[01]|-)[\s,:|]+(.*)$/i) ?? [];
    const [, front, last] = plain.match(/^(.*?)[\s,:|]+((?:0x)?[01])$/i) ?? [];
    for (const [given, tag] of [[plain, null], [after, first], [front, last]]) {
        if (given === undefined) continue;
        const turned = halves(given);
        const digits = wholeDigits(given) ?? turned;
        if (digits) return { digits, tag: tag === null || tag === "-" ? null : Number(tag), isUnsure: tag === "-", isHalves: turned !== null };
    }
    return null;
}

/** The same before brackets, where a number may lack its leading zeros. */
const digitsBeside = (text) => digitsIn(text.replace(/\b0x[0-9a-f]{17,31}\b/i, (it) => plainHex(it).padStart(32, "0")));

/** What a line has: a word's digits or the parts of one, with its tag and its register where these are told. Where it has
 * both, the digits are the word. */
function pastedLine(given) {
    if (wholeDigits(given)) return { name: "", ...digitsIn(given) };
    const note = noted(given);
    const tag = note.tag ?? (TAG.test(note.text) ? Number(note.text.match(TAG)[1]) : null);
    const fields = lettered(note.text);
    const text = fields ? note.text : note.text.replace(TAG, " ").trim();
    const register = named(text, REGISTER);
    const { name, rest } = register.name || fields ? register : named(text, VARIABLE);
    const bracket = bracketed(rest);
    const parts = fields ?? bracket?.parts ?? null;
    const digits = bracket ? digitsBeside(bracket.before) : digitsIn(fields ? rest.replace(FIELD, " ") : rest);
    if (digits) {
        const isTorn = note.tag === 0 && digits.tag === 1 ? ["The text has tag 1, and a note that there is none."] : [];
        // Brackets without a note are those of a tagged capability.
        const byNote = bracket && !digits.isUnsure ? 1 : null;
        return { name, ...digits, tag: tag ?? digits.tag ?? byNote, beside: parts && { ...parts, ...sealedBy(parts, note) }, says: isTorn };
    }
    if (parts) return { name, parts: { ...parts, ...sealedBy(parts, note) }, tag: tag ?? parts.tag ?? 1 };
    return wordAmong(note, tag);
}

/** Whether parts are said to be sealed, and their type where it is told. */
function sealedBy(parts, note) {
    const otype = parts.otype ?? note.otype;
    return { otype, isSealed: Boolean(parts.isSealed || note.isSealed || otype !== null) };
}

/** The last word of a line with other words in it, as a line of a log, of a report or of `capcheck explain`. */
function wordAmong({ text }, tag) {
    const found = [...text.matchAll(/(?:\b([01])\s+)?\b(?:0x)?([0-9a-f]{32})\b/gi)].at(-1);
    if (!found || !/[g-z]/i.test(text.replace(/0x/gi, "")) || /^memory\b/.test(text)) return null;
    return { name: "", digits: found[2].toLowerCase(), tag: tag ?? (found[1] === undefined ? null : Number(found[1])) };
}

// ---- Dumps of memory ----

/** The bytes of a number in memory, the least significant first. */
const bytesOfNumber = (digits) => digits.match(/../g).reverse();

// Each form: what a line of it is, and its bytes in order of address. GDB prints numbers; `hexdump -C`, `od -tx1` and
// `xxd` print bytes.
const MEMORY = [
    [/^(0x[0-9a-f]{3,16})(?:\s+<.*>)?:\s+((?:0x[0-9a-f]{16}(?:\s+|$))+|(?:0x[0-9a-f]{8}(?:\s+|$))+|(?:0x[0-9a-f]{2}(?:\s+|$))+)$/i,
        (text) => text.trim().split(/\s+/).flatMap((it) => bytesOfNumber(plainHex(it)))],
    [/^([0-9a-f]{6,16})((?: {1,2}[0-9a-f]{2}){1,16})(?:\s+\|.*)?$/i, (text) => text.trim().split(/\s+/)],
    [/^([0-9a-f]{7,16}):((?: [0-9a-f]{2,4}){1,8})(?:  .*)?$/i, (text) => text.replace(/\s/g, "").match(/../g)],
];

/** The granules of a dump of memory, or nothing where a text has no such line. Those that the dump has in part are left
 * out. */
function granulesIn(text) {
    const runs = [];
    for (const line of text.split("\n").map((it) => it.trim())) {
        const form = wholeDigits(line) ? undefined : MEMORY.find(([it]) => it.test(line));
        if (!form) continue;
        const [, from, shown] = line.match(form[0]);
        const bytes = form[1](shown);
        const at = numberIn(from);
        const last = runs.at(-1);
        if (last && last.at + BigInt(last.bytes.length) === at) last.bytes.push(...bytes);
        else runs.push({ at, bytes: [...bytes] });
    }
    if (runs.length === 0) return null;
    return runs.flatMap(({ at, bytes }) => {
        const found = [];
        for (let k = Number(-at & 15n); k + 16 <= bytes.length; k += 16) {
            found.push({ name: ox(at + BigInt(k)), memory: bytes.slice(k, k + 16).join("").toLowerCase(), tag: null });
        }
        return found;
    });
}

// A capability in brackets that another one follows, as GDB prints an array.
const FOLLOWED = /(\[[rwxRWE]*,\s*0x[0-9a-f]+\s*-\s*0x[0-9a-f]+\](?:\s*\([\w,\s]*\))?)\s*,\s*/gi;

/** All that a text has: the granules of a dump of memory, or what its lines have. */
const pasted = (text) => granulesIn(text)
    ?? text.replace(FOLLOWED, "$1\n").split("\n").map((it) => pastedLine(it.trim())).filter((it) => it !== null);

/** The register of a line that has an address alone beside it, or nothing. */
function addressAlone(text) {
    const { name, rest } = named(text.split("\n").map((it) => it.trim()).find((it) => it !== "") ?? "", REGISTER);
    return name && /^(0x)?[0-9a-f]{1,16}$/i.test(rest.trim()) ? name : null;
}

// ---- Words of what was read ----

/** The word with given parts, as the library makes it: bounds, permissions and the address set from all of memory, and
 * the type put in. It says what the word can't have. */
function madeOf(c, { base, length, mask, address, otype, isSealed = false, letters, says = [] }) {
    const whole = { word: almighty(c, base), tag: 1 };
    const bounded = length > GREATEST ? whole : c.setBoundsClear(whole, length, false);
    const allowed = c.andPermClear(bounded, BigInt(mask));
    const { word } = c.setAddrClear(allowed, address);
    const bounds = c.decode(allowed.word);
    const exact = bounds.base === base && bounds.top === base + length;
    const isUnknown = isSealed && otype === null;
    const all = [
        ...(exact ? [] : [`No word has the bounds ${span({ base, top: base + length })}: these are rounded to ${span(bounds)}.`]),
        ...(c.keepsBounds(allowed.word, address) ? [] : [`At the address ${ox(address)} no word keeps these bounds.`]),
        ...(isUnknown ? ["It is sealed, and the text doesn't say with which type: type 0 is in its place."] : []),
        ...says,
        ...(letters === undefined ? [] : [`The letters tell no permission but ${Object.values(LETTERS).join(", ")}.`]),
    ];
    const type = isUnknown ? 0 : otype;
    return { word: type === null ? word : c.join({ ...c.split(word), otype: type }).word, says: all.join(" "), isUnknown };
}

/** What the parts beside a word's digits say that the word hasn't. */
function disputed(c, word, { base, length, letters, mask, address, hasAddress, otype, isSealed }) {
    const bounds = c.decode(word);
    const fields = c.split(word);
    const view = c.permView(word);
    const seen = letters === undefined ? view : view & maskOf(Object.keys(LETTERS).join(""));
    const differs = [
        ...(bounds.base === base && bounds.top === base + length ? [] : [`the bounds ${span({ base, top: base + length })}`]),
        ...(hasAddress && fields.address !== address ? [`the address ${ox(address)}`] : []),
        ...(seen === mask ? [] : ["other permissions"]),
        ...(otype !== null && fields.otype !== otype ? [`the type ${ox(otype)}`] : isSealed && !c.sealed(word) ? ["that it is sealed"] : []),
    ];
    return differs.length ? `Beside the digits the text has ${listed(differs)}: the digits are taken.` : "";
}
