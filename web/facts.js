"use strict";
// What the page says of a capability, a request and an operation, as questions to the module (`c`). Where
// the header has no call for a number, a call about another word or request gives it; none is computed here.

const SPACE = 1n << 64n;
const GREATEST = SPACE - 1n;

const PERMISSIONS = [
    [0x1, "Global"], [0x2, "Execute"], [0x4, "Load"], [0x8, "Store"], [0x10, "Load Capability"],
    [0x20, "Store Capability"], [0x40, "Store Local Capability"], [0x80, "Seal"], [0x100, "CInvoke"],
    [0x200, "Unseal"], [0x400, "Access System Registers"], [0x800, "Set CID"],
    [0x8000, "User bit 15"], [0x10000, "User bit 16"], [0x20000, "User bit 17"], [0x40000, "User bit 18"],
];

const permissionNames = (view) => PERMISSIONS.filter(([bit]) => view & bit).map(([, name]) => name);

const hex = (number, digits = 1) => number.toString(16).padStart(digits, "0");
const decimal = (number) => number.toString().replace(/\B(?=(\d{3})+$)/g, ",");
const counted = (count, what) => `${decimal(count)} ${what}${count == 1 ? "" : "s"}`;
const ox = (number) => `0x${hex(number)}`;
const span = ({ base, top }) => `${ox(base)} up to ${ox(top)}`;
const UP_TO = "How ranges are written: for example, “0x1000 up to 0x1020” are the addresses from 0x1000 to 0x101f; a top isn't one of them.";

/** The word with all permissions over the whole address space, at an address. */
const almighty = (c, address) => c.join({ ...c.split(c.nothing()), perms: 0xffff, address }).word;

/** T with its two rebuilt bits. It depends on IE, B and the T field alone, so the word with exponent 0 at
 * address B has it too: there B and T are the bounds, and rounding these gives T back. */
function mantissa(c, fields) {
    const plain = c.join({ ...fields, e: 0, address: BigInt(fields.b) }).word;
    const { base } = c.decode(plain);
    const units = c.length(plain);
    return { t: c.round(base, units).t, units };
}

/** What the exponent of a word means: the one that decoding takes, the step on which bounds lie,
 * 8 units, and the least length, 512 steps. They are bounds of words with small mantissas. */
function scaleOf(c, exponent) {
    const word = (b) => c.join({ ...c.split(c.nothing()), b, t: b, e: exponent, ie: 1, address: 0n }).word;
    const least = c.decode(word(0)).top;
    const request = least < SPACE ? least : GREATEST;
    return { cut: c.round(0n, request).e, step: c.decode(word(8)).base, request };
}

const scaleWithout = { cut: 0, step: 1n, request: 1n };

/** The end of a range, the first address after it: the top of a request for just its addresses. */
function endOf(c, start, size) {
    const asked = c.round(start, size);
    return asked.exact ? asked.top & GREATEST : null;
}

/** Why a word isn't sound. */
function unsoundness(bounds, units, cut) {
    if (bounds.top > SPACE) return `the top, ${ox(bounds.top)}, lies above 2^64, where addresses end`;
    const distance = `from B to T there are ${ox(units)} units of 2^${cut} bytes`;
    if (bounds.top < bounds.base) return `the top lies below the base, but ${distance}`;
    return `${distance}, and from base to top there aren't`;
}

/** All that the page says of a capability. */
function factsOf(c, { word, tag }) {
    const fields = c.split(word);
    const bounds = c.decode(word);
    const { t, units } = mantissa(c, fields);
    const scale = fields.ie ? scaleOf(c, fields.e) : scaleWithout;
    const sound = c.sound(word);
    const range = c.reach(word);
    const view = c.permView(word);
    // A type is reserved where even an authority over everything can't seal with it.
    const authority = { word: almighty(c, BigInt(fields.otype)), tag: 1 };
    const reserved = c.seal({ word: almighty(c, 0n), tag: 1 }, authority).refusal !== 0;
    return {
        word, tag, fields, bounds, t, units, scale, sound, range, view,
        text: c.textOf(word),
        memory: [...c.toMemory(word)].map((byte) => hex(byte, 2)).join(""),
        kind: !c.sealed(word) ? "unsealed" : reserved ? "reserved" : "sealed",
        length: sound ? c.length(word) : null,
        end: range.every ? null : endOf(c, range.start, range.size),
        why: sound ? null : unsoundness(bounds, units, scale.cut),
    };
}

/** The lines of `capcheck explain`: name, value, and what the page remarks. */
function explained(f) {
    const { fields, bounds, scale } = f;
    const exponent = fields.e === scale.cut ? `the unit is 2^${scale.cut} bytes`
        : `decoding takes ${scale.cut} for each greater one: the unit is 2^${scale.cut} bytes`;
    return [
        ["word", f.text, "the register's order, most significant digit first"],
        ["memory", f.memory, "the sixteen bytes in memory, in order of address: the word XOR that of NULL"],
        ["tag", String(f.tag), f.tag ? "may be used as a capability" : "without it the word is data, and gives no authority"],
        ["perms", hex(f.view, 8), "the permissions, a bit for each: 0 to 11 as above, from 15 on the user's"],
        ["otype", `${hex(fields.otype, 5)} ${f.kind}`, "the object type: 3ffff is unsealed, and another one seals the word"],
        ["flag", String(fields.flag), "in a program counter the mode of CHERI-RISC-V; no rule here reads it"],
        ["reserved", String(fields.reserved), "two bits without a meaning, which every operation keeps"],
        ["ie", String(fields.ie), fields.ie ? "the word contains the exponent" : "the word contains no exponent"],
        ["e", String(fields.e), exponent],
        ["b", hex(fields.b, 4), "B, the mantissa of the base, in units"],
        ["t", hex(f.t, 4), `T, the mantissa of the top, in units: ${ox(f.units)} above B`],
        ["address", hex(fields.address, 16), "where the capability points"],
        ["base", hex(bounds.base, 16), "the first address of the bounds"],
        ["top", hex(bounds.top, 17), "the first address after the bounds: it isn't one of them"],
        ["sound", f.sound ? "yes" : "no", f.sound ? "the top is base plus length, and at most 2^64" : f.why],
    ];
}

/** A capability in a sentence: what it allows, where, and whether its address lies there. */
function sentenceOf(c, f) {
    const has = (name) => permissionNames(f.view).includes(name);
    const list = (words) => words.join(", ").replace(/, ([^,]*)$/, " and $1");
    const reach = (load, store) => list([...(has(load) ? ["read"] : []), ...(has(store) ? ["write"] : [])]);
    const data = reach("Load", "Store");
    const caps = [["read", "Load"], ["write", "Store"]].filter(([, name]) => has(name) && has(`${name} Capability`)).map(([verb]) => verb);
    const both = data !== "" && list(caps) === data;
    const can = [
        ...(data ? [`${data} data${both ? " and capabilities" : ""}`] : []),
        ...(caps.length && !both ? [`${list(caps)} capabilities`] : []),
        ...["Execute", "Seal", "Unseal"].filter(has).map((name) => name.toLowerCase()),
    ];
    if (!f.sound) return `Not sound: ${f.why}.`;
    const { address, otype } = f.fields;
    const type = f.kind === "unsealed" ? "" : otype === SENTRY ? ", a sentry"
        : `, ${f.kind === "sealed" ? "sealed with type" : "with the reserved type"} ${ox(otype)}`;
    const where = f.length > GREATEST ? "the whole address space" : `${counted(f.length, "byte")} from ${ox(f.bounds.base)}`;
    const inside = c.contains(f.word, address, 1n) ? "the address lies in bounds" : `the address, ${ox(address)}, lies outside the bounds`;
    const says = `${can.length ? list(can) : "no access"}, ${where}${type}; ${inside}`;
    return f.tag ? `${says[0].toUpperCase()}${says.slice(1)}.` : `No tag, so it is data and allows nothing. With a tag: ${says}.`;
}

/** What setting the address gives: whether it keeps the bounds, those that the word has there, and what the
 * operation says. */
function moved(c, cap, address) {
    const there = c.setAddrClear({ ...cap, tag: 0 }, address).word;
    return {
        address, there,
        keeps: c.keepsBounds(cap.word, address),
        inside: c.contains(cap.word, address, 1n),
        bounds: c.decode(there),
        strict: c.setAddr(cap, address),
        clear: c.setAddrClear(cap, address),
    };
}

/** All that the page says of a request. */
function requestFacts(c, base, length) {
    const rounded = c.round(base, length);
    const scale = rounded.ie ? scaleOf(c, rounded.e) : scaleWithout;
    const wanted = c.roundLength(length);
    const mask = c.alignMask(length);
    const whole = wanted > GREATEST;
    const grown = c.round(0n, whole ? GREATEST : wanted);
    const grid = grown.ie ? scaleOf(c, grown.e) : scaleWithout;
    // A request of 512 steps is rounded to this grid, and its base with it.
    const below = grown.ie ? c.round(base, grid.request).base : base;
    const above = below === base ? base : c.round(below, grid.step).top;
    const exact = (at) => {
        if (whole || at > GREATEST) return null;
        const got = c.round(at, wanted);
        return got.exact && got.top <= SPACE ? got : null;
    };
    const lost = { below: base - rounded.base, above: rounded.top - base - length };
    return { base, length, rounded, scale, wanted, mask, whole, lost, alignment: grid.step, below: exact(below), above: exact(above) };
}

const needs = { seal: "Seal", unseal: "Unseal", load: "Load", lc: "Load", store: "Store", sc: "Store" };

/** Each operation of the page: what it is called, what it takes, and both its ways. An access has one. */
const OPERATIONS = {
    setbounds: {
        takes: ["source", "length"], title: "setbounds: narrow the bounds, rounded",
        strict: (c, o) => c.setBounds(o.source, o.value, false), clear: (c, o) => c.setBoundsClear(o.source, o.value, false),
    },
    setboundsexact: {
        takes: ["source", "length"], title: "setboundsexact: narrow the bounds, not rounded",
        strict: (c, o) => c.setBounds(o.source, o.value, true), clear: (c, o) => c.setBoundsClear(o.source, o.value, true),
    },
    setaddr: {
        takes: ["source", "address"], title: "setaddr: set the address",
        strict: (c, o) => c.setAddr(o.source, o.value), clear: (c, o) => c.setAddrClear(o.source, o.value),
    },
    andperm: {
        takes: ["source", "mask"], title: "andperm: take permissions away",
        strict: (c, o) => c.andPerm(o.source, o.value), clear: (c, o) => c.andPermClear(o.source, o.value),
    },
    seal: {
        takes: ["source", "authority"], title: "seal: with the authority's address as type",
        strict: (c, o) => c.seal(o.source, o.authority), clear: (c, o) => c.sealClear(o.source, o.authority),
    },
    unseal: {
        takes: ["source", "authority"], title: "unseal: by an authority at its type",
        strict: (c, o) => c.unseal(o.source, o.authority), clear: (c, o) => c.unsealClear(o.source, o.authority),
    },
    cleartag: {
        takes: ["source"], title: "cleartag: drop the tag",
        strict: (c, o) => ({ cap: c.clearTag(o.source), refusal: 0 }), clear: (c, o) => c.clearTag(o.source),
    },
    load: {
        takes: ["authority", "offset", "size"], title: "load: read data",
        access: (c, o) => c.mayLoad(o.authority, o.offset, o.size),
    },
    store: {
        takes: ["authority", "offset", "size"], title: "store: write data",
        access: (c, o) => c.mayStore(o.authority, o.offset, o.size),
    },
    lc: {
        takes: ["source", "authority", "offset"], title: "lc: load a capability, the source from memory",
        access: (c, o) => c.mayLoadCap(o.authority, o.offset), result: (c, o) => c.loaded(o.authority, o.source),
    },
    sc: {
        takes: ["source", "authority", "offset"], title: "sc: store the source",
        access: (c, o) => c.mayStoreCap(o.authority, o.offset, o.source), result: (c, o) => o.source,
    },
};

/** The ranges of an operation: what it starts from, what it asks for, and what it gives. */
function rangesOf(c, operation, o) {
    const of = (name, cap) => ({ name, kind: cap.tag ? "bounds" : "untagged", ...c.decode(cap.word) });
    const bars = [...(o.source ? [of("source", o.source)] : []), ...(o.authority ? [of("authority", o.authority)] : [])];
    if (operation.takes.includes("length")) {
        const { address } = c.split(o.source.word);
        const { base, top } = c.round(address, o.value);
        bars.push({ name: "request", kind: "asked", base: address, top: address + o.value }, { name: "rounded", kind: "asked", base, top });
    }
    if (operation.takes.includes("address")) {
        const { start, size, every } = c.reach(o.source.word);
        if (!every) bars.push({ name: "range", kind: "range", base: start, top: start + size });
    }
    if (operation.access) {
        const { address } = c.mayLoad({ word: almighty(c, c.split(o.authority.word).address), tag: 1 }, o.offset, 1n);
        bars.push({ name: "access", kind: "asked", base: address, top: address + (o.size ?? 16n) });
    }
    if (operation.clear) bars.push(of("result", operation.clear(c, o)));
    return withExcess(bars.filter(({ base, top }) => base <= top));
}

/** What a refusal compares, with the numbers of this case. */
function compared(c, name, o, refusal) {
    const source = o.source && c.split(o.source.word);
    const authority = o.authority && c.split(o.authority.word);
    const unsealed = ox(c.split(c.nothing()).otype);
    const within = (cap) => span(c.decode(cap.word));
    const lacking = (cap) => `0x${hex(c.permView(cap.word), 8)}`;
    // The address of an access, as an authority over everything has it.
    const target = () => ox(c.mayLoad({ word: almighty(c, authority.address), tag: 1 }, o.offset, 1n).address);
    const bytes = name === "lc" || name === "sc" ? "16" : String(o.size);
    switch (refusal) {
        case 9: return "The source has no tag.";
        case 10: return `The source is sealed: its object type is ${ox(source.otype)}, not ${unsealed}.`;
        case 11:
            return `The rounded bounds of the request, ${span(c.round(source.address, o.value))}, aren't inside the source's, `
                + `${within(o.source)}.`;
        case 12:
            return `The request is for ${ox(o.value)} bytes from ${ox(source.address)} on; rounded it is `
                + `${span(c.round(source.address, o.value))}.`;
        case 13: {
            const { start, size } = c.reach(o.source.word);
            return `${ox(o.value)} isn't among the ${ox(size)} addresses from ${ox(start)} on that keep the bounds ${within(o.source)}: `
                + `there they would be ${span(moved(c, o.source, o.value).bounds)}.`;
        }
        case 14: return "The authority has no tag.";
        case 15: return `The authority is sealed: its object type is ${ox(authority.otype)}, not ${unsealed}.`;
        case 16: return `The authority's permissions, ${lacking(o.authority)}, lack ${needs[name]}.`;
        case 17:
            return name === "seal" || name === "unseal"
                ? `The authority's address, ${ox(authority.address)}, doesn't lie in its bounds, ${within(o.authority)}.`
                : `The access to ${bytes} bytes from ${target()} on doesn't lie in the authority's bounds, ${within(o.authority)}.`;
        case 18: return `The authority's address, ${ox(authority.address)}, is above the greatest type that seal gives.`;
        case 19:
            return `The source's object type is ${ox(source.otype)}, the authority's address ${ox(authority.address)}; `
                + "they have to be the same, and not reserved.";
        case 20: return `The address, ${target()}, is no multiple of ${bytes}.`;
        case 21: return `The source has a tag, and the authority's permissions, ${lacking(o.authority)}, lack Store Capability.`;
        case 22:
            return `The source has a tag and lacks Global (${lacking(o.source)}), and the authority's permissions, `
                + `${lacking(o.authority)}, lack Store Local Capability.`;
        case 255: return "An access has an offset of -2048 to 2047, and data a size of 1, 2, 4 or 8.";
        default: return "The module answers a number that is no refusal.";
    }
}

// The words that open a line of text.
const TERMS = {
    range: "The addresses that the word can get and keep its bounds. They are all that lie in the bounds, and some on either side.",
    e: "E is the exponent: bounds are counted in units of 2^E bytes. The greater the length, the greater E, and the fewer the places "
        + "where bounds can lie.",
    b: "B is the base in units, its lowest 14 bits. The other bits are those of the address, or one more or less.",
    t: "T is the top in units, its lowest 14 bits. The word has 12 of them, or 9 beside an exponent; the others follow from B.",
    sound: "A word is sound where its bounds make sense: the top is the base plus the length, and at most 2^64. Only sound words can "
        + "be roots.",
    strict: "Strict is a machine that traps: if a check fails, the operation is refused, and nothing changes.",
    clear: "Clear is a machine that clears tags instead of trapping, as current CHERI-RISC-V does: if a check fails, the result has "
        + "no tag.",
};
