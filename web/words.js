"use strict";
// What the page knows of include/capcheck.h: how its structs lie in the module's memory, and how a function
// of it is called. A number of more than 64 bits comes as one BigInt; all else as the header has it.

const LAYOUT = {
    word: { size: 16, fields: { high: [0, 8], low: [8, 8] } },
    wide: { size: 16, fields: { high: [0, 8], low: [8, 8] } },
    cap: { size: 24, fields: { word: [0, "word"], tag: [16, 1] } },
    fields: {
        size: 24,
        fields: {
            address: [0, 8], otype: [8, 4], perms: [12, 2], b: [14, 2], t: [16, 2],
            e: [18, 1], ie: [19, 1], flag: [20, 1], reserved: [21, 1],
        },
    },
    optional: { size: 24, fields: { word: [0, "word"], present: [16, 1] } },
    bounds: { size: 24, fields: { base: [0, 8], top: [8, "wide"] } },
    rounded: {
        size: 32,
        fields: { base: [0, 8], top: [8, "wide"], b: [24, 2], t: [26, 2], e: [28, 1], ie: [29, 1], exact: [30, 1] },
    },
    range: { size: 24, fields: { start: [0, 8], size: [8, 8], every: [16, 1] } },
    made: { size: 32, fields: { cap: [0, "cap"], refusal: [24, 1] } },
    access: { size: 16, fields: { address: [0, 8], refusal: [8, 1] } },
    digits: { size: 33, text: true },
    name: { size: 24, text: true },
    answer: { size: 24, fields: { line: [0, 8], steps: [8, 4], roots: [12, 4], state: [16, 1], refusal: [17, 1] } },
    slot: { size: 32 },
    why: { size: 32, fields: { answer: [0, "answer"], length: [24, 8] } },
    place: { size: 16, fields: { number: [0, 8], kind: [8, 1] } },
    optional_cap: { size: 32, fields: { cap: [0, "cap"], present: [24, 1] } },
    taken: { size: 16, fields: { bytes: [0, 8], state: [8, 1] } },
    run_answer: {
        size: 24,
        fields: { line: [0, 8], steps: [8, 4], roots: [12, 4], objects: [16, 4], state: [20, 1], refusal: [21, 1] },
    },
    heap_answer: { size: 24, fields: { line: [0, 8], live: [8, 8], events: [16, 4], state: [20, 1], refusal: [21, 1] } },
    heap_why: { size: 32, fields: { answer: [0, "heap_answer"], length: [24, 8] } },
    object: { size: 48, fields: { base: [0, 8], top: [8, "wide"], held: [24, 8], line: [32, 8], state: [40, 1] } },
};

// Each call: its name in the header after `capcheck_`, what it answers, and what it takes.
const CALLS = {
    nothing: ["null", "word"],
    split: ["split", "fields", "word"],
    join: ["join", "optional", "fields"],
    textOf: ["text_of", "digits", "word"],
    readWord: ["read_word", "optional", "bytes", "u64"],
    fromMemory: ["from_memory", "word", "bytes"],
    decode: ["decode", "bounds", "word"],
    sound: ["sound", "bool", "word"],
    length: ["length", "wide", "word"],
    round: ["round", "rounded", "u64", "u64"],
    roundLength: ["round_length", "wide", "u64"],
    alignMask: ["align_mask", "u64", "u64"],
    contains: ["least_law", "bool", "word", "u64", "u64"],
    reach: ["reach", "range", "word"],
    keepsBounds: ["keeps_bounds", "bool", "word", "u64"],
    permView: ["perm_view", "u32", "word"],
    sealed: ["sealed", "bool", "word"],
    refusalName: ["refusal_name", "name", "u8"],
    setBounds: ["set_bounds", "made", "cap", "u64", "bool"],
    setAddr: ["set_addr", "made", "cap", "u64"],
    andPerm: ["and_perm", "made", "cap", "u64"],
    seal: ["seal", "made", "cap", "cap"],
    unseal: ["unseal", "made", "cap", "cap"],
    setBoundsClear: ["set_bounds_clear", "cap", "cap", "u64", "bool"],
    setAddrClear: ["set_addr_clear", "cap", "cap", "u64"],
    andPermClear: ["and_perm_clear", "cap", "cap", "u64"],
    sealClear: ["seal_clear", "cap", "cap", "cap"],
    unsealClear: ["unseal_clear", "cap", "cap", "cap"],
    clearTag: ["clear_tag", "cap", "cap"],
    mayLoad: ["may_load", "access", "cap", "u64", "u64"],
    mayStore: ["may_store", "access", "cap", "u64", "u64"],
    mayLoadCap: ["may_load_cap", "access", "cap", "u64"],
    mayStoreCap: ["may_store_cap", "access", "cap", "u64", "cap"],
    loaded: ["loaded", "cap", "cap", "cap"],
};

/** The library's functions, from the bytes of the module. It throws where they are none. */
function library(bytes) {
    const { exports } = new WebAssembly.Instance(new WebAssembly.Module(bytes));
    const scratch = grown(exports.memory, 1);
    const view = () => new DataView(exports.memory.buffer);
    const read = (kind, at) => readStruct(exports.memory, kind, at);
    const write = (kind, at, value) => {
        for (const [name, [offset, width]] of Object.entries(LAYOUT[kind].fields)) {
            if (typeof width === "string") write(width, at + offset, value[name]);
            else put(view(), at + offset, width, value[name]);
        }
    };
    // Structs and bytes go by the address of a place of their own, the answer's first.
    const call = ([name, answer, ...kinds], given) => {
        let free = scratch;
        const place = (size) => (free += (size + 7) & ~7) - ((size + 7) & ~7);
        const result = LAYOUT[answer] && place(LAYOUT[answer].size);
        const passed = kinds.map((kind, k) => {
            if (kind === "bytes") {
                const at = place(given[k].length);
                new Uint8Array(exports.memory.buffer, at, given[k].length).set(given[k]);
                return BigInt(at);
            }
            if (!LAYOUT[kind]) return kind === "u64" ? BigInt(given[k]) : Number(given[k]);
            const at = place(LAYOUT[kind].size);
            write(kind, at, given[k]);
            return BigInt(at);
        });
        const said = exports["capcheck_" + name](...(LAYOUT[answer] ? [BigInt(result)] : []), ...passed);
        if (LAYOUT[answer]) return read(answer, result);
        return answer === "u64" ? BigInt.asUintN(64, said) : answer === "bool" ? said !== 0 : said >>> 0;
    };

    const made = {};
    for (const [name, signature] of Object.entries(CALLS)) made[name] = (...given) => call(signature, given);
    const ascii = (text) => Uint8Array.from(text, (letter) => letter.charCodeAt(0));
    const reading = made.readWord;
    made.readWord = (digits) => reading(ascii(digits), digits.length);
    made.toMemory = (word) => {
        write("word", scratch, word);
        exports.capcheck_to_memory(BigInt(scratch), BigInt(scratch + 16));
        return new Uint8Array(exports.memory.buffer, scratch + 16, 16).slice();
    };
    return made;
}

/** A struct, or a text, that lies in the module's memory. */
function readStruct(memory, kind, at) {
    const { size, fields, text } = LAYOUT[kind];
    if (text) {
        const found = new Uint8Array(memory.buffer, at, size);
        return String.fromCharCode(...found.subarray(0, found.indexOf(0)));
    }
    const view = new DataView(memory.buffer);
    const made = {};
    for (const name in fields) {
        const [offset, width] = fields[name];
        made[name] = typeof width === "string" ? readStruct(memory, width, at + offset) : number(view, at + offset, width);
    }
    return kind === "wide" ? made.high << 64n | made.low : made;
}

/** Where new memory of a module begins that has so many bytes at least. A memory of 64-bit addresses takes and answers a
 * BigInt, one of 32-bit addresses a number. */
function grown(memory, bytes) {
    const pages = Math.ceil(bytes / 65536);
    let before;
    try {
        before = memory.grow(pages);
    } catch (problem) {
        if (!(problem instanceof TypeError)) throw problem;
        before = memory.grow(BigInt(pages));
    }
    return Number(before) * 65536;
}

function number(view, at, width) {
    if (width === 8) return view.getBigUint64(at, true);
    return width === 4 ? view.getUint32(at, true) : width === 2 ? view.getUint16(at, true) : view.getUint8(at);
}

function put(view, at, width, value) {
    if (width === 8) view.setBigUint64(at, value, true);
    else if (width === 4) view.setUint32(at, value, true);
    else if (width === 2) view.setUint16(at, value, true);
    else view.setUint8(at, value);
}
