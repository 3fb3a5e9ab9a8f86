"use strict";
// What the page asks of the judge beside it: it opens one log, and then answers by the number of the question.

let held = null;

/** Reads a log into the module's memory, judges it, and tells both as they go. */
async function opened({ modules, blob, asks }) {
    const judge = judgeOf(modules, latin.decode(await blob.slice(0, 16).arrayBuffer()), blob.size, asks);
    let at = 0;
    const reader = blob.stream().getReader();
    for (let piece = await reader.read(); !piece.done; piece = await reader.read()) {
        judge.bytes(judge.log + at, piece.value.length).set(piece.value);
        at += piece.value.length;
        postMessage({ read: at });
    }
    const began = performance.now();
    const said = judge.why();
    const took = performance.now() - began;
    const lines = new (said.isRun ? RunLines : said.isHeap ? HeapLines : Lines)(judge, said);
    held = { modules, lines, said, asks };
    const before = said.line > 1 ? lines.text(said.line - 1) : "";
    postMessage({ judged: { ...said, count: lines.count, took, before } });
}

/** The judge of a log that begins so. */
function judgeOf(modules, start, size, asks) {
    if (isHeap(start)) return new HeapJudge(modules.runs, size);
    return isRun(start) ? new RunJudge(modules.runs, size, asks) : new Judge(modules.judge, size);
}

// What keeps a text from being a log, though it reads like one: what the text has, and the bytes without it.
const ODD = {
    utf16: [(bytes) => encodingOf(bytes) !== null, (bytes) => ofUtf16(bytes, encodingOf(bytes))],
    mark: [(bytes) => bytes[0] === 0xef && bytes[1] === 0xbb && bytes[2] === 0xbf, (bytes) => bytes.subarray(3)],
    returns: [(bytes) => bytes.includes(13), (bytes) => bytes.filter((byte, k) => byte !== 13 || bytes[k + 1] !== 10)],
    tabs: [(bytes) => bytes.includes(9), (bytes) => bytes.map((byte) => (byte === 9 ? 32 : byte))],
    capitals: [
        (bytes) => bytes.some((byte) => byte >= 65 && byte <= 90),
        (bytes) => bytes.map((byte) => (byte >= 65 && byte <= 90 ? byte + 32 : byte)),
    ],
    blanks: [(bytes) => withoutBlanks(bytes).length < bytes.length, withoutBlanks],
    feed: [(bytes) => bytes.length > 0 && bytes.at(-1) !== 10, withFeed],
    empty: [(bytes) => bytes.some(isEmpty), (bytes) => bytes.filter((byte, k) => !isEmpty(byte, k, bytes))],
};

const encodingOf = ([one, other]) => (one === 0xff && other === 0xfe ? "utf-16le" : one === 0xfe && other === 0xff ? "utf-16be" : null);
const ofUtf16 = (bytes, encoding) =>
    Uint8Array.from(new TextDecoder(encoding).decode(bytes), (letter) => Math.min(letter.charCodeAt(0), 255));

/** A line feed that ends an empty line. */
const isEmpty = (byte, k, bytes) => byte === 10 && (k === 0 || bytes[k - 1] === 10);

/** Bytes with one blank where there are several, and none at either end of a line. */
function withoutBlanks(bytes) {
    const made = new Uint8Array(bytes.length);
    let size = 0;
    for (const byte of bytes) {
        if (byte === 32 && (size === 0 || made[size - 1] === 10 || made[size - 1] === 32)) continue;
        if (byte === 10 && made[size - 1] === 32) size--;
        made[size++] = byte;
    }
    return made.slice(0, size);
}

function withFeed(bytes) {
    const made = new Uint8Array(bytes.length + 1);
    made.set(bytes);
    made[bytes.length] = 10;
    return made;
}

/** What is odd about the bytes of a refused log, the log without it, and its verdict; nothing where nothing is odd. */
function evened({ modules, lines, asks }) {
    const { judge } = lines;
    let bytes = judge.bytes(judge.log, judge.size).slice();
    const kinds = Object.keys(ODD).filter((kind) => {
        const [isHere, without] = ODD[kind];
        if (!isHere(bytes)) return false;
        bytes = without(bytes);
        return true;
    });
    if (kinds.length === 0) return null;
    const other = judgeOf(modules, ascii(bytes.subarray(0, 16)), bytes.length, asks);
    other.bytes(other.log, bytes.length).set(bytes);
    return { kinds, verdict: other.why().text.split("\n")[0], blob: new Blob([bytes]) };
}

const isPast = ({ said, lines }, line) => line > lines.count || (said.line !== 0 && line > said.line);

const ANSWERS = {
    /** Lines around one, and what the registers hold before it. */
    at({ line, from, to }) {
        const { lines, said } = held;
        const texts = [];
        for (let k = from; k <= Math.min(to, lines.count); k++) texts.push(lines.text(k));
        if (said.line && line > said.line) return { line, from, texts, registers: null };
        return { line, from, texts, registers: lines.registers(line), hart: said.isRun ? lines.hart(line) : null };
    },
    granule: ({ line }) => (isPast(held, line) ? null : held.lines.granule(line)),
    evened: () => evened(held),
    nextUse: ({ line, place }) => held.lines.nextUse(line, place),
    objects: ({ line, met, listed }) => (isPast(held, line) ? null : held.lines.objects(line, met, listed)),
    under: ({ asks }) => asks.map((it) => held.lines.judge.under(it)),
    timeline: () => new Timeline(held.lines).read(),
    find: ({ text, line, backward }) => held.lines.find(text, line, backward),
    origins: () => held.lines.judge.origins().text,
    shortest: () => shortest(held.modules.judge, held.lines),
};

onmessage = async ({ data }) => {
    try {
        if (data.blob) await opened(data);
        else postMessage({ id: data.id, answer: ANSWERS[data.ask](data) });
    } catch (problem) {
        postMessage({ id: data.id, problem: problem instanceof RangeError ? "There isn't memory enough for it." : problem.message });
    }
};
