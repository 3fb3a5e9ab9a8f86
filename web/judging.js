"use strict";
// The judge, in a worker beside the page: its module over one log, which lies in the module's memory. It has no rule of
// the machine: what a line gives, why one is refused and what a granule holds is what the module says of the log, or of
// its beginning with another line after it. What a register holds is in the line that wrote it, which the module found
// right.

const SLOT = LAYOUT.slot.size; // for a granule
const GRANULES = 2 ** 20; // as many as a log may name
const SHORTEST = "sc c1 c1 0\n".length; // of the lines that name one
const LONGEST = "origin @0000000000000010 @0000000000000010\n".length;
const ROOM = 4096; // for a report, and as much for lines after a beginning

class Judge {
    constructor(module, size) {
        this.exports = new WebAssembly.Instance(module).exports;
        this.count = Math.min(GRANULES, Math.floor(size / SHORTEST) + 1);
        this.result = grown(this.exports.memory, 64 + SLOT * this.count + ROOM + size + ROOM);
        this.slots = this.result + 64;
        this.text = this.slots + SLOT * this.count;
        this.log = this.text + ROOM;
        this.size = size;
    }

    bytes(from, length) {
        return new Uint8Array(this.exports.memory.buffer, from, length);
    }

    /** What the module says of the first bytes of its log, and the report of a no. */
    why(length = this.size) {
        return this.asked(0, length, this.text, ROOM);
    }

    /** The text of the origins after a yes, which may be long. */
    origins() {
        const room = ROOM + LONGEST * (this.count + 31);
        this.more ??= grown(this.exports.memory, room);
        return this.asked(1, this.size, this.more, room);
    }

    asked(origins, length, text, room) {
        const given = [this.log, length, this.slots, this.count, text, room].map(BigInt);
        this.exports.capcheck_judge_why(BigInt(this.result), origins, ...given);
        const said = readStruct(this.exports.memory, "why", this.result);
        return { ...said.answer, line: Number(said.answer.line), text: latin.decode(this.bytes(text, Number(said.length))) };
    }
}

const ascii = (bytes) => String.fromCharCode(...bytes);
const latin = new TextDecoder("latin1");
const bytesOf8 = (text) => Uint8Array.from(text, (letter) => letter.charCodeAt(0));

// From this refusal on a line has its form.
const FORMED = 6;

/** A log in a judge's memory, by its lines, which are counted from 1. */
class Lines {
    constructor(judge, said) {
        this.judge = judge;
        this.said = said;
        const bytes = judge.bytes(judge.log, judge.size);
        this.starts = [0];
        for (let at = bytes.indexOf(10); at >= 0; at = bytes.indexOf(10, at + 1)) this.starts.push(at + 1);
        if (this.starts.at(-1) === judge.size) this.starts.pop();
        this.starts.push(judge.size);
        this.count = this.starts.length - 1;
    }

    /** What the lines read and write, up to the faulty one. */
    get trace() {
        const { line, refusal } = this.said;
        const last = line === 0 ? this.count : refusal >= FORMED ? line : line - 1;
        this.traced ??= new Trace(this.judge.bytes(this.judge.log, this.judge.size), this.starts, last);
        return this.traced;
    }

    /** The first bytes of a line, without its line feed: no longer line has a form. */
    text(line) {
        const from = this.starts[line - 1];
        const found = this.judge.bytes(this.judge.log + from, Math.min(97, this.starts[line] - from));
        return ascii(found.at(-1) === 10 ? found.subarray(0, -1) : found);
    }

    /** What the registers that were written hold before a line. */
    registers(line) {
        return [...this.trace.writers(line)].flatMap((by, number) => {
            if (!by) return [];
            const { tag = "1", word } = partsOf(this.text(by));
            return [{ number, tag: Number(tag), word, by }];
        });
    }

    /** The next line that uses a register. */
    nextUse(line, place) {
        return this.trace.nextUse(line, registerOf(place));
    }

    /** What the judge says if another line is in the place of a line and of all after it. */
    instead(line, text) {
        const { judge } = this;
        const at = this.starts[line - 1];
        const place = judge.bytes(judge.log + at, text.length);
        const kept = place.slice();
        place.set(bytesOf8(text));
        const said = judge.why(at + text.length);
        place.set(kept);
        return said;
    }

    /** The granule that a step reaches, as it is before the step: a load of it that records what can't be is refused,
     * and the report says what is there. Of two results one at least is wrong. With it the line that wrote it last, and
     * the one that cleared its tag. */
    granule(line) {
        const parts = partsOf(this.text(line));
        if (!parts?.offset) return null;
        for (const digit of "01") {
            const said = this.instead(line, `lc c1 ${parts.authority} ${parts.offset} = 1 ${digit.padStart(32, "0")}\n`);
            const found = said.text.match(/^source (@[0-9a-f]+) ([01]) ([0-9a-f]+)$/m);
            if (found) return { place: found[1], tag: Number(found[2]), word: found[3], ...this.trace.history(line) };
        }
        return null;
    }

    /** The line of a byte. */
    lineAt(byte) {
        let [low, high] = [0, this.count];
        while (high - low > 1) {
            const middle = (low + high) >> 1;
            if (this.starts[middle] <= byte) low = middle;
            else high = middle;
        }
        return low + 1;
    }

    /** The next line after one that has a text, or the last one before it; from the other end where there is none, and 0
     * where no line has it. */
    find(text, line, backward) {
        if (/[^\0-\xff]/.test(text)) return 0;
        const wanted = bytesOf8(text);
        const bytes = this.judge.bytes(this.judge.log, this.judge.size);
        const isHere = (at) => wanted.every((byte, k) => bytes[at + k] === byte);
        const search = (from, to, step) => {
            for (let at = from; at !== to; at += step) if (bytes[at] === wanted[0] && isHere(at)) return this.lineAt(at);
            return 0;
        };
        const [begin, end] = [this.starts[line - 1] ?? bytes.length, this.starts[line] ?? bytes.length];
        if (backward) return search(begin - 1, -1, -1) || search(bytes.length - 1, begin - 1, -1);
        return search(end, bytes.length, 1) || search(0, end, 1);
    }
}
