"use strict";
// The objects of a run log over time, in a worker beside the page: when each was allocated, when it was freed, how long a place
// held it afterwards, and how many bytes are live or held. All of it is what the judge's module answers; the lines that allocate
// and free are found by their first letters.

const SAMPLES = 1000; // so many times it is asked which freed objects are held, if the log has as many lines

class Timeline {
    constructor(lines) {
        Object.assign(this, { lines, judge: lines.judge, objects: [], samples: [], live: 0n, held: new Set() });
        this.every = Math.max(1, Math.ceil(lines.count / SAMPLES));
    }

    /** What the judge says of an object: its extent and how many places hold it. Nothing where it is gone. */
    told(number) {
        const { judge } = this;
        const { fields } = LAYOUT.object;
        const { high, low } = LAYOUT.wide.fields;
        judge.call("object", judge.result, BigInt(judge.stepped), number);
        const { memory } = judge.exports;
        if (this.view?.buffer !== memory.buffer) this.view = new DataView(memory.buffer);
        const field = ([offset]) => this.view.getBigUint64(judge.result + offset, true);
        const top = fields.top[0];
        if (this.view.getUint8(judge.result + fields.state[0]) === 0) return null;
        return { base: field(fields.base), top: field([top + high[0]]) << 64n | field([top + low[0]]), held: Number(field(fields.held)) };
    }

    /** A line allocated an object, or widened the extent of one. */
    allocate(line, number) {
        const it = this.told(number || this.objects.length + 1);
        if (number) {
            const found = this.objects[number - 1];
            this.live += it.top - it.base - (found.top - found.base);
            Object.assign(found, it);
        } else {
            this.live += it.top - it.base;
            this.objects.push({ number: this.objects.length + 1, line, freed: 0, gone: 0, ...it });
        }
    }

    free(line, number) {
        const it = this.objects[number - 1];
        it.freed = line;
        this.live -= it.top - it.base;
        it.held = this.told(number)?.held ?? 0;
        if (it.held) this.held.add(it);
        else it.gone = line;
    }

    /** Asks which freed objects are held still. Returns the line to ask again at: where many are held, that is later. */
    sample(line) {
        let [bytes, holders] = [0n, 0];
        for (const it of this.held) {
            it.held = this.told(it.number)?.held ?? 0;
            bytes += it.held ? it.top - it.base : 0n;
            holders += it.held;
            if (it.held) continue;
            it.gone = line;
            this.held.delete(it);
        }
        this.samples.push({ line, live: this.live, held: bytes, holders });
        return line + Math.max(this.every, this.held.size);
    }

    /** The judge takes a line that allocates or frees. */
    take(line, isFree) {
        const { lines } = this;
        const [, first, second] = lines.text(line).split(" ");
        if (!isFree) {
            lines.before(line + 1);
            return this.allocate(line, Number(second ?? 0));
        }
        const isOwner = first.startsWith("c");
        if (isOwner) lines.before(line);
        const number = isOwner ? this.judge.owner(first) : Number(first);
        lines.before(line + 1);
        this.free(line, number);
    }

    /** The objects and the samples up to the refused line, or to the end. */
    read() {
        const { lines, judge } = this;
        const last = lines.said.line ? Math.min(lines.said.line - 1, lines.count) : lines.count;
        const bytes = judge.bytes(judge.log, judge.size).slice();
        let next = this.every;
        for (let line = 1; line <= last; line++) {
            const at = lines.starts[line - 1];
            const isFree = bytes[at] === 102 && bytes[at + 1] === 114; // fr
            if (isFree || bytes[at] === 111) this.take(line, isFree); // o
            if (line < next) continue;
            lines.before(line + 1);
            next = this.sample(line);
        }
        lines.before(last + 1);
        if (this.samples.at(-1)?.line !== last) this.sample(last);
        for (const it of this.objects) if (!it.freed) it.held = this.told(it.number).held;
        return { last, objects: this.objects, samples: this.samples, holders: this.holders() };
    }

    /** The places that hold the object which the refused line meets: registers of all harts, and the first granule. */
    holders() {
        const { said } = this.lines;
        const number = said.state === 2 ? Number(said.text.match(/^object (\d+) /m)?.[1] ?? 0) : 0;
        if (!number) return [];
        const found = this.judge.registersOf(number);
        const first = this.judge.holder(number);
        return first && !found.includes(first) ? [...found, first] : found;
    }
}
