"use strict";
// The judge of allocators' logs, in a worker beside the page: its module over one log, which lies in the module's memory.
// Which objects are live before a line follows from the lines before it, which the module found right.

const MOST_NEAR = 1000; // as many live objects are told

/** Whether a log is that of an allocator, or nearly one. */
const isHeap = (start) => /^(\xef\xbb\xbf)?heap\s+\d/i.test(start);

class HeapJudge {
    constructor(module, size) {
        this.size = size;
        this.exports = new WebAssembly.Instance(module).exports;
        this.result = grown(this.exports.memory, 64 + ROOM + size);
        this.text = this.result + 64;
        this.log = this.text + ROOM;
    }

    bytes(from, length) {
        return new Uint8Array(this.exports.memory.buffer, from, length);
    }

    /** What the module says of its log: the report of a yes, or the diagnosis of a no. */
    why() {
        this.exports.capcheck_heap_judge_why(BigInt(this.result), ...[this.log, this.size, this.text, ROOM].map(BigInt));
        const { answer, length } = readStruct(this.exports.memory, "heap_why", this.result);
        if (answer.state === 3) throw new RangeError("no memory");
        return { ...answer, line: Number(answer.line), live: Number(answer.live), text: latin.decode(this.bytes(this.text, Number(length))), isHeap: true };
    }
}

const addressIn = (digits) => (/^[0-9a-f]{16}$/.test(digits ?? "") ? BigInt(`0x${digits}`) : null);

/** An allocator's log in a judge's memory, by its lines. */
class HeapLines extends Lines {
    registers() {
        return [];
    }

    granule() {
        return null;
    }

    nextUse() {
        return 0;
    }

    /** Takes the lines before a line: the live objects by their addresses. */
    before(line) {
        if (!this.live || this.taken > line) Object.assign(this, { live: new Map(), taken: 1, allocated: 0 });
        for (; this.taken < Math.min(line, this.count + 1); this.taken++) {
            const [kind, address, length] = this.text(this.taken).split(" ");
            if (kind === "malloc") this.live.set(address, { number: ++this.allocated, line: this.taken, length });
            else if (kind === "free") this.live.delete(address);
        }
    }

    /** The objects that are live before a line, those that lie nearest to the address that the line names first. */
    objects(line) {
        this.before(line);
        const here = line > this.count ? null : addressIn(this.text(line).split(" ")[1]);
        const apart = new Map([...this.live.keys()].map((address) => [address, Math.abs(Number(`0x${address}`) - Number(here ?? 0n))]));
        const least = Float64Array.from(apart.values()).sort();
        const far = least[MOST_NEAR] ?? Infinity;
        const objects = [...this.live].filter(([address]) => apart.get(address) < far).map(([address, { number, line: at, length }]) => {
            const base = BigInt(`0x${address}`);
            return { number, line: at, base, top: base + BigInt(`0x${length}`), isLive: true, apart: apart.get(address) };
        });
        return { line, here, isAll: least.length <= MOST_NEAR, objects: objects.sort((one, other) => one.apart - other.apart) };
    }
}
