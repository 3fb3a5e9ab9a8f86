"use strict";
// The judge of run logs, in a worker beside the page: its module over one log, which lies in the module's memory, and what
// the machine holds before a line. It has no rule of the machine: what it says is the module's.

const PLACE_KINDS = { c: 1, "@": 2, scr: 3 };
const HARTS = 65536; // they are the numbers below it
const LOOKED_UP = 10000; // objects of which it is asked where they lie
const MOST_OBJECTS = 1000; // as many of them are told

/** Whether a log is a run log, or nearly one. */
const isRun = (start) => /^(\xef\xbb\xbf)?run\s+\d/i.test(start);

/** A place by its name in a line. */
function placeNamed(name) {
    const [, kind, number] = name.match(/^(@|c|scr)([0-9a-f]+)$/);
    return { kind: PLACE_KINDS[kind], number: kind === "@" ? BigInt(`0x${number}`) & ~15n : BigInt(number) };
}

/** The name of a place, or nothing where there is none. */
function nameOf({ kind, number }) {
    const [name] = Object.entries(PLACE_KINDS).find(([, it]) => it === kind) ?? [""];
    return name === "@" ? `@${number.toString(16).padStart(16, "0")}` : name && `${name}${number}`;
}

class RunJudge {
    constructor(module, size, asks) {
        Object.assign(this, { size, asks });
        this.exports = new WebAssembly.Instance(module).exports;
        // A judge of the whole log, and one of the lines before a line.
        this.whole = grown(this.exports.memory, 128 + ROOM + size + ROOM);
        this.stepped = this.whole + 16;
        this.result = this.whole + 32;
        this.text = this.whole + 128;
        this.log = this.text + ROOM;
        this.taken = null;
    }

    bytes(from, length) {
        return new Uint8Array(this.exports.memory.buffer, from, length);
    }

    call(name, judge, ...given) {
        return this.exports[`capcheck_run_judge_${name}`](BigInt(judge), ...given);
    }

    /** What a call answers that answers a struct. */
    asked(kind, name, judge, ...given) {
        this.call(name, this.result, BigInt(judge), ...given);
        return readStruct(this.exports.memory, kind, this.result);
    }

    open(judge) {
        const { held, used, owned } = this.asks;
        // The struct's three bytes are one number.
        if (this.call("open", judge, Number(held) | Number(used) << 8 | Number(owned) << 16)) throw new RangeError("no memory");
    }

    /** Passes bytes of the log to a judge: whole lines of them are taken. */
    pass(judge, from, to) {
        const { bytes, state } = this.asked("taken", "lines", judge, BigInt(this.log + from), BigInt(to - from));
        if (state === 3) throw new RangeError("no memory");
        return { at: from + Number(bytes), state };
    }

    /** What the module says of its log, and the report of a no. */
    why() {
        this.open(this.whole);
        const { at, state } = this.pass(this.whole, 0, this.size);
        // What follows the last line feed is a line only after the end line, where none is allowed.
        const isOver = state === 0 && at < this.size && this.asked("run_answer", "end", this.whole).state === 1;
        if (isOver) {
            const length = Math.min(this.size - at, 96);
            this.bytes(this.log + at + length, 1)[0] = 10;
            this.pass(this.whole, at, at + length + 1);
        }
        const length = Number(this.call("end_report", this.whole, BigInt(this.text), BigInt(ROOM)));
        const answer = this.asked("run_answer", "end", this.whole);
        return { ...answer, line: Number(answer.line), text: latin.decode(this.bytes(this.text, length)), isRun: true };
    }

    /** The verdict under other options, or nothing where memory doesn't suffice. */
    under(asks) {
        try {
            return Object.assign(Object.create(RunJudge.prototype), this, { asks }).why().text.split("\n")[0];
        } catch (problem) {
            if (!(problem instanceof RangeError)) throw problem;
            return "";
        }
    }

    /** Has the second judge take the lines before a byte, at which a line begins. */
    before(at) {
        if (this.taken === null || this.taken > at) {
            this.open(this.stepped);
            this.taken = 0;
        }
        if (this.taken < at) this.taken = this.pass(this.stepped, this.taken, at).at;
    }

    /** What a place holds, and its owner, 0 for none. */
    held(name) {
        const { kind, number } = placeNamed(name);
        const { cap, present } = this.asked("optional_cap", "held", this.stepped, number, BigInt(kind));
        if (!present) return null;
        const digits = (half) => half.toString(16).padStart(16, "0");
        return { place: nameOf({ kind, number }), tag: cap.tag, word: digits(cap.word.high) + digits(cap.word.low), owner: this.owner(name) };
    }

    /** The number of the object that owns what a place holds, 0 for none. */
    owner(name) {
        const { kind, number } = placeNamed(name);
        return this.call("owner", this.stepped, number, BigInt(kind)) >>> 0;
    }

    /** The hart whose registers the next line names. */
    hart() {
        return this.call("hart", this.stepped) >>> 0;
    }

    /** The harts that were named so far, and hart 0. */
    harts() {
        const found = [];
        for (let hart = 0; (hart = this.call("next_hart", this.stepped, hart) >>> 0) < HARTS; hart++) found.push(hart);
        return found;
    }

    /** The registers of all harts that an object owns: another hart's have its number and a dot before them. */
    registersOf(number) {
        const names = ["c", "scr"].flatMap((kind) => [...Array(32).keys()].map((at) => `${kind}${at}`)).slice(1);
        return this.harts().flatMap((hart) => names.filter((name) => {
            const place = placeNamed(name);
            return this.call("owner_in", this.stepped, hart, place.number, BigInt(place.kind)) >>> 0 === number;
        }).map((name) => this.named(hart, name)));
    }

    /** A register as reports name it beside the current hart. */
    named(hart, name) {
        return hart === this.hart() ? name : `${hart}.${name}`;
    }

    /** The objects that are live or held, from a number on, at most so many. */
    objectsFrom(first, most) {
        const found = [];
        for (let number = first; found.length < most && (number = this.call("next_object", this.stepped, number) >>> 0); number++) {
            found.push({ number, ...this.asked("object", "object", this.stepped, number) });
        }
        return found;
    }

    /** The greatest number of an object that is live or held. */
    lastObject() {
        let [last, above] = [0, 2 ** 31];
        while (above - last > 1) {
            const middle = Math.floor((last + above) / 2);
            if (this.call("next_object", this.stepped, middle) >>> 0) last = middle;
            else above = middle;
        }
        return last;
    }

    /** The first place that an object owns: it costs a look at all places. */
    holder(number) {
        const name = nameOf(this.asked("place", "holder", this.stepped, number));
        return /^(c|scr)/.test(name) ? this.named(this.call("holder_hart", this.stepped, number) >>> 0, name) : name;
    }
}

// The register that says where: of an access the authority, and that of an allocation or of a free.
const FIRST_REGISTERS = /^(?:(?:lc|sc) \S+ (c\d{1,2})|(?:load|store|object|free) (c\d{1,2}))\b/;
const NULL_WORD = "00001ffffc0180040000000000000000";

/** A run log in a judge's memory, by its lines. */
class RunLines extends Lines {
    before(line) {
        this.judge.before(this.starts[line - 1] ?? this.judge.size);
    }

    /** The hart of a line, if more than hart 0 were named so far; nothing otherwise. */
    hart(line) {
        this.before(line);
        return this.judge.harts().length > 1 ? this.judge.hart() : null;
    }

    /** What the registers and the special registers of its hart hold before a line, but those that hold untagged NULL. */
    registers(line) {
        this.before(line);
        const names = ["c", "scr"].flatMap((kind) => [...Array(32).keys()].map((number) => `${kind}${number}`)).slice(1);
        return names.map((name) => ({ ...this.judge.held(name), number: registerOf(name) }))
            .filter(({ tag, word }) => tag || word !== NULL_WORD);
    }

    /** The register by which a line accesses, allocates or frees; nothing where it names none. */
    authority(line) {
        const [name] = this.text(line).match(FIRST_REGISTERS)?.slice(1).filter((it) => it) ?? [];
        return name ?? null;
    }

    /** The address that a line names or accesses, or at which it allocates or frees. */
    address(line) {
        const named = this.text(line).match(/^[a-z]+ @([0-9a-f]{1,16})\b/)?.[1];
        if (named) return BigInt(`0x${named}`);
        const held = this.authority(line) && this.judge.held(this.authority(line));
        const offset = partsOf(this.text(line), RUN_FORMS)?.offset ?? "0";
        return held && /^-?\d+$/.test(offset) ? BigInt.asUintN(64, BigInt(`0x${held.word.slice(16)}`) + BigInt(offset)) : null;
    }

    /** What the granule holds before a line that the line names or reaches. */
    granule(line) {
        this.before(line);
        const address = /^(object|free) /.test(this.text(line)) ? null : this.address(line);
        return address === null ? null : this.judge.held(`@${address.toString(16)}`);
    }

    /** The objects before a line that are live or held, those that lie nearest to its address first, or where it has none the
     * last ones. Where there are many, those are looked up whose numbers are near to that of the object which the line meets or
     * by which it accesses. A holder is told of those that are listed. */
    objects(line, met, listed) {
        this.before(line);
        const { judge } = this;
        const here = this.address(line);
        const name = this.authority(line);
        const number = met || name && judge.owner(name) || judge.lastObject();
        const first = Math.max(1, number - LOOKED_UP / 2);
        const later = judge.objectsFrom(first, LOOKED_UP);
        const earlier = judge.objectsFrom(1, LOOKED_UP - later.length + 1).filter((it) => it.number < first);
        const apart = ({ number, base }) => (number === met ? -Infinity : here === null ? -number : Math.abs(Number(base - here)));
        const found = [...earlier, ...later].map((it) => ({ ...it, apart: apart(it) })).sort((one, other) => one.apart - other.apart);
        const objects = found.slice(0, MOST_OBJECTS).map((it, k) => ({
            ...it, held: Number(it.held), line: Number(it.line), isLive: it.state === 1, holder: k < listed && it.held ? judge.holder(it.number) : "",
        }));
        return { line, here, isAll: found.length === objects.length, objects };
    }

    /** The next line that names a place: of a register, a line of the same hart. */
    nextUse(line, name) {
        this.before(line);
        const own = this.judge.hart();
        let hart = own;
        for (let k = line; k <= this.count; k++) {
            const words = this.text(k).split(" ");
            if (words[0] === "hart") hart = Number(words[1]);
            else if (k > line && words.includes(name) && (hart === own || name.startsWith("@"))) return k;
        }
        return 0;
    }
}
