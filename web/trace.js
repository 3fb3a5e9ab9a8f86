"use strict";
// What each line of a log reads and writes, from its bytes: the registers, and the bytes of memory that it reaches. It
// takes lines that have their form, as those before the faulty line do.

// What a line does to memory.
const PUTS = 1; // a capability with its tag
const PUTS_DATA = 2; // sixteen bytes without a tag, by `sc`
const STORES = 3; // data, which clears the granule's tag
const LOADS = 4; // a capability
const LOADS_DATA = 5;

const codeOf = (letter) => letter.charCodeAt(0);
const SPACE_CODE = 32;
const VALUES_OF = new Uint8Array(256);
[..."0123456789abcdef"].forEach((digit, value) => (VALUES_OF[codeOf(digit)] = value));

/** The bytes of a granule that an access reaches, a bit for each. */
const maskOfBytes = (low, size) => ((1 << size) - 1) << (low & 15);

/** A granule's number as a key. */
const granuleKey = (high, low) => (high < 0x1000000 ? high * 0x10000000 + (low >>> 4) : `${high} ${low >>> 4}`);

class Trace {
    constructor(bytes, starts, last) {
        Object.assign(this, { bytes, starts, last, roots: 0 });
        for (const name of ["does", "target", "source", "authority", "size"]) this[name] = new Uint8Array(last + 1);
        for (const name of ["high", "low"]) this[name] = new Uint32Array(last + 1);
        this.held = { high: new Uint32Array(32), low: new Uint32Array(32), tag: new Uint8Array(32) };
        for (let line = 1; line <= last; line++) this.take(line);
        this.bytes = null; // the module's memory may move
    }

    take(line) {
        const { bytes, starts } = this;
        const start = starts[line - 1];
        const end = starts[line] - (bytes[starts[line] - 1] === 10 ? 1 : 0);
        const [first, second, third] = [bytes[start], bytes[start + 1], bytes[start + 2]];
        const isMode = first === codeOf("m") && third === codeOf("d");
        if (isMode || first === codeOf("e") || (first === codeOf("c") && second === codeOf("a"))) return;
        this.at = bytes.indexOf(SPACE_CODE, start) + 1;
        if (first === codeOf("r")) this.takeRoot(line, end);
        else if (first === codeOf("s") && second === codeOf("c")) {
            this.source[line] = this.register();
            this.reach(line, 0, 16);
            this.does[line] = this.held.tag[this.source[line]] ? PUTS : PUTS_DATA;
        } else if (first === codeOf("s") && second === codeOf("t")) this.reach(line, STORES);
        else if (first === codeOf("l") && second === codeOf("o")) this.reach(line, LOADS_DATA);
        else {
            this.target[line] = this.register();
            if (first === codeOf("l")) this.reach(line, LOADS, 16);
            else this.source[line] = this.register();
            const seals = first === codeOf("u") || (first === codeOf("s") && third === codeOf("a"));
            if (seals) this.authority[line] = this.register();
            this.write(this.target[line], end);
        }
    }

    takeRoot(line, end) {
        this.roots = line;
        if (this.bytes[this.at] !== codeOf("@")) {
            this.target[line] = this.register();
            this.write(this.target[line], end);
            return;
        }
        [this.does[line], this.size[line]] = [PUTS, 16];
        [this.high[line], this.low[line]] = [this.digits(this.at + 1), this.digits(this.at + 9)];
    }

    /** A register's number, and the place after it. */
    register() {
        const { bytes } = this;
        let number = 0;
        for (this.at++; bytes[this.at] > SPACE_CODE; this.at++) number = number * 10 + bytes[this.at] - 48;
        this.at++;
        return number;
    }

    number() {
        const sign = this.bytes[this.at] === codeOf("-") ? -1 : 1;
        if (sign > 0) this.at--;
        return sign * this.register();
    }

    /** The authority, the offset and the size of an access. */
    reach(line, does, size) {
        const authority = this.register();
        const sum = this.held.low[authority] + this.number();
        this.does[line] = does;
        this.authority[line] = authority;
        this.size[line] = size ?? this.bytes[this.at] - 48;
        this.low[line] = sum;
        this.high[line] = this.held.high[authority] + Math.floor(sum / 2 ** 32);
    }

    digits(at) {
        let value = 0;
        for (let k = at; k < at + 8; k++) value = (value << 4) | VALUES_OF[this.bytes[k]];
        return value;
    }

    /** A register gets what the end of a line records; a root has a tag. */
    write(register, end) {
        this.held.high[register] = this.digits(end - 16);
        this.held.low[register] = this.digits(end - 8);
        const before = this.bytes[end - 34];
        this.held.tag[register] = before === codeOf("0") && this.bytes[end - 35] === SPACE_CODE ? 0 : 1;
    }

    /** For each register the last line before one that wrote it, or 0. Register 0 means none. */
    writers(line) {
        const found = new Uint32Array(32);
        let left = 31;
        for (let at = Math.min(line - 1, this.last); at > 0 && left; at--) {
            const target = this.target[at];
            if (!target || found[target]) continue;
            found[target] = at;
            left--;
        }
        return found;
    }

    /** The next line after one that reads a register other than c0, or 0. */
    nextUse(line, register) {
        for (let at = line + 1; at <= this.last; at++) {
            if (this.source[at] === register || this.authority[at] === register) return at;
        }
        return 0;
    }

    /** The line that last wrote the granule that a line reaches, the one that wrote a byte that it reaches, and the one
     * that cleared the granule's tag; 0 for none. */
    history(line) {
        const key = granuleKey(this.high[line], this.low[line]);
        const mask = maskOfBytes(this.low[line], this.size[line]);
        const found = { wrote: 0, reached: 0, cleared: 0, isRoot: false };
        let cleared = 0;
        for (let at = line - 1; at > 0; at--) {
            const does = this.does[at];
            if (does === 0 || does > STORES || granuleKey(this.high[at], this.low[at]) !== key) continue;
            found.wrote ||= at;
            if (maskOfBytes(this.low[at], this.size[at]) & mask) found.reached ||= at;
            if (does === PUTS) return { ...found, cleared, isRoot: found.wrote <= this.roots };
            cleared = at;
        }
        return found;
    }
}
