"use strict";
// A short log with the same fault: the refusal, the faulty line and its diagnosis stay, except for origins and
// counts. It begins with the lines that the faulty line's operands come from, makes operands by roots where that is
// shorter, and then leaves lines out as long as the fault stays. Whether it does, the judge says of each log.

const TIME = 3500; // milliseconds

// Their reports count the lines before them.
const COUNTING = ["Misplaced", "Truncated", "WrongCount", "LimitPassed"];
const COMPARED = new Set(("line source authority holds root gives recorded request rounded moved representable access needs cleared "
    + "differs length").split(" "));

/** What has to stay of a report. */
function essence(text) {
    const [verdict, ...rows] = text.split("\n");
    const name = verdict.split(" ")[3];
    const kept = rows.map((row) => row.split(" ")).filter(([first, second]) => COMPARED.has(first) && second !== "origin")
        .filter(([first]) => first === "line" || !COUNTING.includes(name));
    return [name, ...kept.map((row) => row.join(" "))].join("\n");
}

/** What the steps after a place in a log read: registers, and bytes of granules. */
class Needed {
    constructor() {
        this.registers = new Uint8Array(32);
        this.memory = new Map();
    }

    /** A step's own operands, and the granule if it loads a capability or is the faulty one. */
    add(trace, line, isLast) {
        this.registers[trace.source[line]] = 1;
        this.registers[trace.authority[line]] = 1;
        const does = trace.does[line];
        if (does === LOADS || (does === LOADS_DATA && isLast)) this.reach(trace, line);
    }

    reach(trace, line) {
        const key = granuleKey(trace.high[line], trace.low[line]);
        this.memory.set(key, (this.memory.get(key) ?? 0) | maskOfBytes(trace.low[line], trace.size[line]));
    }

    /** Whether a place is needed, by its name. */
    has(name) {
        if (name.startsWith("c")) return this.registers[Number(name.slice(1))] === 1;
        return this.memory.has(granuleKey(parseInt(name.slice(1, 9), 16), parseInt(name.slice(9), 16)));
    }

    /** Whether a line writes something of it, which then isn't needed before that line. */
    takes(trace, line) {
        const target = trace.target[line];
        const does = trace.does[line];
        if (target) {
            const isNeeded = this.registers[target];
            this.registers[target] = 0;
            return isNeeded === 1;
        }
        if (this.memory.size === 0 || does === 0 || does > STORES) return false;
        const key = granuleKey(trace.high[line], trace.low[line]);
        const wanted = this.memory.get(key) ?? 0;
        const left = wanted & ~maskOfBytes(trace.low[line], trace.size[line]);
        if (left) this.memory.set(key, left);
        else this.memory.delete(key);
        return left !== wanted;
    }
}

class Shortening {
    constructor(module, lines, deadline) {
        Object.assign(this, { module, lines, deadline, trace: lines.trace, last: lines.said.line });
        this.wanted = essence(lines.said.text);
        const isHere = this.last <= lines.count;
        const text = isHere ? lines.text(this.last) : "";
        const isWhole = isHere && lines.starts[this.last] > lines.starts[this.last - 1] + text.length;
        this.fault = text + (isWhole ? "\n" : "");
        this.isFormed = lines.said.refusal >= FORMED;
        const header = lines.text(1) === "capcheck 2" ? [1, 2] : [1];
        this.head = header.filter((line) => line < this.last).map((line) => `${lines.text(line)}\n`).join("");
        this.first = header.length + 1;
    }

    get isLate() { return performance.now() > this.deadline; }

    /** Lines of the log that a line's operands come from, in order. */
    ancestors(last) {
        const { trace } = this;
        const needed = new Needed();
        const found = [];
        if (last <= trace.roots) {
            if (trace.target[last]) needed.registers[trace.target[last]] = 1;
            else needed.reach(trace, last);
        } else needed.add(trace, last, true);
        for (let line = last - 1; line >= this.first; line--) {
            if (!needed.takes(trace, line)) continue;
            found.push(line);
            if (line > trace.roots) needed.add(trace, line, false);
        }
        return found.reverse();
    }

    /** Puts a log into the memory of a judge of its own: made roots, by place, and lines; how many bytes it has. */
    put({ roots, numbers }) {
        const { lines } = this;
        const { starts } = lines;
        const before = bytesOf8(this.head + [...roots].map(([place, word]) => `root ${place} ${word}\n`).join(""));
        const after = bytesOf8(this.tail + this.fault);
        const size = numbers.reduce((sum, line) => sum + starts[line] - starts[line - 1], before.length + after.length);
        if (!this.judge || this.judge.size < size) this.judge = new Judge(this.module, size + ROOM);
        const to = this.judge.bytes(this.judge.log, size);
        const from = lines.judge.bytes(lines.judge.log, lines.judge.size);
        to.set(before);
        let at = before.length;
        for (let k = 0, next; k < numbers.length; k = next) {
            for (next = k + 1; numbers[next] === numbers[next - 1] + 1;) next++;
            const run = from.subarray(starts[numbers[k] - 1], starts[numbers[next - 1]]);
            to.set(run, at);
            at += run.length;
        }
        to.set(after, at);
        return size;
    }

    /** Whether a log has the fault. */
    has(candidate) {
        const size = this.put(candidate);
        this.judge.count = Math.min(GRANULES, candidate.roots.size + candidate.numbers.length + 1);
        return essence(this.judge.why(size).text) === this.wanted;
    }

    /** The first of some beginnings that has the fault. */
    beginning() {
        const { trace, lines } = this;
        const only = (numbers, tail = "") => {
            this.tail = tail;
            return { roots: new Map(), numbers };
        };
        const all = () => Array.from({ length: this.last - this.first }, (it, k) => this.first + k);
        const step = Math.max(this.first, trace.roots + 1);
        const hasStep = step < this.last && step <= lines.count;
        const ways = [
            () => only(this.isFormed ? this.ancestors(this.last) : []),
            () => only(hasStep ? [...this.ancestors(step), step] : []),
            () => only([], "end 0\n"),
            () => only(all()),
        ];
        for (const way of ways) {
            const candidate = way();
            if (this.has(candidate)) return candidate;
        }
        return null;
    }

    /** What a register or a granule holds before a place in the lines of a log: its word, if it has a tag and a step made it. */
    made({ numbers }, place, isHere) {
        const { trace, lines } = this;
        for (let k = place - 1; k >= 0; k--) {
            const line = numbers[k];
            if (!isHere(line)) continue;
            if (line <= trace.roots) return null;
            if (trace.target[line]) {
                const { tag, word } = partsOf(lines.text(line));
                return tag === "1" ? word : null;
            }
            if (trace.does[line] !== PUTS) return null;
            const source = this.made({ numbers }, k, (it) => trace.target[it] === trace.source[line]);
            return source ?? this.rootAt({ numbers }, k, trace.source[line]);
        }
        return null;
    }

    /** The word of the root that a register still holds. */
    rootAt({ numbers }, place, register) {
        const { trace, lines } = this;
        for (let k = place - 1; k >= 0; k--) {
            if (trace.target[numbers[k]] === register) return numbers[k] <= trace.roots ? partsOf(lines.text(numbers[k])).word : null;
        }
        return null;
    }

    /** The operands of a step at a place in a log that a root could make: each with the lines that write it. */
    operands(candidate, place) {
        const { trace } = this;
        const line = candidate.numbers[place] ?? this.last;
        const found = [];
        const add = (name, isHere) => {
            const word = this.made(candidate, place, isHere);
            if (word !== null) found.push({ name, word, isHere, place });
        };
        for (const register of new Set([trace.source[line], trace.authority[line]])) {
            if (register) add(`c${register}`, (it) => trace.target[it] === register);
        }
        if (trace.does[line] === LOADS) {
            const key = granuleKey(trace.high[line], trace.low[line]);
            const name = `@${hex8(trace.high[line])}${hex8((trace.low[line] & ~15) >>> 0)}`;
            add(name, (it) => trace.does[it] > 0 && trace.does[it] <= STORES && granuleKey(trace.high[it], trace.low[it]) === key);
        }
        return found;
    }

    /** The same log with operands made by roots, without the lines that only they needed. */
    withRoots({ roots, numbers }, operands) {
        const { trace } = this;
        const names = new Map([...roots, ...operands.map(({ name, word }) => [name, word])]);
        const left = numbers.filter((line, k) => !operands.some(({ isHere, place }) => k < place && isHere(line)));
        const needed = new Needed();
        needed.add(trace, this.last, true);
        const kept = [];
        for (const line of left.reverse()) {
            if (!needed.takes(trace, line)) continue;
            kept.push(line);
            if (line > trace.roots) needed.add(trace, line, false);
        }
        return { roots: new Map([...names].filter(([name]) => needed.has(name))), numbers: kept.reverse() };
    }

    /** Makes operands by roots, from the faulty line's on, as long as that makes the log shorter. */
    cut(candidate) {
        const size = ({ roots, numbers }) => roots.size + numbers.length;
        let best = candidate;
        for (let place = best.numbers.length; place >= 0 && !this.isLate; place--) {
            if (place > best.numbers.length) place = best.numbers.length;
            const operands = this.operands(best, place);
            const ways = operands.length > 1 ? [operands, ...operands.map((it) => [it])] : operands.map((it) => [it]);
            const shorter = ways.map((way) => this.withRoots(best, way)).filter((it) => size(it) < size(best))
                .sort((one, other) => size(one) - size(other)).find((it) => this.has(it));
            if (shorter) [best, place] = [shorter, shorter.numbers.length + 1];
        }
        return best;
    }

    /** Leaves lines out, many at a time and then each, as long as the fault stays: then none can be left out. */
    without(candidate) {
        let items = [...candidate.roots].map((root) => ({ root })).concat(candidate.numbers.map((line) => ({ line })));
        const made = (list) => ({
            roots: new Map(list.filter((it) => it.root).map((it) => it.root)), numbers: list.filter((it) => !it.root).map((it) => it.line),
        });
        let size = Math.max(1, items.length >> 1);
        for (let changed = false; ; changed = false) {
            for (let at = items.length - size; at > -size; at -= size) {
                if (this.isLate) return { ...made(items), isLate: true };
                const left = items.filter((it, k) => k < at || k >= at + size);
                if (left.length === items.length || !this.has(made(left))) continue;
                [items, changed] = [left, true];
            }
            if (size === 1 && !changed) return made(items);
            if (!changed || size > items.length) size = Math.max(1, Math.min(size >> 1, items.length));
        }
    }

    found() {
        const begun = this.beginning();
        if (!begun) return null;
        let best = begun;
        for (let size = Infinity; !this.isLate;) {
            if (this.isFormed && this.last > this.trace.roots && !COUNTING.includes(this.wanted.split("\n")[0])) best = this.cut(best);
            best = this.without(best);
            const now = best.roots.size + best.numbers.length;
            if (now >= size) break;
            size = now;
        }
        const size = this.put(best);
        const bytes = this.judge.bytes(this.judge.log, size);
        const blob = new Blob([bytes]);
        const text = textOf8(bytes);
        const [verdict] = this.judge.why(size).text.split("\n");
        return { text, blob, verdict, lines: text.split(/\n(?=.)/s).length, isShortest: !best.isLate };
    }
}

/** A letter for each byte. */
function textOf8(bytes) {
    let text = "";
    for (let at = 0; at < bytes.length; at += 8192) text += ascii(bytes.subarray(at, at + 8192));
    return text;
}

const hex8 = (number) => number.toString(16).padStart(8, "0");

/** A short log with the fault, as short as the time allows; nothing where no other log has it. */
const shortest = (module, lines) => new Shortening(module, lines, performance.now() + TIME).found();
