// Logs at random. They are made in the page: roots, steps with the results that the library gives, and in most of them a
// change somewhere. What is right of them, the programs say.

/** What is called in the page to make them. */
export const drawing = () => {
    let seed = 5;
    const random = (below) => {
        seed = (seed + 0x6d2b79f5) | 0;
        let mixed = Math.imul(seed ^ (seed >>> 15), 1 | seed);
        mixed = (mixed + Math.imul(mixed ^ (mixed >>> 7), 61 | mixed)) ^ mixed;
        return ((mixed ^ (mixed >>> 14)) >>> 0) % below;
    };
    const among = (list) => list[random(list.length)];
    const digits = (number) => hex(BigInt.asUintN(64, number), 16);
    const whole = { word: read("ffff1ffffc0180040000000000000000"), tag: 1 };
    const anything = c.textOf(whole.word);

    class Log {
        constructor() {
            this.mode = among(["", "strict", "clear"]);
            this.lines = this.mode ? ["capcheck 2", `mode ${this.mode}`] : ["capcheck 1"];
            this.registers = Array(32).fill({ word: c.nothing(), tag: 0 });
            this.memory = new Map();
            this.steps = 0;
            this.root(1, whole);
            const there = c.setAddrClear(whole, BigInt(random(1 << 20) * 16));
            if (random(2)) this.root(2, c.setBoundsClear(there, BigInt(random(1 << 12) * 16), 0));
            for (let left = random(40); left > 0; left--) this.draw();
        }

        root(number, cap) {
            this.registers[number] = { ...cap, tag: 1 };
            this.lines.push(`root c${number} ${c.textOf(cap.word)}`);
        }

        /** A step with its result; none where the rules refuse it. */
        step(kind, target, words, got) {
            if (!got) return;
            this.registers[target] = got;
            this.lines.push(`${kind} c${target} ${words} = ${got.tag} ${c.textOf(got.word)}`);
            this.steps++;
        }

        draw() {
            const kinds = ["move", "cleartag", "setbounds", "setboundsexact", "setaddr", "andperm", "seal", "unseal"];
            if (random(12) < 8) this.operate(among(kinds));
            else this.access(among(["lc", "sc", "load", "store"]));
        }

        operate(kind) {
            const [target, from, by] = [1 + random(8), random(9), random(9)];
            const [source, authority] = [this.registers[from], this.registers[by]];
            const near = c.split(source.word).address;
            const number = among([
                BigInt(random(256) * 16), near + BigInt(random(64)), BigInt(random(0x7fffffff)), 0x7ffffn, BigInt(random(1 << 19))
            ]);
            const value = BigInt.asUintN(64, number);
            const pick = (strict, clear, ...given) => {
                if (this.mode === "clear") return clear(...given);
                const got = strict(...given);
                return got.refusal ? null : got.cap;
            };
            const exact = Number(kind === "setboundsexact");
            const got = {
                move: () => source,
                cleartag: () => c.clearTag(source),
                setbounds: () => pick(c.setBounds, c.setBoundsClear, source, value, exact),
                setboundsexact: () => pick(c.setBounds, c.setBoundsClear, source, value, exact),
                setaddr: () => pick(c.setAddr, c.setAddrClear, source, value),
                andperm: () => pick(c.andPerm, c.andPermClear, source, value),
                seal: () => pick(c.seal, c.sealClear, source, authority),
                unseal: () => pick(c.unseal, c.unsealClear, source, authority),
            }[kind]();
            const more = /seal/.test(kind) ? ` c${by}` : /^set|^and/.test(kind) ? ` ${digits(value)}` : "";
            this.step(kind, target, `c${from}${more}`, got);
        }

        access(kind) {
            const [target, from, by] = [1 + random(8), random(9), random(9)];
            const [source, authority] = [this.registers[from], this.registers[by]];
            const size = kind === "lc" || kind === "sc" ? 16 : among([1, 2, 4, 8]);
            const offset = BigInt((random(40) - 20) * size);
            const asked = { lc: c.mayLoadCap, sc: c.mayStoreCap, load: c.mayLoad, store: c.mayStore }[kind];
            const { address, refusal } = asked(authority, offset, ...{ lc: [], sc: [source] }[kind] ?? [BigInt(size)]);
            if (refusal) return;
            const [place, at] = [address >> 4n, Number(address & 15n)];
            const held = this.memory.get(place) ?? { tag: 0, bytes: new Uint8Array(16) };
            const where = `c${by} ${offset}`;
            if (kind === "lc") {
                this.step(kind, target, where, c.loaded(authority, { word: c.fromMemory(held.bytes), tag: held.tag }));
                return;
            }
            this.steps++;
            const part = kind === "load" ? held.bytes.slice(at, at + size) : Uint8Array.from({ length: size }, () => random(256));
            const value = [...part].reverse().map((it) => hex(it, 2)).join("");
            const bytes = held.bytes.slice();
            bytes.set(part, at);
            if (kind === "sc") this.memory.set(place, { tag: source.tag, bytes: c.toMemory(source.word) });
            if (kind === "store") this.memory.set(place, { tag: 0, bytes });
            const sized = `${kind} ${where} ${size}`;
            this.lines.push({ sc: `sc c${from} ${where}`, load: `${sized} = ${value}`, store: `${sized} ${value}` }[kind]);
        }

        text() {
            return [...this.lines, `end ${this.steps}`, ""].join("\n");
        }
    }

    const put = (log, letter) => {
        const at = random(log.length);
        return log.slice(0, at) + letter + log.slice(at + 1);
    };
    const splice = (log, gone, ...more) => {
        const lines = log.split("\n");
        lines.splice(1 + random(lines.length - 1), gone, ...more);
        return lines.join("\n");
    };
    const last = [
        () => `setbounds c3 c2 00000000ffffffff = 1 ${anything}`, () => `setaddr c3 c2 7fffffffffffffff = 1 ${anything}`,
        () => `lc c3 c2 ${among([-2048, 1, 2032])} = 0 ${anything}`, () => "load c0 0 8 = 0000000000000000",
        () => `setboundsexact c3 c1 0000000000100001 = 1 ${anything}`, () => `seal c3 c1 c0 = 1 ${anything}`,
        () => `unseal c3 c1 c1 = 1 ${anything}`, () => `sc c1 c2 ${among([8, 0, 2047])}`, () => `root c9 ${anything}`,
        () => "load c1 1 8 = 0000000000000000", () => `seal c3 c0 c1 = 0 ${anything}`,
        () => `setaddr c3 c2 ${digits(1n << 40n)} = 1 ${anything}`,
    ];
    const roots = ["root c9 ffff1ffffc01a0030000000000000000", `root c9 ${anything}`];
    const CHANGES = [
        (log) => log,
        (log) => put(log, String.fromCharCode(random(256))),
        (log) => put(log, among([..."0123456789abcdef"])),
        (log) => log.replace(/= 1(?=.*\nend)/, "= 0"),
        (log) => splice(log, 1),
        (log) => splice(log, 0, among(log.split("\n"))),
        (log) => log.slice(0, random(log.length)),
        (log) => log + among(["x", "end 0\n", "\n"]),
        (log) => log.replace(/end \d+/, "x".repeat(95 + random(4))),
        (log) => log.replace(/end \d+/, among(last)()),
        (log) => log.replace(/root c1 .*/, (it) => `${it}\n${among([it, ...roots])}`),
        (log) => log.replace(/(= [01]) (\w{4})(?=\w{28}\nend)/, (it, tag, perms) => `${tag} ${perms === "ffff" ? "fffe" : "ffff"}`),
        (log) => log.replace(/end \d+/, among(last)()),
        (log) => log.replace(/end \d+/, among(last)()),
    ];

    globalThis.drawnLogs = (count, others) => Array.from({ length: count }, (it, k) =>
        CHANGES[k % CHANGES.length](k % 10 === 9 ? among(others) : new Log().text()));
};
