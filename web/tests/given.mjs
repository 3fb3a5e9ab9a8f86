// What the checks start from: states of the page, and what is expected of it, from outside.
import { execFileSync } from "node:child_process";
import fs from "node:fs";
import path from "node:path";
import { fileURLToPath, pathToFileURL } from "node:url";

export const root = path.dirname(path.dirname(path.dirname(fileURLToPath(import.meta.url))));
export const file = (name) => path.join(root, name);
export const text = (name) => fs.readFileSync(file(name), "utf8");
export const built = file("web/out/capcheck.html");
export const address = pathToFileURL(built).href;

/** What was checked so far. */
export const count = { passed: 0, failed: 0 };
export const check = (holds, what) => {
    if (holds) return void count.passed++;
    count.failed++;
    if (count.failed <= 40) console.log(`failed: ${what}`);
};
export const same = (got, wanted, what) =>
    check(JSON.stringify(got) === JSON.stringify(wanted), `${what}: ${JSON.stringify(got)}, not ${JSON.stringify(wanted)}`);

/** What the tests call in the page: typing into a field, choosing, and reading what is shown. */
export const tools = () => {
    globalThis.type = (id, value) => {
        const field = document.getElementById(id);
        if (field.value === value) return;
        field.value = value;
        field.dispatchEvent(new Event("input", { bubbles: true }));
    };
    globalThis.tick = (id, value) => {
        const field = document.getElementById(id);
        if (field.checked !== value) field.click();
    };
    globalThis.order = (name) => document.querySelector(`[name=order][value=${name}]`).click();
    globalThis.turn = (name) => {
        const button = document.querySelector(`button[data-view=${name}]`);
        if (!button.hasAttribute("aria-current")) button.click();
    };
    globalThis.rows = (id) => Object.fromEntries(
        [...document.querySelectorAll(`#${id} tr`)].map((row) => [row.cells[0].textContent, row.cells[1].firstChild?.textContent ?? ""]));
    globalThis.error = (id) => document.getElementById(`${id}-error`).textContent;
    globalThis.seen = (id) => document.getElementById(id).textContent;
    globalThis.visible = (it) => it.checkVisibility({ checkVisibilityCSS: true });
    globalThis.results = () => [...document.querySelectorAll(".results")].filter(visible).length;
    globalThis.dump = () => document.body.innerText;
};

export const hash = (fields) => `#${new URLSearchParams(fields)}`;
export const capability = (word, more = {}) => hash({ show: "capability", word, which: "0", order: "register", tag: "1", to: "", ...more });

// States that together make every call, and show every kind of text.
export const ALL = "ffff1ffffc018004";
export const STATES = [
    capability("003d1ffffc1a13910000000000013c08"),
    capability("003d1ffffc1a13910000000000013c08", { to: "20000" }),
    capability("00001ffffc0180040000000000000000", { tag: "0" }),
    capability("ffff1ffffc01a0030000000000000000"),
    capability("ffff1ffffbffc000fffffffffffff800", { to: "3800" }),
    capability("ffff1fffdc0180040000000000001000", { to: "1" }),
    capability("0010000000000000045 0fe070000ffff", { order: "memory" }),
    capability("00100000000000000450fe070000ffff", { order: "memory" }),
    hash({ show: "request", base: "10040", length: "186a0" }),
    hash({ show: "request", base: "1", length: "fff" }),
    hash({ show: "request", base: "0", length: "ffffffffffffffff" }),
    ...["setbounds", "setboundsexact", "setaddr", "andperm", "seal", "unseal", "cleartag", "load", "store", "lc", "sc"].map((name) => hash({
        show: "operation",
        do: name,
        source: name === "unseal" ? "ffff0080040180040000000000000000" : "ffff1ffffbffd0000000000000001000",
        sourcetag: "1",
        authority: `${ALL}0000000000001000`,
        authoritytag: "1",
        value: "7ff",
        offset: "16",
        size: "8",
    })),
    hash({
        show: "operation",
        do: "setbounds",
        source: "ffff1ffffbffd0000000000000001000",
        sourcetag: "1",
        authority: `${ALL}0000000000001000`,
        authoritytag: "1",
        value: "1000",
        offset: "0",
        size: "8",
    }),
];

export const vectors = fs.readdirSync(file("examples/vectors"))
                    .sort()
                    .flatMap((name) => text(`examples/vectors/${name}`).trimEnd().split("\n"))
                    .map((line) => line.split(" = ").map((side) => side.split(" ")));

/** Words at random and all that conformance/vectors.py's plain definitions say of them. */
export function drawnWords() {
    const program = `
import json, random, sys
sys.path.insert(0, "conformance")
from vectors import NULL, SPACE, bounds, fields, mantissa, window, word_of
draw = random.Random(7)
drawn = []
for k in range(400):
    word = draw.getrandbits(128)
    if k % 2:
        word = word_of(draw.getrandbits(1), draw.randrange(54), draw.getrandbits(14), draw.getrandbits(12), draw.getrandbits(64))
        word ^= draw.getrandbits(16) << 112
    ie, e, b, low, address = fields(word)
    base, top, sound = bounds(word)
    start, size = window(word)
    drawn.append(["%032x" % word, (word ^ NULL).to_bytes(16, "little").hex(), ie, e, "%04x" % b, "%04x" % mantissa(ie, b, low),
        "%016x" % base, "%017x" % top, "yes" if sound else "no", "%x" % (start % SPACE), "%x" % size, min(e, 52)])
print(json.dumps(drawn))`;
    return JSON.parse(execFileSync("python3", ["-c", program], { cwd: root, maxBuffer: 1 << 26 }));
}

/** The sizes and offsets of the header's structs, by the C compiler. */
export function layoutOfHeader(layout) {
    const lines = [];
    const names = { optional: "optional_word", digits: "word_text" };
    for (const [kind, { size, fields }] of Object.entries(layout)) {
        const struct = `capcheck_${names[kind] ?? kind}`;
        lines.push(`printf("%d\\n", sizeof(${struct}) == ${size});`);
        for (const [field, [offset, width]] of Object.entries(fields ?? {})) {
            const bytes = typeof width === "string" ? layout[width].size : width;
            lines.push(`printf("%d\\n", offsetof(${struct}, ${field}) == ${offset} && sizeof(((${struct} *)0)->${field}) == ${bytes});`);
        }
    }
    const program = `#include <capcheck.h>\n#include <capcheck_freestanding.h>\n#include <capcheck_judge.h>\n#include <stdio.h>\nint main(void) {\n${
        lines.join("\n")}\nreturn 0;\n}\n`;
    const made = file("web/out/layout");
    execFileSync("cc", ["-Iinclude", "-x", "c", "-", "-o", made], { cwd: root, input: program });
    return execFileSync(made).toString().trim().split("\n");
}
