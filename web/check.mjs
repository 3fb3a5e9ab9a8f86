// node check.mjs MODULE JUDGE RUNS FILES..: what the module answers to each line of vector files, by the page's calls, and
// what the judge's module answers to each log: what examples/README.md says, and byte for byte what CAPDIAG prints, where
// that program is there. The same of the corpora of run logs and of allocators' logs, and the module that judges them. Then
// what pasting.js reads in each row of the table of dumps.
import { spawnSync } from "node:child_process";
import fs from "node:fs";
import vm from "node:vm";

import { differs, dumpsOf, readDump } from "./tests/dumps.mjs";

const [module, judging, running, ...files] = process.argv.slice(2);
const here = new URL(".", import.meta.url);
const script = (...names) => names.map((name) => fs.readFileSync(new URL(name, here), "utf8")).join("\n");
const { library, Judge, RunJudge, HeapJudge } = vm.runInThisContext(
    `${script("words.js", "lines.js", "judging.js", "runs.js", "heaps.js")}; ({ library, Judge, RunJudge, HeapJudge })`);
const c = library(fs.readFileSync(module));

const number = (digits) => BigInt(`0x${digits}`);
const word = (digits) => ({ high: number(digits.slice(0, 16)), low: number(digits.slice(16)) });
const hex = (value, digits) => value.toString(16).padStart(digits, "0");
const bytes = (digits) => Uint8Array.from(digits.match(/../g), (byte) => parseInt(byte, 16));

// Each form of line: what the module says where the line has its right side.
const FORMS = {
    bounds: ([digits]) => {
        const { base, top } = c.decode(word(digits));
        return [hex(base, 16), hex(top, 17), String(Number(c.sound(word(digits))))];
    },
    keeps: ([digits, address]) => [String(Number(c.keepsBounds(word(digits), number(address))))],
    round: ([base, length]) => {
        const got = c.round(number(base), number(length));
        return [hex(got.base, 16), hex(got.top, 17), String(got.ie), String(got.e), String(got.exact)];
    },
    memory: ([digits]) => [[...c.toMemory(word(digits))].map((byte) => hex(byte, 2)).join("")],
};
const CALLS_OF = { bounds: 2, keeps: 1, round: 1, memory: 1 };

let agreed = 0;
const agree = (line, said, wanted, calls) => {
    if (said !== wanted) {
        console.log(`web: ${line}: the module has ${said}`);
        process.exit(1);
    }
    agreed += calls;
};

const judge = new WebAssembly.Module(fs.readFileSync(judging));
const diagnosis = process.env.CAPDIAG ?? "crates/capdiag/out/capdiag";
const verdicts = Object.fromEntries([...fs.readFileSync(new URL("../examples/README.md", here), "utf8")
    .matchAll(/^\| `(\w+\.log)` \| .* \| `(.*)` \|$/gm)].map(([, name, verdict]) => [name, verdict]));

for (const name of files.filter((it) => it.endsWith(".log"))) {
    const bytes = fs.readFileSync(name);
    const judged = new Judge(judge, bytes.length);
    judged.bytes(judged.log, bytes.length).set(bytes);
    const { text } = judged.why();
    agree(name, text.split("\n")[0], verdicts[name.split("/").at(-1)], 1);
    if (!fs.existsSync(diagnosis)) continue;
    agree(name, text, spawnSync(diagnosis, ["why", name]).stdout.toString(), 0);
}

const runs = new WebAssembly.Module(fs.readFileSync(running));
const corpus = fs.readFileSync(new URL("../conformance/RUNS.tsv", here), "utf8").trimEnd().split("\n").slice(1);
for (const [name, options, answer] of corpus.map((row) => row.split("\t")).filter(([, options]) => !options.includes("--owners"))) {
    const bytes = fs.readFileSync(new URL(`../conformance/runs/${name}`, here));
    const asks = { held: !/used/.test(options), used: /used|both/.test(options), owned: /--owned/.test(options) };
    const judged = new RunJudge(runs, bytes.length, asks);
    judged.bytes(judged.log, bytes.length).set(bytes);
    const { text } = judged.why();
    agree(`${name} ${options}`, text.split("\n")[0], answer, 1);
    if (!fs.existsSync(diagnosis)) continue;
    const words = options.split(" ").filter((it) => it !== "-");
    // The module gets whole lines: of a log that ends within a line it has no diagnosis of that line.
    if (bytes.at(-1) !== 10 && / Truncated$/.test(answer)) continue;
    const printed = spawnSync(diagnosis, ["run", "--why", ...words], { input: bytes }).stdout.toString();
    // The module writes a `yes` without what was asked.
    agree(`${name} ${options}`, text, printed.replace(/^asked .*\n/m, ""), 0);
}

const index = fs.readFileSync(new URL("../conformance/INDEX.tsv", here), "utf8").split("\n");
for (const [name, answer] of index.map((row) => row.split("\t")).filter(([name]) => name.startsWith("heaps/"))) {
    const bytes = fs.readFileSync(new URL(`../conformance/${name}`, here));
    const judged = new HeapJudge(runs, bytes.length);
    judged.bytes(judged.log, bytes.length).set(bytes);
    const { text } = judged.why();
    agree(name, text.split("\n")[0], answer, 1);
    if (fs.existsSync(diagnosis)) agree(name, text, spawnSync(diagnosis, ["heap", "--report", "--why"], { input: bytes }).stdout.toString(), 0);
}

for (const file of files.filter((it) => it.endsWith(".vectors"))) {
    for (const line of fs.readFileSync(file, "utf8").trimEnd().split("\n")) {
        const [left, right] = line.split(" = ");
        const [form, ...given] = left.split(" ");
        agree(line, FORMS[form](given).join(" "), right, CALLS_OF[form]);
        if (form === "round") continue;
        // A word also goes through the text, the fields and memory, and comes back.
        const start = word(given[0]);
        agree(line, c.textOf(c.readWord(given[0]).word), given[0], 2);
        agree(line, c.textOf(c.join(c.split(start)).word), given[0], 2);
        if (form === "memory") agree(line, c.textOf(c.fromMemory(bytes(right))), given[0], 1);
    }
}
// What the page reads in dumps. Its scripts need a document only once they show something.
globalThis.document = {};
const page = ["facts.js", "pasting.js", "vectors.js", "reports.js", "formless.js", "faults.js", "allocators.js", "links.js", "log.js", "picture.js", "stepping.js", "page.js"];
const reading = vm.runInThisContext(`${script(...page)}; (module) => { c = module; return ${readDump}; }`)(c);
for (const row of dumpsOf(fs.readFileSync(new URL("tests/dumps.rows", here), "utf8"))) {
    agree(`the dump ${JSON.stringify(row.text)}`, differs(row, reading(row.text)), "", 1);
}
console.log(`web: ${agreed} calls agreed`);
