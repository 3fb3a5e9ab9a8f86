// What the page answers, beside what is known from outside.
import { execFileSync } from "node:child_process";
import fs from "node:fs";

import { root, file, text, address, check, same, hash, capability, ALL, vectors, drawnWords, layoutOfHeader } from "./given.mjs";

export async function vectorsAreShown(page) {
    const shown = await page.run((lines) => lines.map(([[form, ...given], right]) => {
        if (form === "round") {
            turn("request");
            type("base", given[0]);
            type("length", given[1]);
            const { base, top, ie, e, exact } = rows("round-lines");
            const called = c.round(BigInt(`0x${given[0]}`), BigInt(`0x${given[1]}`));
            return [
                [base, top, ie, e, exact === "yes" ? "1" : "0"],
                [hex(called.base, 16), hex(called.top, 17), `${called.ie}`, `${called.e}`, `${called.exact}`]
            ];
        }
        turn("capability");
        type("to", form === "keeps" ? given[1] : "");
        type("word", given[0]);
        const { word } = c.readWord(given[0]);
        if (form === "keeps") {
            const says = seen("to-says");
            const number = given[1].replace(/^0*(?=.)/, "");
            return [
                [says.startsWith(`0x${number} keeps the bounds`) ? "1"
                        : says.startsWith(`0x${number} loses the bounds`) ? "0"
                                                                          : says],
                [String(Number(c.keepsBounds(word, BigInt(`0x${given[1]}`))))]
            ];
        }
        const { memory, base, top, sound } = rows("lines");
        const called = c.decode(word);
        if (form === "memory") return [[memory], [[...c.toMemory(word)].map((byte) => hex(byte, 2)).join("")]];
        return [[base, top, sound === "yes" ? "1" : "0"], [hex(called.base, 16), hex(called.top, 17), String(Number(c.sound(word)))]];
    }),
        vectors);
    vectors.forEach(([left, right], k) => {
        same(shown[k][0], right, `shown: ${left.join(" ")}`);
        same(shown[k][1], right, `called: ${left.join(" ")}`);
    });
}

export async function wordsAreExplained(page) {
    const drawn = drawnWords();
    await page.run(() => {
        turn("capability");
        type("to", "");
        order("register");
    });
    const shown = await page.run((words) => words.map(([word, memory], k) => {
        tick("tag", k % 2 === 0);
        order("register");
        type("word", word);
        const first = {
            ...rows("lines"),
            says: seen("range-says"),
            why: seen("grid-says"),
            perms: [...document.querySelectorAll(".perms li")].map((it) => it.textContent),
            address: rows("lines").address,
            view: rows("lines").perms
        };
        order("memory");
        type("word", memory);
        return [first, rows("lines").word];
    }),
        drawn);
    const names = [...text("include/capcheck.h").matchAll(/#define CAPCHECK_([A-Z_]+) +0x([0-9a-f]+)u\n/g)]
                      .filter(([, name]) => !/PERMISSIONS|OTYPE/.test(name))
                      .map(([, name, bit]) => [name, Number(`0x${bit}`)]);
    same(names.length, 12, "permissions in the header");
    drawn.forEach(([word, memory, ie, e, b, t, base, top, sound, start, size, cut], k) => {
        const [it, back] = shown[k];
        const bits = BigInt(`0x${word}`);
        const perms = Number(bits >> 112n);
        const view = perms & 0xfff | perms >> 12 << 15;
        const otype = Number(bits >> 91n & 0x3ffffn);
        const kind = otype === 0x3ffff ? "unsealed" : otype > 0x3fffb ? "reserved" : "sealed";
        const wanted = {
            word,
            memory,
            tag: String(Number(k % 2 === 0)),
            view: view.toString(16).padStart(8, "0"),
            otype: `${otype.toString(16).padStart(5, "0")} ${kind}`,
            flag: String(bits >> 109n & 1n),
            reserved: String(bits >> 110n & 3n),
            ie: String(ie),
            e: String(e),
            b,
            t,
            address: word.slice(16),
            base,
            top,
            sound,
        };
        for (const [name, value] of Object.entries(wanted)) same(it[name], value, `explain ${word}: ${name}`);
        same(back, word, `memory ${memory}`);
        const range = cut >= 50 ? "Every address keeps these bounds" : `The representable range is 0x${size} addresses from 0x${start} on`;
        check(it.says.startsWith(range), `range of ${word}: ${it.says}`);
        check(sound === "yes" || it.why.includes("isn't sound: "), `why ${word} isn't sound: ${it.why}`);
        same(names.map(([, bit]) => !(view & bit)), it.perms.slice(0, 12).map((name) => name.startsWith("lacks ")),
            `permissions of ${word}`);
        same(names.map(([name]) => name),
            it.perms.slice(0, 12).map((name) => name.replace("lacks ", "").toUpperCase().replaceAll(" ", "_")), "names");
    });
    if (process.env.CAPCHECK) {
        for (const [word] of drawn.slice(0, 100)) {
            const said = execFileSync(process.env.CAPCHECK, ["explain", word]).toString();
            await page.run((digits) => {
                tick("tag", false);
                order("register");
                type("word", digits);
            }, word);
            same(await page.run(() => explained(shown.facts).map(([name, value]) => `${name} ${value}\n`).join("")), said,
                `capcheck explain ${word}`);
        }
    }
    await page.run(() => {
        order("register");
        tick("tag", true);
    });
}

export async function layoutIsTheHeaders(page) {
    const said = layoutOfHeader(await page.run(() => LAYOUT));
    said.forEach((it, k) => same(it, "1", `layout, line ${k}`));
    const why = "capcheck_why capcheck_judge_why(bool origins, const uint8_t *bytes, size_t length, capcheck_slot *slots, size_t count,";
    check(text("include/capcheck_freestanding.h").includes(why), "the header has the judge's call");
    const declared = text("include/capcheck.h");
    for (const [name] of await page.run(() => Object.values(CALLS)))
        check(declared.includes(` capcheck_${name}(`), `the header has ${name}`);
}

/** The example logs' operations on registers, from their results. */
export async function logsAreFollowed(page) {
    const wanted = [];
    for (const name of fs.readdirSync(file("examples")).filter((it) => it.endsWith(".log"))) {
        const held = {};
        const clear = text(`examples/${name}`).includes("mode clear");
        for (const line of text(`examples/${name}`).trimEnd().split("\n")) {
            const [left, right] = line.split(" = ");
            const [step, target, ...given] = left.split(" ");
            if (step === "root") held[target] = ["1", given[0]];
            if (right === undefined) continue;
            const source = held[given[0]];
            if (/^(set|andperm|seal|unseal|cleartag)/.test(step) && source && !/^(wrong|kept|stale)/.test(name)) {
                const fields = {
                    show: "operation",
                    do: step,
                    source: source[1],
                    sourcetag: source[0],
                    authority: held[given[1]]?.[1] ?? source[1],
                    authoritytag: held[given[1]]?.[0] ?? "0",
                    value: held[given[1]] ? "0" : given[1] ?? "0",
                    offset: "0",
                    size: "8",
                };
                const refusal = { "escaped_bound.log": "11 BoundsEscape", "strict_bound.log": "11 BoundsEscape" }[name];
                wanted.push([name, line, hash(fields), clear ? 1 : 0, refusal && line === lastStep(name) ? refusal : right]);
            }
            held[target] = right.split(" ");
        }
    }
    check(wanted.length >= 20, `steps in the example logs: ${wanted.length}`);
    for (const [name, line, link, mode, right] of wanted) {
        const got = await page.run((part, which) => {
            location.hash = part;
            restore();
            return document.querySelectorAll(".outcome")[which].innerText;
        }, link, mode);
        check(got.includes(right), `${name}: ${line}: ${got}`);
    }
}

const lastStep = (name) => text(`examples/${name}`).trimEnd().split("\n").filter((line) => line.includes(" = ")).at(-1);

/** Each refusal by its name, with the numbers that it compares. */
export async function refusalsAreNamed(page) {
    const all = `${ALL}0000000000001000`;
    const sealed = "ffff1fffdc0180040000000000000000";
    const small = "ffff1ffffbffd0000000000000001000";
    const cases = [
        ["9 SourceUntagged", { do: "seal", sourcetag: "0" }, "no tag"],
        ["10 SourceSealed", { do: "setbounds", source: sealed }, "3fffb"],
        [
            "11 BoundsEscape", { do: "setbounds", source: small, value: "1000" },
            "0x1000 up to 0x2000, aren't inside the source's, 0x1000 up to 0x1fff"
        ],
        [
            "12 NotExact", { do: "setboundsexact", source: all, value: "1001" },
            "0x1001 bytes from 0x1000 on; rounded it is 0x1000 up to 0x2008"
        ],
        [
            "13 NotRepresentable", { do: "setaddr", source: small, value: "ffffffffffffffff" },
            "0x4000 addresses from 0x800 on that keep the bounds 0x1000 up to 0x1fff"
        ],
        ["14 AuthorityUntagged", { do: "seal", authoritytag: "0" }, "no tag"],
        ["15 AuthoritySealed", { do: "load", authority: sealed }, "3fffb"],
        ["16 AuthorityPermission", { do: "unseal", authority: "00001ffffc0180040000000000001000" }, "00000000, lack Unseal"],
        [
            "17 AuthorityBounds", { do: "seal", authority: "ffff1ffffbffd0000000000000000fff" },
            "0xfff, doesn't lie in its bounds, 0x1000 up to 0x1fff"
        ],
        ["17 AuthorityBounds", { do: "load", authority: small, offset: "2047" }, "8 bytes from 0x17ff on doesn't lie", false],
        [
            "17 AuthorityBounds", { do: "load", authority: small, offset: "-8" },
            "8 bytes from 0xff8 on doesn't lie in the authority's bounds, 0x1000 up to 0x1fff"
        ],
        ["18 TypeOutOfRange", { do: "seal", authority: `${ALL}000000000003fffc` }, "3fffc"],
        ["19 TypeMismatch", { do: "unseal", source: sealed }, "0x3fffb, the authority's address 0x1000"],
        ["20 Misaligned", { do: "load", offset: "4" }, "0x1004, is no multiple of 8"],
        ["20 Misaligned", { do: "lc", offset: "-8" }, "0xff8, is no multiple of 16"],
        ["21 StoreCapPermission", { do: "sc", authority: "ffdf1ffffc0180040000000000001000" }, "00078fdf, lack Store Capability"],
        [
            "22 StoreLocalPermission",
            { do: "sc", source: "fffe1ffffc0180040000000000001000", authority: "ffbf1ffffc0180040000000000001000" },
            "00078fbf, lack Store Local"
        ],
    ];
    for (const [name, fields, compares, holds = true] of cases) {
        const link = hash({
            show: "operation",
            source: all,
            sourcetag: "1",
            authority: all,
            authoritytag: "1",
            value: "0",
            offset: "0",
            size: "8",
            ...fields
        });
        const got = await page.run((part) => {
            location.hash = part;
            restore();
            return document.querySelector(".outcome").innerText;
        }, link);
        check(got.includes(name) === holds && got.includes(compares) === holds, `${name}: ${got}`);
    }
}

const FORMS = "None of the accepted forms: 32 digits; TAG and 32 digits; 0xHIGH 0xLOW; 0xADDRESS [rwxRW,0xBASE-0xTOP]; "
    + "v:1 p:PERMS b:BASE l:LENGTH o:OFFSET; a dump of memory; or a line of a log.";

export async function badInputIsRefused(page) {
    const word = "ffff1ffffbffd0000000000000001000";
    const cases = [
        ["capability", "word", "", "Type 32 hexadecimal digits."],
        ["capability", "word", "   ", "Type 32 hexadecimal digits."],
        ["capability", "word", word.slice(1), "31 digits instead of 32: 1 missing."],
        ["capability", "word", `${word}0`, "33 digits instead of 32: 1 too many."],
        ["capability", "word", word.replace("b", "g"), "“g” isn't a hexadecimal digit."],
        ["capability", "word", word.replace("b", "é"), "“é” isn't a hexadecimal digit."],
        ["capability", "word", word.replace("b", "😀"), "“😀” isn't a hexadecimal digit."],
        ["capability", "word", `-${word.slice(1)}`, "“-” isn't a hexadecimal digit."],
        ["capability", "word", "<b>x</b>", FORMS],
        ["capability", "word", "<img src=1>", FORMS],
        ["capability", "word", "0x1800 [rwRW,0x1000-0x2000", FORMS],
        ["operation", "source", "[rwRW,0x1000-0x2000", FORMS],
        ["capability", "word", "0".repeat(100000), "100000 digits instead of 32: 99968 too many."],
        ["capability", "to", "g", "“g” isn't a hexadecimal digit."],
        ["capability", "to", "0x", "Type a hexadecimal number."],
        ["capability", "to", "10000000000000000", "17 digits, and at most 16 are accepted."],
        ["request", "base", "", "Type a hexadecimal number."],
        ["request", "base", "1.5", "“.” isn't a hexadecimal digit."],
        ["request", "length", "-1", "“-” isn't a hexadecimal digit."],
        ["request", "length", "ffffffffffffffff", "Base plus length is above 2^64, where addresses end: there is no such request."],
        ["operation", "source", "x", "“x” isn't a hexadecimal digit."],
        ["operation", "value", "zz", "“z” isn't a hexadecimal digit."],
    ];
    for (const [view, id, value, wanted] of cases) {
        const got = await page.run((name, field, typed) => {
            location.hash = `#show=${name}`;
            restore();
            type(field, typed);
            const state = [
                error(field), results(), document.getElementById(field).getAttribute("aria-invalid"),
                document.getElementById("fault").hidden, dump().length > 100
            ];
            location.hash = "#show=capability";
            restore();
            return state;
        }, view, id, value);
        same(got, [wanted, id === "to" ? 1 : 0, "true", true, true], `${id} “${value.slice(0, 40)}”`);
    }
    const bad = await page.run(() => {
        turn("operation");
        const said = ["", "1.5", "0x10", "9999999999999999999"].map((typed) => {
            type("do", "load");
            type("offset", typed);
            return error("offset");
        });
        type("offset", "-8");
        return [...said, error("offset")];
    });
    same(bad, [...Array(4).fill("Type a decimal number from -2048 to 2047, such as -8."), ""], "offsets");
    const good = [
        ["register", `  ${word}\n`],
        ["register", `0x${word}`],
        ["register", `0X${word.toUpperCase()}`],
        ["register", "ffff1fff fbffd000 00000000 00001000"],
        ["register", "ffff_1fff_fbff_d000_0000_0000_0000_1000"],
        ["memory", "00100000000000000450fe070000ffff"],
        ["memory", "00 10 00 00 00 00 00 00 04 50 FE 07 00 00 FF FF"],
        ["memory", "0x00, 0x10, 0, 0".replace(/ 0\b/g, " 00") + ", 00 00 00 00 0x04 0x50 0xfe 0x07 0x00 0x00 0xff 0xff"],
        ["memory", "0x00100000000000000450fe070000ffff"],
    ];
    for (const [name, typed] of good) {
        const got = await page.run((kind, value) => {
            turn("capability");
            order(kind);
            type("word", value);
            const got = [error("word"), rows("lines").word];
            order("register");
            return got;
        }, name, typed);
        same(got, ["", word], `${name} ${JSON.stringify(typed)}`);
    }
    const memory = await page.run(() => {
        order("memory");
        type("word", "0x0000000000001000 0xffff1ffffbffd000");
        const said = error("word");
        order("register");
        return said;
    });
    same(memory, "“0x0000000000001000” is a number, not a byte: write the bytes in order of address.", "words for bytes");
}
