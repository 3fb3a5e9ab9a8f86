// What people paste: each form gives its word, or is refused.
import { differs, dumpsOf, readDump } from "./dumps.mjs";
import { address, capability, check, hash, same, text, tools } from "./given.mjs";

const HIGH = "ffff1ffffbffd000";
const LOW = "0000000000001000";
const WORD = HIGH + LOW;

// A text, the word, and the tag that it tells, if any.
const FORMS = [
    [`1 ${WORD}`, WORD, 1],
    [`0 ${WORD}`, WORD, 0],
    [`${WORD} 1`, WORD, 1],
    [`${WORD} 0`, WORD, 0],
    [`0x1 0x${WORD}`, WORD, 1],
    [`v:1 ${WORD}`, WORD, 1],
    [`v:0 ${WORD}`, WORD, 0],
    [`tag=1 0x${WORD}`, WORD, 1],
    [`${WORD} v:0`, WORD, 0],
    [`0x${HIGH} 0x${LOW}`, WORD, null],
    [`0x${HIGH}, 0x${LOW}`, WORD, null],
    [`${HIGH} ${LOW}`, WORD, null],
    [`0x${HIGH} 0x1000`, WORD, null],
    [`0x${HIGH}:0x${LOW}`, WORD, null],
    [`0x1:0x${HIGH}:0x${LOW}`, WORD, 1],
    [`0x0:${HIGH}:${LOW}`, WORD, 0],
    [`c3 1 ${WORD}`, WORD, 1, "c3"],
    [`c3: 0x1 0x${HIGH} 0x${LOW}`, WORD, 1, "c3"],
    [`c31: ${WORD}`, WORD, null, "c31"],
    [`ca0 = 0x${WORD}`, WORD, null, "ca0"],
    [`csp            0x1 0x${HIGH}${LOW}`, WORD, 1, "csp"],
    [`$c5: 0x${HIGH.toUpperCase()} 0x${LOW}`, WORD, null, "$c5"],
    [`pcc ${HIGH}_${LOW}`, WORD, null, "pcc"],
    [`(1, 0x${HIGH}, 0x${LOW})`, WORD, 1],
    [`setaddr c2 c1 ${LOW} = 1 ${WORD}`, WORD, 1],
    [`root c1 ${WORD}`, WORD, null],
    [`recorded c4 0 ${WORD}`, WORD, 0],
    [`word ${WORD}`, WORD, null],
];

// Bounds and permissions in place of digits: what the word that the library makes of them has.
const PARTS = [
    ["0x1800 [rwRW,0x1000-0x2000]", { base: 0x1000n, top: 0x2000n, view: 0x3c, address: 0x1800n, otype: 0x3ffff }, 1],
    ["[rwRW,0x1000-0x2000]", { base: 0x1000n, top: 0x2000n, view: 0x3c, address: 0x1000n, otype: 0x3ffff }, 1],
    [
        "c4: 0x40001234 [rxR,0x40000000-0x40010000] (sentry)",
        { base: 0x40000000n, top: 0x40010000n, view: 0x16, address: 0x40001234n, otype: 0x3fffe }, 1
    ],
    ["0x1000 [rwxRWE,0x1000-0x1fff]", { base: 0x1000n, top: 0x1fffn, view: 0x3e, address: 0x1000n, otype: 0x3ffff }, 1],
    ["0x1000 [,0x1000-0x1fff] (invalid)", { base: 0x1000n, top: 0x1fffn, view: 0, address: 0x1000n, otype: 0x3ffff }, 0],
    ["0x1001 [rw,0x1001-0x5002]", { base: 0x1000n, top: 0x5020n, view: 0xc, address: 0x1001n, otype: 0x3ffff }, 1],
    [
        "v:1 s:0 p:00078fff b:0000000000001000 l:0000000000000fff o:10 t:3ffff",
        { base: 0x1000n, top: 0x1fffn, view: 0x78fff, address: 0x1010n, otype: 0x3ffff }, 1
    ],
    [
        "c7: v:0 s:1 p:0000003d b:12720 l:39b0 o:0 t:1a",
        { base: 0x12720n, top: 0x160d0n, view: 0x3d, address: 0x12720n, otype: 0x1a }, 0
    ],
    [
        "v:1 s:0 p:00078fff b:0 l:10000000000000000 o:0 t:-1",
        { base: 0n, top: 1n << 64n, view: 0x78fff, address: 0n, otype: 0x3ffff }, 1
    ],
];

export async function pastedIsTaken(page) {
    // The tag is the other way before.
    const shown = (forms) => forms.map(([text, , tag]) => {
        turn("capability");
        order("register");
        tick("tag", tag === null ? text.length % 2 === 0 : tag === 0);
        type("word", text);
        return [error("word"), rows("lines").word, Number(document.getElementById("tag").checked), seen("taken")];
    });
    const got = await page.run(shown, FORMS);
    FORMS.forEach(([text, word, tag, name], k) => {
        const [problem, found, tagged, says] = got[k];
        same([problem, found, tagged], ["", word, tag ?? Number(text.length % 2 === 0)], `pasted “${text}”`);
        check(says.startsWith(name ? `Taken, of ${name}: ${word}` : `Taken: ${word}`), `pasted “${text}”: ${says}`);
    });
    const parts = await page.run((texts) => texts.map((text) => {
        type("word", text);
        const { bounds: { base, top }, view, fields: { address, otype } } = shown.facts;
        const numbers = { base: String(base), top: String(top), view, address: String(address), otype };
        return [error("word"), numbers, Number(document.getElementById("tag").checked), seen("taken")];
    }), PARTS.map(([text]) => text));
    PARTS.forEach(([text, wanted, tag], k) => {
        const numbers = { ...wanted, base: String(wanted.base), top: String(wanted.top), address: String(wanted.address) };
        same(parts[k].slice(0, 3), ["", numbers, tag], `pasted “${text}”`);
        check(parts[k][3].includes("made by the library"), `pasted “${text}”: ${parts[k][3]}`);
        check(parts[k][3].includes("these are rounded") === text.includes("5002"), `rounded “${text}”: ${parts[k][3]}`);
    });
    const refused = await page.run((texts) => texts.map((text) => {
        type("word", text);
        return [error("word") !== "", results()];
    }), [
        "[rwRW,0x2000-0x1000]", "[rwRW,0x10000000000000000-0x10000000000000001]", "v:1 s:0 p:0 b:-1 l:5", "v:1 b:0 l:10000000000000001",
        "v:1 p:100000000 b:0 l:5", "v:1 b:0 l:5 t:40000", "[rwRW,0x1000]", `2 ${WORD}`, `c3: ${WORD}0`, "0x1:0x2:0x3", `memory ${WORD}`,
    ]);
    same(refused, Array(11).fill([true, 0]), "what has no form, or a number out of range");
    const dump = `c1: 0x1 0x${HIGH} 0x${LOW}\nnothing here\nc2 0 ffff1fffdc0180040000000000000000\n\ncsp 0x1800 [rwRW,0x1000-0x2000]\n`;
    const list = await page.run(async (text) => {
        type("word", text);
        const which = document.getElementById("which");
        const options = [...which.options].map((it) => it.textContent);
        const words = [0, 1, 2].map((k) => {
            which.value = String(k);
            which.dispatchEvent(new Event("input", { bubbles: true }));
            return [
                rows("lines").word, Number(document.getElementById("tag").checked),
                seen("choice").includes("3 capabilities")
            ];
        });
        await new Promise((done) => setTimeout(done, 500));
        return { options, words, link: location.href };
    }, dump);
    same(list.options, [`c1: 1 ${HIGH}${LOW}`, "c2: 0 ffff1fffdc0180040000000000000000", "csp: 1 0x1000 up to 0x2000"],
        "the list of a dump");
    same(list.words.map(([word, tag, counted]) => [word.slice(16), tag, counted]),
        [[LOW, 1, true], ["0000000000000000", 0, true], ["0000000000001800", 1, true]], "chosen from the list");
    await page.go(list.link);
    await page.run(tools);
    same(await page.run(() => [rows("lines").word.slice(16), valueOf("which")]), ["0000000000001800", "2"], "the link of a choice");
    const operands = await page.run((forms) => {
        turn("operation");
        type("do", "seal");
        return forms.map(([text]) => ["source", "authority"].map((id) => {
            type(id, text);
            const found = foundIn(document.getElementById(id).value);
            return [error(id), c.textOf(found.word), document.getElementById(`${id}tag`).checked];
        }));
    }, FORMS.filter(([, , tag]) => tag !== null));
    FORMS.filter(([, , tag]) => tag !== null).forEach(([text, word, tag], k) => {
        same(operands[k], Array(2).fill(["", word, tag === 1]), `as an operand: “${text}”`);
    });
    await memoryIsOffered(page);
    await wordIsMade(page);
    await capabilityIsSaid(page);
}

/** Each row of the table of dumps, and what the page shows of some. */
export async function dumpsAreRead(page) {
    const rows = dumpsOf(text("web/tests/dumps.rows"));
    check(rows.length > 35, `${rows.length} dumps`);
    for (const row of rows) same(differs(row, await page.run(readDump, row.text)), "", `the dump ${JSON.stringify(row.text)}`);
    const shown = await page.run((texts) => texts.map((text) => {
        turn("capability");
        order("register");
        tick("tag", true);
        type("word", text);
        return [error("word"), results(), document.getElementById("tag").checked, seen("type"), seen("means")];
    }), [
        `0 ${WORD} 0x1000 [rwxRW,0x1000-0x1fff] (untagged)`, "0x1000 [rwRW,0x1000-0x1fff] (sentry)",
        "0x1000 [rwRW,0x1000-0x1fff] (sealed)", "ca0: 0x0000000040825f28",
    ]);
    same(shown[0].slice(0, 3), ["", 1, false], "a note that there is no tag");
    same(shown[1][3], "Object type 0x3fffe, reserved.", "a sentry");
    check(shown[2][3].startsWith("Object type not told") && shown[2][4].includes("sealed with type 0x0"), `sealed: ${shown[2]}`);
    same([shown[3][0] !== "", shown[3][1]], [true, 0], "an address alone");
    const memory = await page.run((text) => {
        order("memory");
        type("word", text);
        return [error("word"), rows("lines").word, seen("taken").startsWith("Taken, of 0x1000: ")];
    }, "0x1000:\t0x0000000000001000\t0xffff000007fe5004");
    same(memory, ["", WORD, true], "a dump of memory in memory order");
    const stale = await page.run((first, then) => {
        order("register");
        type("word", first);
        const before = seen("offer");
        type("word", then);
        return [before !== "", seen("taken"), seen("offer")];
    }, "00100000000000000450fe070000ffff", "c".repeat(31));
    same(stale, [true, "", ""], "what was said of the text before is gone");
}

async function memoryIsOffered(page) {
    const got = await page.run((memory, turned, sound) => {
        turn("capability");
        const offers = [memory, turned, sound, "f".repeat(32)].map((text) => {
            order("register");
            type("word", text);
            return seen("offer");
        });
        order("register");
        type("word", memory);
        document.querySelector("#offer button").click();
        const first = [rows("lines").word, valueOf("order"), seen("offer")];
        order("register");
        type("word", turned);
        [...document.querySelectorAll("#offer button")].find((it) => it.textContent === "Turn the halves").click();
        return [offers, first, rows("lines").word];
    }, "00100000000000000450fe070000ffff", "0000000000013c08 003d1ffffc1a1391", WORD);
    check(got[0][0].includes("Looks like memory order: the other way it is sound, and its address lies in its bounds."),
        `memory order: ${got[0][0]}`);
    check(got[0][1].includes("Looks like the low half first: the other way it is sound, and"), `halves: ${got[0][1]}`);
    same(got[0].slice(2), ["", ""], "nothing is offered where the word is sound, or both ways it isn't");
    same(got[1], [WORD, "memory", ""], "memory order is taken");
    same(got[2], "003d1ffffc1a13910000000000013c08", "the halves are turned");
}

async function wordIsMade(page) {
    const got = await page.run(() => {
        document.getElementById("parts").open = true;
        const made = (base, length, perms, otype) => {
            type("make-base", base);
            type("make-length", length);
            type("make-perms", perms);
            type("make-type", otype);
            document.getElementById("make").click();
            const { base: from, top, perms: view, otype: kind } = rows("lines");
            return [from, top, view, kind, seen("made"), ["base", "length", "perms", "type"].map((it) => error(`make-${it}`)).join("")];
        };
        return [
            made("12720", "39b0", "rwRW", ""), made("0x1000", "1001", "3d", "1a"), made("0", "ffffffffffffffff", "", ""),
            made("1000", "10", "q", ""), made("1000", "10", "r", "40000"),
        ];
    });
    same(got[0], ["0000000000012720", "000000000000160d0", "0000003c", "3ffff unsealed", "", ""], "a word is made");
    same(got[1].slice(0, 4), ["0000000000001000", "00000000000002008", "0000003d", "0001a sealed"], "it is rounded and has a type");
    check(got[1][4].includes("these are rounded to 0x1000 up to 0x2008"), `rounded: ${got[1][4]}`);
    same(got[2].slice(0, 3), ["0000000000000000", "10000000000000000", "00078fff"], "all of memory");
    same(got[3][5], "“q” isn't a hexadecimal digit.", "letters of no permission");
    same(got[4][5], "A type has 18 bits: 3ffff is unsealed.", "a type that is none");
}

async function capabilityIsSaid(page) {
    const cases = [
        [
            "003d1ffffc1a13910000000000013c08", "1",
            "Read and write data and capabilities, 14,768 bytes from 0x12720; the address lies in bounds."
        ],
        [
            "ffff1ffffc0180040000000000000000", "1",
            "Read and write data and capabilities, execute, seal and unseal, the whole address space; the address lies in bounds."
        ],
        [
            "00041ffffbffd0000000000000002000", "1",
            "Read data, 4,095 bytes from 0x1000; the address, 0x2000, lies outside the bounds."
        ],
        ["000c1ffffbffd0000000000000001000", "1", "Read and write data, 4,095 bytes from 0x1000; the address lies in bounds."],
        [
            "001c1ffffbffd0000000000000001000", "1",
            "Read and write data and read capabilities, 4,095 bytes from 0x1000; the address lies in bounds."
        ],
        [
            "ffff1fffdc0180040000000000000000", "0",
            "No tag, so it is data and allows nothing. With a tag: read and write data and capabilities, " +
                "execute, seal and unseal, the whole address space, sealed with type 0x3fffb; the address lies in bounds."
        ],
        [
            "ffff1ffffc01a0030000000000000000", "1",
            "Not sound: the top, 0x18000000000000000, lies above 2^64, where addresses end."
        ],
    ];
    for (const [word, tag, wanted] of cases) {
        await page.go(address + capability(word, { tag }));
        await page.run(tools);
        const got = await page.run(
            () => [seen("means"), rows("lines").length, seen("type"), document.querySelectorAll("#perms li").length]);
        same(got[0], wanted, `${word} in a sentence`);
        same(got[3], 16, "its permissions are below the digits");
        if (word.startsWith("003d")) same([got[1], got[2]], ["0x39b0, 14,768 bytes", "Object type 0x3ffff, unsealed."], "length and type");
    }
}

/** What was put right: fields that aren't used, an address that wasn't touched, going back, terms, drawings, examples. */
export async function putRight(page) {
    const fields = { show: "operation", authority: `ffff1ffffc018004${LOW}`, authoritytag: "1", offset: "16", size: "8" };
    for (const name of ["load", "store"]) {
        await page.go(address + hash({ ...fields, do: name, source: "garbage" }));
        await page.run(tools);
        const got = await page.run(() => [visible(document.getElementById("source")), seen("outcomes")]);
        check(!got[0] && got[1].includes("Allowed, at 0x1010"), `${name} needs no source: ${got}`);
    }
    await page.go(address + capability("003d1ffffc1a13910000000000013c08"));
    await page.run(tools);
    const untouched = await page.run(() => [seen("to-says"), document.querySelectorAll("#range .tried.number").length,
                                         document.getElementById("take").disabled]);
    same(untouched, ["", 0, true], "an address that wasn't touched says nothing");
    // A browser that has fifty entries in a page's history drops such as no person made.
    const fresh = await page.browser.open(address + capability("003d1ffffc1a13910000000000013c08"));
    const back = await fresh.run(async () => {
        const went = [];
        const go = async (wanted, act) => {
            act();
            for (let k = 0; k < 300 && view !== wanted; k++) await new Promise((done) => setTimeout(done, 10));
            went.push(view);
        };
        await go("request", () => document.querySelector("[data-view=request]").click());
        await go("operation", () => document.querySelector("[data-view=operation]").click());
        await go("capability", () => document.querySelector("#outcomes a").click());
        await go("operation", () => history.back());
        await go("request", () => history.back());
        await go("capability", () => history.back());
        await go("request", () => history.forward());
        return went;
    });
    same(back, ["request", "operation", "capability", "operation", "request", "capability", "request"], "back and forward");
    await fresh.close();
    for (const [name, wanted] of [
             ["setbounds", ["source", "request, rounded", "result, no tag"]], ["setaddr", ["source, result", "range"]],
             ["seal", ["source, result", "authority"]], ["load", ["authority", "access"]], ["sc", ["source", "authority", "access"]]]) {
        const drawn = await page.run((part) => {
            location.hash = part;
            restore();
            return [...document.querySelectorAll("#ranges text.halo:not(.lost)")].map((it) => it.textContent);
        }, hash({ ...fields, do: name, source: WORD, sourcetag: "1", value: "1800" }));
        same(drawn, wanted, `${name} is drawn`);
    }
    const terms = await page.run(() => {
        const found = [];
        for (const [where, names] of [["#show=capability", ["range", "e", "b", "t", "sound"]], ["#show=operation", ["strict", "clear"]]]) {
            location.hash = where;
            restore();
            for (const name of names) {
                const first = dump().length;
                const word = () => document.querySelector(`section:not([hidden]) [data-term=${name}]`);
                word().click();
                const open = [dump().length > first + 60, word().getAttribute("aria-expanded"), document.activeElement === word()];
                word().click();
                found.push([name, ...open, dump().length === first]);
            }
        }
        return found;
    });
    for (const [name, ...got] of terms) same(got, [true, "true", true, true], `the term ${name}`);
    await page.size(360, 800, true);
    const tabs = await page.run(() => {
        const boxes = [...document.querySelectorAll("nav button")].map((it) => it.getBoundingClientRect());
        return [new Set(boxes.map((it) => it.top)).size, boxes.length, document.documentElement.scrollWidth <= innerWidth];
    });
    same(tabs, [1, 4, true], "at 360 pixels the tabs take one row");
    await page.size(1000, 1200);
    await page.go(address);
    await page.run(tools);
    const links = await page.run(() => [
        [...document.querySelectorAll("#capability p a")].length, [...document.querySelectorAll("[data-log]")].length,
        [...document.querySelectorAll("footer a")].map((it) => it.getAttribute("href")),
    ]);
    same(links.slice(0, 2), [3, 5], "three words and five logs to click");
    check(links[2].length > 2, `links to the pages: ${links[2]}`);
    for (const it of await page.run(() => [...document.querySelectorAll("footer a")].map((it) => it.href))) {
        check(it.startsWith("file:") && (await import("node:fs")).existsSync(new URL(it)), `${it} is there`);
    }
}
