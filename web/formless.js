"use strict";
// What is wrong where a line isn't one of a log, or isn't allowed there: what is missing, too much or misspelt, and what
// to do. The refusal, the column and what was found there are the module's.

// What each word of a line is, and how it is written.
const IS_WORD = {
    place: ["the place", "a place, c1 to c31, or @ and 16 digits, the last of them 0"],
    target: ["the register that is written", "a register that is written, c1 to c31"],
    source: ["the source register", "a source register, c0 to c31"], authority: ["the authority's register", "a register, c0 to c31"],
    length: ["the length", "a length, 16 digits"], address: ["the address", "an address, 16 digits"], mask: ["the mask", "a mask, 16 digits"],
    offset: ["the offset", "an offset, -2048 to 2047"], size: ["the size", "a size, 1, 2, 4 or 8"], tag: ["the tag", "a tag, 0 or 1"],
    word: ["the word", "a word, 32 digits"], value: ["the value", "a value, 2 digits for each byte"],
    steps: ["the number of steps", "a number of steps"], "=": ["“=” and the result", "“=”"],
};
const DIGITS = { length: 16, address: 16, mask: 16, word: 32 };
const PLAIN = { offset: /^(0|-?[1-9]\d*)$/, steps: /^(0|[1-9]\d*)$/ };

/** How a word misses the form of its part, or nothing. */
function missing(part, word, words) {
    const wanted = DIGITS[part] ?? (part === "value" && /^[1248]$/.test(words[3]) ? 2 * Number(words[3]) : null);
    if (/^0x/i.test(word) && (wanted || PLAIN[part])) return "numbers have no 0x";
    if (wanted && /^[0-9a-f]+$/i.test(word)) {
        const gap = wanted - word.length;
        if (gap !== 0) return `it has ${counted(word.length, "digit")} instead of ${wanted}: ${Math.abs(gap)} ${gap > 0 ? "missing" : "too many"}`;
        return "the digits a to f are in lower case";
    }
    if (PLAIN[part] && /^[+-]?\d+$/.test(word) && !PLAIN[part].test(word)) return "a number has no plus sign and no zero in front";
    if (part === "offset" && PLAIN.offset.test(word)) return "it is out of range";
    if (part === "steps" && PLAIN.steps.test(word)) return "a log has at most 4,294,967,295 steps";
    return "";
}

/** How far apart two words are: the letters put in, left out or changed. */
function apart(one, other) {
    let row = [...Array(other.length + 1).keys()];
    for (const letter of one) {
        const next = [row[0] + 1];
        [...other].forEach((it, k) => next.push(Math.min(row[k + 1] + 1, next[k] + 1, row[k] + (it === letter ? 0 : 1))));
        row = next;
    }
    return row.at(-1);
}

const likest = (word) => Object.keys(FORMS).map((name) => [apart(word, name), name]).sort(([one], [other]) => one - other)[0];

/** What is wrong with a line of a log that has none of the forms. */
function badLine(text, { column, found }) {
    if (text === "") return "the line is empty; a log has no empty lines";
    if (/^#|^\/\//.test(text)) return "a log has no comments";
    if (/ $/.test(text)) return "the line ends with a blank, and none is allowed there";
    if (/^ /.test(text)) return "the line begins with a blank, and none is allowed there";
    if (text.includes("  ")) return "two blanks follow one another; one parts two words";
    const words = text.split(" ");
    const form = Object.hasOwn(FORMS, words[0]) ? [words[0], ...FORMS[words[0]]] : null;
    if (!form) {
        const [distance, name] = likest(words[0]);
        return `no line begins with “${words[0].slice(0, 24)}”${distance <= 2 ? `; “${name}” does` : ""}`;
    }
    const at = column ? text.slice(0, column - 1).split(" ").length - 1 : words.length;
    const wrong = words.findIndex((it, k) => k < form.length && form[k] === "=" && it !== "=");
    const isShort = words.length < form.length && (at >= words.length - 1) && missing(form[words.length - 1], words.at(-1), words) === "";
    if (isShort && wrong < 0) return `after “${words.at(-1)}” the line ends: ${IS_WORD[form[words.length]][0]} is missing`;
    if (words.length > form.length && at >= form.length - 1) return `after “${words[form.length - 1]}” the line goes on: “${words.slice(form.length).join(" ")}” is too much`;
    const part = form[at] ?? "";
    const how = missing(part, words[at] ?? "", words);
    return `“${(words[at] ?? found ?? "").slice(0, 70)}” isn't ${IS_WORD[part]?.[1] ?? "what is expected there"}${how ? `: ${how}` : ""}`;
}

/** What is wrong with a line that isn't allowed where it is. `before` is the line before it. */
function misplaced(text, before) {
    if (/^capcheck \d$/.test(text) && !/^end /.test(before)) return "this is a second header; a log has one, its first line";
    if (/^mode /.test(text) && !/^end /.test(before)) return "a mode line is the second line of a log, and there is one";
    if (/^root /.test(text) && !/^end /.test(before)) return "a root follows a step; all roots come before the first step";
    if (text === "") return "an empty line follows the end line, the last of a log";
    if (/^capcheck \d$/.test(text)) return "a second log follows the end line; judge each by itself";
    return "the line follows the end line, the last of a log";
}

/** What is missing where the bytes end. */
function truncated(text, { line, count, before }) {
    const other = line === 1 && OTHERS.slice(0, -1).find(([form]) => form.test(text));
    if (count > 0 && other) return other[1];
    if (count === 0) return "the log is empty; its first line is “capcheck 1” or “capcheck 2”";
    if (line <= count && text !== "") return "the last line has no line feed";
    if (before === "capcheck 2") return "the mode line is missing, “mode strict” or “mode clear”";
    return "the end line is missing, “end” and the number of steps; if a program wrote the log, it may still be running or have been stopped";
}

// What isn't a log, by its first line, which has `\xNN` for bytes that aren't ASCII.
const OTHERS = [
    [/^\\xff\\xfe|^\\xfe\\xff|^(.\\x00)+/, "the text is UTF-16, as a Windows shell writes it; a log is ASCII"],
    [/^\\x1f\\x8b/, "these are bytes that gzip has packed; unpack them first"],
    [/^(bounds|keeps|round|memory) .* = /, "this is a vector file"],
    [/^(yes|no) \d+( |$)/, "this is a verdict or a report; a log is what was judged"],
    [/^capcheck ([03-9]|\d\d)/, "no version of a log but 1 and 2 is known here; a later capcheck may have written it"],
    [/^$/, "the first line is empty; the header comes first, “capcheck 1” or “capcheck 2”"],
    [/^#|^\/\//, "a log has no comments; its first line is “capcheck 1” or “capcheck 2”"],
    [/^ ?capcheck +\d *$/i, "the header is “capcheck 1” or “capcheck 2”, in lower case, with one blank and nothing else"],
];

const badHeader = (text) => OTHERS.find(([form]) => form.test(text))?.[1] ?? "the first line is neither “capcheck 1” nor “capcheck 2”";

/** What is wrong in a refused line that isn't one of a log or is in a wrong place, or nothing for another refusal. */
function formlessSaid(refusal, text, more, judged) {
    const told = Object.fromEntries(more.map(([name, ...rest]) => [name, rest.join(" ")]));
    return {
        BadHeader: () => badHeader(text),
        BadMode: () => `the second line is neither “mode strict” nor “mode clear”${/ $/.test(text) ? ": it ends with a blank" : ""}`,
        BadLine: () => badLine(text, { column: Number(told.column), found: told.found }),
        Misplaced: () => misplaced(text, judged.before),
        Truncated: () => truncated(text, judged),
    }[refusal]?.() ?? "";
}
