"use strict";
// Vector files: each line states what a word decodes to, whether an address keeps its bounds, how a request is rounded, or
// a word's bytes in memory. A line is right where the module says the same.

const STATED = [
    [/^bounds ([0-9a-f]{32})$/, (c, digits) => {
        const { base, top } = c.decode(read(digits));
        return [hex(base, 16), hex(top, 17), Number(c.sound(read(digits)))];
    }],
    [/^keeps ([0-9a-f]{32}) ([0-9a-f]{16})$/, (c, digits, address) => [Number(c.keepsBounds(read(digits), numberIn(address)))]],
    [/^round ([0-9a-f]{16}) ([0-9a-f]{16})$/, (c, base, length) => {
        if (numberIn(base) + numberIn(length) > SPACE) return null;
        const got = c.round(numberIn(base), numberIn(length));
        return [hex(got.base, 16), hex(got.top, 17), got.ie, got.e, got.exact];
    }],
    [/^memory ([0-9a-f]{32})$/, (c, digits) => [[...c.toMemory(read(digits))].map((byte) => hex(byte, 2)).join("")]],
];

/** What the module has for the left side of a line, or nothing where that has no form. */
function statedOf(c, left) {
    for (const [form, says] of STATED) {
        const found = left.match(form);
        if (found) return says(c, ...found.slice(1))?.join(" ") ?? null;
    }
    return null;
}

/** The verdict on a vector file: `pass LINES`, or `fail LINE` and what the module has there. */
function vectorsSaid(c, text) {
    const lines = text.split("\n");
    const rest = lines.pop();
    for (const [k, line] of [...lines, ...(rest === "" ? [] : [rest])].entries()) {
        const [left, right] = line.split(" = ");
        const has = statedOf(c, left);
        if (k === lines.length || line !== `${left} = ${has}`) {
            return { verdict: `fail ${k + 1}`, has: has === null ? "the line has none of the forms" : has === right ? "the line has no line feed" : `the module has ${has}` };
        }
    }
    return { verdict: `pass ${lines.length}`, has: "" };
}
