"use strict";
// The lines of a log that have a form: their parts, by name and by place. Read on the page and beside it.

const worded = (forms) => Object.fromEntries(Object.entries(forms).map(([kind, names]) => [kind, names.split(" ")]));

// The words of a line after its first, in order.
const FORMS = worded({
    root: "place word", end: "steps",
    move: "target source = tag word", cleartag: "target source = tag word",
    setbounds: "target source length = tag word", setboundsexact: "target source length = tag word",
    setaddr: "target source address = tag word", andperm: "target source mask = tag word",
    seal: "target source authority = tag word", unseal: "target source authority = tag word",
    lc: "target authority offset = tag word", sc: "source authority offset",
    load: "authority offset size = value", store: "authority offset size value",
});

// Those of run logs too.
const RUN_FORMS = {
    ...FORMS,
    ...worded({
        derive: "target source = tag word", exchange: "target source special = tag1 word1 tag2 word2",
        invoke: "code data = word1 word2", drop: "place", fill: "place word", object: "source", free: "source", hart: "hart",
    }),
};

// The same by names: which word of the line it is.
const PLACES = Object.fromEntries(Object.entries(RUN_FORMS).map(([kind, names]) =>
    [kind, Object.fromEntries(names.map((name, k) => [name, k + 1]))]));

/** The parts of a line by their names; `kind` is its first word. Nothing where it has none of the forms. */
function partsOf(text, forms = FORMS) {
    const [kind, ...words] = text.split(" ");
    if (!Object.hasOwn(forms, kind) || words.length !== forms[kind].length) return null;
    return { kind, ...Object.fromEntries(forms[kind].map((name, k) => [name, words[k]])) };
}

/** Where a part of a line begins. */
function placeOf(text, name) {
    const words = text.split(" ");
    return words.slice(0, PLACES[words[0]][name]).join(" ").length + 1;
}

/** The number of a register that a line names, or none where it is a granule. */
const registerOf = (name) => (/^c\d/.test(name ?? "") ? Number(name.slice(1)) : null);
