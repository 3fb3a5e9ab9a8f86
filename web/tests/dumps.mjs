// The table of dumps, tests/dumps.rows, and what of it doesn't hold: in node and in a browser.

/** The rows: each a text, the capabilities that it has, and what is said where it has none. */
export function dumpsOf(table) {
    return table.split(/\n\n+/).map((block) => block.split("\n").filter((it) => it !== "" && !/^##? /.test(it))).filter((it) => it.length).map((lines) => {
        const shown = lines.filter((it) => it.startsWith("=> ")).map((it) => it.slice(3).split(/ ?\| ?/));
        const wanted = shown.map(([what, says]) => {
            const [name, tag, ...word] = what.split(" ");
            return { name: name === "-" ? "" : name, tag: tag === "-" ? null : Number(tag), word: word.join(" "), says };
        });
        const none = wanted[0].name === "none" ? wanted[0].says : null;
        return { text: lines.filter((it) => !it.startsWith("=> ")).join("\n"), wanted: none === null ? wanted : [], none };
    });
}

/** What a text gives, as a row says it. It is called where the page's scripts are, with `c` the module. */
export const readDump = (text) => {
    let none = null;
    try {
        foundIn(text);
    } catch (problem) {
        if (!(problem instanceof Refused)) throw problem;
        none = problem.message;
    }
    return {
        none,
        found: none !== null ? [] : pasted(text).map((it, k) => {
            const { word, says, parts } = foundIn(text, k);
            const { base, top } = c.decode(word);
            const { address, otype } = c.split(word);
            const made = ["made", ...[base, top, address, c.permView(word), otype].map((number) => hex(number))].join(" ");
            return { name: it.name, tag: it.tag, word: parts ? made : c.textOf(word), says };
        }),
    };
};

/** What differs between a row and what was read, or nothing. */
export function differs({ wanted, none }, got) {
    const says = (one, two) => (two === "" ? one === "" : one.startsWith(two));
    if ((none === null) !== (got.none === null)) return `it is ${got.none === null ? "taken" : `refused: ${got.none}`}`;
    if (none !== null) return says(got.none, none) ? "" : `it says: ${got.none}`;
    if (wanted.length !== got.found.length) return `${got.found.length} capabilities, not ${wanted.length}`;
    const wrong = wanted.findIndex((it, k) => ["name", "tag", "word"].some((field) => it[field] !== got.found[k][field]) || !says(got.found[k].says, it.says));
    return wrong < 0 ? "" : JSON.stringify(got.found[wrong]);
}
