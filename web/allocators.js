"use strict";
// What the page says of an allocator's log: the rows of its report, of its diagnosis, and the sentence of a refusal.

// The rows of a yes, which say what exact bounds would cost, and those of a no that aren't ranges.
const HEAP_COUNTS = {
    objects: "objects allocated", most: "live at once at most", inexact: "objects whose bounds aren't exact",
    excess: "bytes by which the bounds of all objects reach beyond them",
    padding: "bytes that would give every object a length that can be exact",
    gaps: "bytes by which all objects would move up, each to where such a length is exact", events: "accepted before it",
    length: "with it the request's bounds would be exact", alignment: "the request's address would be a multiple of it",
    "live length": "with it the live object's bounds would be exact", "live alignment": "the live object's address would be a multiple of it",
};
const HEAP_SAYS = {
    AddressTaken: "an object lives at this very address",
    OutsideHeap: "the request's rounded bounds don't lie inside the root's",
    Overlaps: "the request's rounded bounds reach those of a live object",
    NotLive: "no live object begins at this address",
    LimitPassed: "the log has more events than a log may have",
};

const rowsOf = (text) => text.replace(/\n$/, "").split("\n").slice(1).map((row) => row.split(" "));

/** The diagnosis of a refused line, in the form of a report of another log. */
function heapReportOf(text) {
    const report = reportOf(text.split("\n")[0]);
    for (const [word, ...words] of rowsOf(text)) {
        const [name, ...rest] = word === "live" ? [`live ${words[0]}`, ...words.slice(1)] : [word, ...words];
        if (name === "line") report.line = rest.join(" ");
        else if (name in SPANS) report.spans[name] = { base: BigInt(`0x${rest[0]}`), top: BigInt(`0x${rest[1]}`) };
        else if (/(length|alignment)$/.test(name)) report.counts[name] = ox(BigInt(`0x${rest[0]}`));
        else if (name in HEAP_COUNTS) report.counts[name] = decimal(rest[0]);
        else report.more.push([name, ...rest]);
    }
    return report;
}

/** What a yes says of the objects of the log. */
const heapCosts = (text) => make("table", {}, make("tbody", {}, ...rowsOf(text).map(([name, count]) => row([name, decimal(count), HEAP_COUNTS[name] ?? ""]))));

function heapSentence({ refusal, counts, more }, text) {
    if (refusal === "WrongCount") return `it says ${counted(text.split(" ")[1], "event")}; the log has ${counts.events}`;
    return HEAP_SAYS[refusal] ?? formlessByReport(refusal, more, "heap 1");
}

/** The verdict, and a sentence. */
const heapVerdict = ({ state, events, live }) => (state === 1
    ? ["Yes: each live object can have bounds that reach no other.", `${counted(events, "event")}, ${counted(live, "object")} live at the end.`] : null);
