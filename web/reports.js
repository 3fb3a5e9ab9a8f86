"use strict";
// The diagnosis of a refused line: what its lines say, by their names.

// What is said of a refusal that compares no numbers.
const REFUSALS = {
    BadHeader: "the first line is neither “capcheck 1” nor “capcheck 2”",
    LineTooLong: "the first 96 bytes of the line have no line feed",
    BadLine: "the line has none of the forms",
    Misplaced: "a line of its kind isn't allowed here",
    Truncated: "the bytes end before the end line does",
    LimitPassed: "the line exceeds a limit on roots, steps or granules",
    BadMode: "the second line is neither “mode strict” nor “mode clear”",
};

// The part of a line that a refusal is about, the first that the line has.
const ABOUT = {
    WrongCount: "steps", PlaceTaken: "place", UnsoundRoot: "word", SourceUntagged: "source", SourceSealed: "source",
    BoundsEscape: "length", NotExact: "length", NotRepresentable: "address", AuthorityUntagged: "authority",
    AuthoritySealed: "authority", AuthorityPermission: "authority", AuthorityBounds: "offset authority", TypeOutOfRange: "authority",
    TypeMismatch: "source", Misaligned: "offset", StoreCapPermission: "authority", StoreLocalPermission: "source",
    UnsoundResult: "word", BeyondSource: "word", SealChanged: "word", NotInvokable: "code", NoCapability: "source", HasOwner: "source",
    Overlaps: "source", StillHeld: "source", NoOwner: "source", AlreadyFreed: "source", OwnerFreed: "authority", NotOwned: "authority",
};

const CAPABILITIES = ["source", "authority", "code", "data", "register", "holder", "holds", "root", "gives", "recorded"];
const SPANS = {
    request: "the requested bounds", rounded: "what they are rounded to", moved: "the bounds at the new address",
    representable: "the addresses that keep the source's bounds", access: "the bytes that the step reaches",
    extent: "what the line asks for",
    "live request": "the live object's requested bounds", "live rounded": "what they are rounded to",
};
const ORDER = [...CAPABILITIES.slice(0, -2), ...Object.keys(SPANS), "object", "gives", "recorded"];
const COUNTS = {
    objects: "allocated before it", roots: "accepted before it", steps: "accepted before it", granules: "named before it", length: "of the root, in bytes" };

/** A report by the names of its lines. */
function reportOf(text) {
    const [verdict, ...rows] = text.replace(/\n$/, "").split("\n").map((row) => row.split(" "));
    const report = {
        refusal: verdict[3], line: "", says: "", caps: {}, spans: {}, counts: {}, values: {}, differs: [], needs: null, cleared: null,
        object: null, more: [],
    };
    for (const [name, first, ...rest] of rows) {
        if (name === "holder" && report.object) report.object.holder ??= first;
        if (name === "line" || name === "says") report[name] = [first, ...rest].join(" ");
        else if (name in SPANS) report.spans[name] = { base: BigInt(`0x${first}`), top: BigInt(`0x${rest[0]}`) };
        else if (name in COUNTS) report.counts[name] = name === "length" ? ox(BigInt(`0x${first}`)) : decimal(first);
        else if (name === "differs") report.differs = [first, ...rest];
        else if (name === "needs") report.needs = first;
        else if (name === "cleared") report.cleared = `${first} ${rest[0]}`;
        else if (name === "object") {
            const [at, base, top, state, held] = rest;
            report.object = { number: Number(first), line: Number(at), base: BigInt(`0x${base}`), top: BigInt(`0x${top}`), isLive: state === "live", held: Number(held) };
        } else if (name === "freed" && report.object) report.object.freed = Number(first);
        else if (CAPABILITIES.includes(name) && rest.length === 0) report.values[name] = first;
        else if (CAPABILITIES.includes(name) && /^(\d+\.)?(c|scr)\d|^@/.test(first)) report.caps[name] = { place: first, tag: rest[0], word: rest[1] };
        else if (CAPABILITIES.includes(name)) report.caps[name][first] = first === "bounds" ? rest.map((it) => BigInt(`0x${it}`)) : rest;
        else report.more.push([name, first ?? "", ...rest]);
    }
    return report;
}
