"use strict";
// What is wrong in a refused line, in a sentence: that of its report, or if the report has none, the page's own.

const listed = (parts) => (parts.length > 1 ? `${parts.slice(0, -1).join(", ")} and ${parts.at(-1)}` : parts[0] ?? "");
const boundsOf = ({ bounds: [base, top] }) => ({ base, top });
const addressOf = ({ word }) => ox(BigInt(`0x${word.slice(16)}`));

/** The sentence of a report. `text` is the refused line. */
function faultSentence({ refusal, says, counts, more }, text) {
    const wrongCount = () => `it says ${counted(partsOf(text).steps, "step")}; the log has ${counts.steps}`;
    const { isRun, isHeap } = log.judged;
    const formless = () => (isRun ? formlessByReport(refusal, more, "run 1") : formlessSaid(refusal, text, more, log.judged));
    const ofMachine = () => (refusal === "WrongCount" ? wrongCount() : formless());
    const found = says || (isHeap ? heapSentence({ refusal, counts, more }, text) : ofMachine()) || (REFUSALS[refusal] ?? "");
    return found && `${/^(c\d|scr|@|0x)/.test(found) ? found[0] : found[0].toUpperCase()}${found.slice(1)}.`;
}

/** The same for a line of another log that has none of the forms or is in a wrong place, by its report. */
function formlessByReport(refusal, more, header) {
    const [column, found, expected] = ["column", "found", "expected"].map((name) => more.find(([it]) => it === name)?.slice(1).join(" "));
    if (!expected) return refusal === "BadHeader" ? `the first line isn't “${header}”` : "";
    return `${column ? `in column ${column} ${found ? `is “${found}”` : "the line ends"}; ` : ""}expected: ${expected}`;
}
