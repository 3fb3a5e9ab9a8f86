"use strict";
// A log in a link: compressed, in letters that a link takes.

const LINK = 1000000; // as many letters the browsers take
const UNPACKED = 2 ** 28; // as many bytes are unpacked

/** All that a stream gives, or null where that is more than a number of bytes. */
async function atMost(stream, limit) {
    const reader = stream.getReader();
    const pieces = [];
    let size = 0;
    for (let piece = await reader.read(); !piece.done; piece = await reader.read()) {
        size += piece.value.length;
        if (size > limit) {
            reader.cancel();
            return null;
        }
        pieces.push(piece.value);
    }
    return new Uint8Array(await new Blob(pieces).arrayBuffer());
}

/** A log's letters in a link, or null where a link can't hold them. */
async function packedLog(blob) {
    const bytes = await atMost(blob.stream().pipeThrough(new CompressionStream("deflate-raw")), (LINK * 3) / 4 - 1000);
    if (!bytes) return null;
    let text = "";
    for (let at = 0; at < bytes.length; at += 3 << 12) text += btoa(String.fromCharCode(...bytes.subarray(at, at + (3 << 12))));
    return text.replaceAll("+", "-").replaceAll("/", "_").replaceAll("=", "");
}

/** The log of such letters; it throws where they are none. */
async function unpackedLog(text) {
    const packed = Uint8Array.from(atob(text.replaceAll("-", "+").replaceAll("_", "/")), (letter) => letter.charCodeAt(0));
    const bytes = await atMost(new Blob([packed]).stream().pipeThrough(new DecompressionStream("deflate-raw")), UNPACKED);
    if (!bytes) throw new Error("the log in it is too long");
    return new Blob([bytes]);
}
