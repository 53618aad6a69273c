// The pixels of a PNG of 8 bits a part, not interlaced, as browsers write screenshots.
import { inflateSync } from 'node:zlib';

const PARTS = { 2: 3, 6: 4 }; // by the type of its colours

function paeth(left, up, before) {
    const sum = left + up - before;
    const a = Math.abs(sum - left), b = Math.abs(sum - up), c = Math.abs(sum - before);
    return a <= b && a <= c ? left : b <= c ? up : before;
}

/** What a row's filter takes from each part, by the parts to the left, above, and left above. */
const GUESSES = [() => 0, left => left, (_, up) => up, (left, up) => left + up >> 1, paeth];

function unfilter(guess, row, above, parts) {
    for (let k = 0; k < row.length; k++) {
        const left = k < parts ? 0 : row[k - parts], before = k < parts ? 0 : above[k - parts];
        row[k] += guess(left, above[k], before);
    }
    return row;
}

/** A function that gives the colour `[red, green, blue]` at a place. */
export function readPng(bytes) {
    const data = [];
    for (let at = 8; at < bytes.length;) {
        const length = bytes.readUInt32BE(at), name = bytes.toString('latin1', at + 4, at + 8);
        if (name === 'IDAT') data.push(bytes.subarray(at + 8, at + 8 + length));
        at += 12 + length;
    }
    const width = bytes.readUInt32BE(16), parts = PARTS[bytes[25]], step = 1 + width * parts;
    const all = inflateSync(Buffer.concat(data)), rows = [], none = new Uint8Array(step - 1);
    for (let at = 0; at < all.length; at += step) {
        const row = Uint8Array.from(all.subarray(at + 1, at + step));
        rows.push(unfilter(GUESSES[all[at]], row, rows.at(-1) ?? none, parts));
    }
    return (x, y) => [...rows[y].subarray(x * parts, x * parts + 3)];
}
