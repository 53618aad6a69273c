// Recorded streams, and their player. A recording is a CBOR sequence (RFC 8742) of
//
//     entry = [milliseconds: uint, bytes: bstr]
//
// whose times count from the beginning and never descend, and whose bytes, one behind another, are
// a stream of answers, cut anywhere. An answer is an array of seven, so a stream that was kept
// without times is known by its first byte.
import { readChanges, readHead } from './answer.mjs';
import { ARRAY, BYTES, encodeHead, Fault, Reader, UINT } from './reader.mjs';
import { Client } from './tikeburo.mjs';

const ENTRY = 0x82; // an array of two
const APART = 100; // milliseconds between answers that have no times
const UNLIMITED = Number.MAX_SAFE_INTEGER; // bytes: a longer list is damage

/** An entry's bytes. */
export function encodeEntry(milliseconds, bytes) {
    const before = [ENTRY, ...encodeHead(UINT, milliseconds), ...encodeHead(BYTES, bytes.length)];
    const entry = new Uint8Array(before.length + bytes.length);
    entry.set(before);
    entry.set(bytes, before.length);
    return entry;
}

function readEntry(reader) {
    reader.item(ARRAY, 2, 2);
    const time = Number(reader.item(UINT)), begin = reader.skip(Number(reader.item(BYTES)));
    return { time, bytes: reader.bytes.subarray(begin, reader.next) };
}

/** A whole answer's bytes, after those that came before. */
function readAnswer(reader, entries) {
    const begin = reader.next, own = new Reader(reader.bytes.subarray(begin), UNLIMITED);
    readChanges(own, readHead(own));
    reader.next += own.next;
    return { time: APART * entries.length, bytes: reader.bytes.subarray(begin, reader.next) };
}

/**
 * The entries of a recording, or of a stream without times. Where it is cut or damaged it ends
 * before; `fault` is why, and of a stream the rest is an entry too, for the client to judge.
 */
export function readRecording(bytes) {
    const reader = new Reader(bytes, UNLIMITED), entries = [];
    const timed = bytes[0] === ENTRY;
    try {
        while (reader.next < bytes.length) {
            const entry = timed ? readEntry(reader) : readAnswer(reader, entries);
            entry.time = Math.max(entry.time, entries.at(-1)?.time ?? 0);
            entries.push(entry);
        }
    } catch (error) {
        if (!(error instanceof Fault)) throw error;
        const rest = bytes.subarray(reader.next);
        if (!timed) entries.push({ time: APART * entries.length, bytes: rest });
        return { entries, fault: error };
    }
    return { entries, fault: null };
}

/** Whether what begins here is a repaint. */
export function isRepaint(bytes) {
    try {
        return readHead(new Reader(bytes, Infinity)).base === 0n;
    } catch {
        return false;
    }
}

/** Plays entries: the time goes on by `advance`, and anywhere by `seek`. */
export class Player {
    time = 0;
    #next = 0; // the entry that comes
    #begins = []; // entries that a screen can begin with, of those that were played

    constructor(entries, options) {
        Object.assign(this, { entries, options });
        this.seek(0);
    }

    get duration() {
        return this.entries.at(-1)?.time ?? 0;
    }

    get isOver() {
        return this.#next === this.entries.length;
    }

    advance(milliseconds) {
        this.seek(this.time + milliseconds);
    }

    /** Shows the screen at this time. */
    seek(milliseconds) {
        const time = Math.max(0, Math.min(milliseconds, this.duration));
        if (!this.client || time < this.time) {
            const begin = this.#begins.findLast(index => this.entries[index].time <= time);
            this.client = new Client(this.options);
            this.#next = begin ?? 0;
        }
        this.time = time;
        while (this.entries[this.#next]?.time <= time) this.#play(this.entries[this.#next].bytes);
    }

    #play(bytes) {
        const index = this.#next++;
        if (index > (this.#begins.at(-1) ?? -1) && !this.client.pending && isRepaint(bytes)) {
            this.#begins.push(index);
        }
        this.client.feed(bytes);
    }
}
