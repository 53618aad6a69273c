// A viewer of a surface's answers: docs/VIEWER.md, version 2 of the stream. It has no dependencies
// and no Unicode tables, since texts come cut and measured. It runs in node and in browsers.
// tikeburo.d.ts says what each call does.
import { encodeAsk, readChanges, readHead } from './answer.mjs';
import { Fault, Reader } from './reader.mjs';
import { Screen } from './screen.mjs';

export { decodeAsk, encodeAsk, styleOf } from './answer.mjs';
export { Fault } from './reader.mjs';
export { DEFAULT_ATTRIBUTES, Screen } from './screen.mjs';

const AT_ONCE = 65536; // what is buffered stays near the limit, however much comes in one piece
// The numbers that a delta shares with the screen, and the fault where one is another.
const SHARED = { surface: 'stale', base: 'stale', width: 'size', height: 'size' };

// Whether a `TextDecoder` reads bytes of this buffer: not where it is shared, or may be resized.
const isDecodable = buffer => buffer instanceof ArrayBuffer && !buffer.resizable;

export class Client {
    screen = new Screen();
    answers = 0;
    fault = null;
    #bytes = new Uint8Array(); // of the coming answer
    #isLent = false; // whether they lie in the buffer of a caller
    #answer = null; // what is read of it
    #wanted = 1; // it doesn't end before this many bytes

    constructor({
        cells = 1 << 20, rows = 1 << 16, bytes = 1 << 24, onanswer = null, onstale = null,
    } = {}) {
        Object.assign(this, { limits: { cells, rows, bytes }, onanswer, onstale });
    }

    get pending() {
        return this.#bytes.length;
    }

    ask() {
        return encodeAsk(this.screen.surface, this.screen.number);
    }

    restart() {
        const isDamaged = this.fault && this.fault.kind !== 'truncated';
        if (isDamaged) Object.assign(this.screen, { surface: 0n, number: 0n });
        Object.assign(this, { answers: 0, fault: null });
        this.#begin(this.pending);
    }

    feed(bytes) {
        const isPlain = isDecodable(bytes.buffer);
        for (let at = 0; at < bytes.length && !this.fault; at += AT_ONCE) {
            const some = bytes.subarray(at, at + AT_ONCE);
            if (this.pending || !isPlain) this.#append(some);
            else this.#setBytes(some, true);
            while (!this.fault && this.pending >= this.#wanted) this.#read(false);
            if (this.#isLent) this.#setBytes(new Uint8Array(this.#bytes), false);
        }
    }

    end() {
        if (!this.fault && this.pending) this.#read(true);
        return this.fault;
    }

    #setBytes(bytes, isLent) {
        this.#bytes = bytes;
        this.#isLent = isLent;
    }

    /** Puts bytes after those that are there, in a greater buffer where this one is full. */
    #append(bytes) {
        const { buffer, byteOffset, length } = this.#bytes, end = length + bytes.length;
        let room = this.#isLent ? this.#bytes : new Uint8Array(buffer, byteOffset);
        if (end > room.length) {
            room = new Uint8Array(2 * end + AT_ONCE);
            room.set(this.#bytes);
        }
        room.set(bytes, length);
        this.#setBytes(room.subarray(0, end), false);
    }

    /** Drops this many bytes: the next answer begins after them. */
    #begin(length) {
        this.#bytes = this.#bytes.subarray(length);
        this.#answer = null;
        this.#wanted = 1;
    }

    /** Reads on from what is read, and takes the answer where it is whole. */
    #read(isEnd) {
        const reader = new Reader(this.#bytes, this.limits.bytes, this.#answer?.next);
        let stale = null;
        try {
            const answer = this.#answer ??= readHead(reader, this.limits);
            readChanges(reader, answer);
            this.#begin(reader.next);
            this.#take(answer);
        } catch (fault) {
            if (!(fault instanceof Fault)) throw fault;
            this.#wanted = reader.wanted;
            if (fault.kind === 'truncated' && !isEnd) return;
            fault.answer = this.answers + 1;
            if (fault.kind === 'stale') stale = fault;
            else this.fault = fault;
        }
        if (this.fault) return;
        this.answers++;
        if (stale) this.onstale?.(stale, this);
        else this.onanswer?.(this);
    }

    #take(answer) {
        const { screen } = this, { surface, number, base, width, height } = answer;
        if (base === 0n) screen.reset(width, height);
        const shown = { ...screen, base: screen.number };
        const other = base && Object.keys(SHARED).find(name => answer[name] !== shown[name]);
        if (other) throw new Fault(SHARED[other], answer.places[other], null, `another ${other}`);
        for (const change of answer.changes) change(screen);
        Object.assign(screen, { surface, number });
    }
}
