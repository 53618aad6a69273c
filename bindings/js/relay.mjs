// A stream of answers, for any number of viewers who ask for what they lack: docs/VIEWER.md, "Over
// HTTP". No surface is needed: the answers that came are passed on under numbers of their own, and
// a repaint is made of what a client shows.
import { randomBytes } from 'node:crypto';
import { encodeAnswerHead, readHead } from './answer.mjs';
import { Reader } from './reader.mjs';
import { encodeRepaint } from './repaint.mjs';

const TICK = 33; // milliseconds: viewers get something new that often at most,
const BEAT = 15000; // and that often at least
const NO_CHANGES = { count: 0, bytes: new Uint8Array() };

export class Relay {
    source = randomBytes(8).readBigUInt64BE() || 1n;
    isOver = false;
    #screen = null; // what the newest number shows
    #newest = 0n;
    #ticked = 0n; // the newest number at the last tick
    #kept = []; // the deltas that lead to the newest numbers, one to each
    #size = 0; // bytes that are kept
    #made = new Map(); // answers since the tick, by the numbers from which they lead on
    #waiting = [];
    #tick = null; // a timer
    #beat = null;

    /** A response goes on until a multiple of `segment` milliseconds; 0: it has one answer. */
    constructor({ segment }) {
        this.segment = segment;
    }

    /** Takes an answer, by which its sender's viewer has come to show this screen. */
    put(answer, screen) {
        const { base, count, next } = readHead(new Reader(answer, Infinity));
        this.#screen = screen;
        if (base) {
            this.#add({ count, bytes: answer.subarray(next) });
        } else {
            [this.#kept, this.#size] = [[], 0];
            this.#goOn();
        }
    }

    /** Keeps changes that lead to the next number, and as many before it as are worth sending. */
    #add({ count, bytes }) {
        const { width, height } = this.#screen, base = this.#newest, number = base + 1n;
        const head = encodeAnswerHead({ surface: this.source, width, height, base, number, count });
        this.#kept.push(Buffer.concat([head, bytes]));
        this.#size += this.#kept.at(-1).length;
        const most = 64 + 4 * width * height; // above which a surface sends a repaint, too
        while (this.#size > most) this.#size -= this.#kept.shift().length;
        this.#goOn();
    }

    /** Goes on to the next number, which viewers get at the next tick. */
    #goOn() {
        this.#newest++;
        this.#tick ??= setTimeout(() => this.#show(), TICK - Date.now() % TICK).unref();
    }

    #show() {
        clearTimeout(this.#tick);
        clearTimeout(this.#beat);
        this.#tick = null;
        this.#ticked = this.#newest;
        this.#made.clear();
        this.#waiting.splice(0).forEach(done => done());
        if (!this.isOver) this.#beat = setTimeout(() => this.#add(NO_CHANGES), BEAT).unref();
    }

    end() {
        this.isOver = true;
        this.#show();
    }

    /**
     * What whoever shows this lacks, once there is something, and what comes then, until the
     * segment ends. There is nothing at the end.
     */
    async *follow(source, number) {
        let end = 0, at = source === this.source ? number : 0n;
        do {
            while (this.#isCurrent(at)) {
                if (this.isOver) return;
                await new Promise(done => this.#waiting.push(done));
            }
            end ||= this.segment && (Math.floor(Date.now() / this.segment) + 1) * this.segment;
            const { bytes, number: next } = this.#answer(at);
            yield bytes;
            at = next;
        } while (Date.now() < end);
    }

    /** Whether whoever shows this number lacks nothing yet. */
    #isCurrent(number) {
        return !this.#ticked || number >= this.#ticked && number <= this.#newest;
    }

    #answer(from) {
        if (!this.#made.has(from)) {
            const other = () => (from ? this.#answer(0n) : this.#repaint());
            this.#made.set(from, this.#delta(from) ?? other());
        }
        return this.#made.get(from);
    }

    #delta(from) {
        const first = this.#newest - BigInt(this.#kept.length); // from which the kept ones lead on
        if (from < first || from > this.#newest) return null;
        const [begin, end] = [from, this.#ticked].map(number => Number(number - first));
        return { bytes: Buffer.concat(this.#kept.slice(begin, end)), number: this.#ticked };
    }

    #repaint() {
        const number = this.#newest;
        return { bytes: encodeRepaint(this.#screen, { surface: this.source, number }), number };
    }
}
