// CBOR items, read from left to right as docs/VIEWER.md wants them. Each check stands in the order
// of that page's section "Faults", so that the first one that fails is the fault.

// The types of items. The bools and null are known by their first byte.
export const UINT = 0, NEGATIVE = 1, BYTES = 2, TEXT = 3, ARRAY = 4;
export const FALSE = 0xf4, TRUE = 0xf5, NULL = 0xf6;
// Of arguments of 1, 2, 4 and 8 bytes: what reads one, and the least that wants this many.
const GETTERS = ['getUint8', 'getUint16', 'getUint32', 'getBigUint64'];
const LEAST = [24, 256, 65536, 4294967296];
const utf8 = new TextDecoder('utf-8', { fatal: true, ignoreBOM: true }); // U+FEFF stays

/** The head of an item, in the shortest form. */
export function encodeHead(type, argument) {
    const log = LEAST.findLastIndex(least => argument >= least);
    if (log < 0) return [type << 5 | Number(argument)];
    const byte = (_, k) => Number(BigInt(argument) >> BigInt(8 * k) & 255n);
    return [type << 5 | 24 + log, ...Array.from({ length: 1 << log }, byte).reverse()];
}

/** Why an answer can't be taken, and where in its bytes that shows. */
export class Fault extends Error {
    constructor(kind, at, change, why) {
        super(`${kind} at ${at}${change === null ? '' : ` in change ${change}`}`);
        Object.assign(this, { name: 'Fault', kind, at, change, why, answer: 1 });
    }
}

export class Reader {
    change = null; // the index of the change that is being read
    following = 0; // bytes that follow the item at least, by a list's length
    wanted = 1; // after `truncated`, as many bytes as have to be there at least

    /** Reads `bytes`, which begin where the answer begins, from place `next` on. */
    constructor(bytes, limit, next = 0) {
        Object.assign(this, { bytes, limit, next, at: next }); // `at` is the place of faults
        this.view = new DataView(bytes.buffer, bytes.byteOffset, bytes.length);
    }

    fail(kind, why, at = this.at) {
        throw new Fault(kind, at, this.change, why);
    }

    /** Goes on by this many bytes, from the place that it returns. */
    skip(count) {
        const begin = this.next, end = begin + count;
        if (end > this.limit) this.fail('limit', `an answer of more than ${this.limit} bytes`);
        if (end > this.bytes.length) {
            this.wanted = Math.min(end + this.following, this.limit);
            this.fail('truncated', 'the bytes end');
        }
        this.next = end;
        return begin;
    }

    /** Whether the next item is of this type. */
    is(type) {
        const first = this.bytes[this.next];
        return type === (first < 0xe0 ? first >> 5 : first);
    }

    /** The argument of an item of this type, in this range: from 2^32 on it is a BigInt. */
    item(type, least = 0, most = Infinity, kind = type === ARRAY ? 'type' : 'range') {
        this.at = this.next;
        const isRight = this.is(type), first = this.bytes[this.skip(1)];
        const info = first & 31, log = info - 24;
        if (!isRight || log > 3) this.fail('type', `a first byte of ${first}`);
        const value = log < 0 ? info : this.view[GETTERS[log]](this.skip(1 << log));
        if (log >= 0 && value < LEAST[log]) this.fail('range', "a head that isn't the shortest");
        if (value < least || value > most) this.fail(kind, `${value}, not ${least} to ${most}`);
        return value;
    }

    /** Whether an item of this type comes, which is read then. */
    takes(type) {
        return this.is(type) && this.item(type) >= 0;
    }

    text() {
        const begin = this.skip(Number(this.item(TEXT)));
        try {
            return utf8.decode(this.bytes.subarray(begin, this.next));
        } catch {
            return this.fail('utf-8', 'a text that is no UTF-8');
        }
    }

    /** The count of a list, whose items come by `each`. */
    count(each = 1) {
        const count = this.item(ARRAY);
        if (BigInt(count) % BigInt(each)) this.fail('type', `${count} items, and not by ${each}`);
        if (count > this.limit - this.next) this.fail('limit', `a list of ${count}`);
        return Number(count);
    }

    /** Reads a list by calls of `read(last)`, each of which takes `each` items. */
    list(each, read) {
        const values = [];
        for (let left = this.count(each); left > 0; left -= each) {
            this.following = left - each;
            values.push(read(values.at(-1)));
        }
        return values;
    }
}
