// The bytes of CBOR items, for tests and the demo: null, bools, integers, texts and lists.

/** An item's head: its major type and argument, in the shortest form. */
function head(major, argument) {
    const value = BigInt(argument), log = [24n, 256n, 65536n, 4294967296n].filter(n => value >= n);
    if (!log.length) return [major << 5 | Number(value)];
    const size = 1 << log.length - 1;
    const bytes = Array.from({ length: size }, (_, k) => Number(value >> BigInt(8 * k) & 255n));
    return [major << 5 | 23 + log.length, ...bytes.reverse()];
}

export function encode(item) {
    if (item === null) return [0xf6];
    if (typeof item === 'boolean') return [item ? 0xf5 : 0xf4];
    if (typeof item === 'string') {
        const bytes = new TextEncoder().encode(item);
        return [...head(3, bytes.length), ...bytes];
    }
    if (item instanceof Uint8Array) return [...head(2, item.length), ...item];
    if (Array.isArray(item)) return [...head(4, item.length), ...item.flatMap(encode)];
    return item < 0 ? head(1, -1n - BigInt(item)) : head(0, item);
}

/** Items one behind another. */
export const sequence = (...items) => Uint8Array.from(items.flatMap(encode));

/** An item, as `encode` takes it; numbers are BigInts. */
export function decode(bytes) {
    const view = new DataView(bytes.buffer, bytes.byteOffset);
    let at = 0;
    const number = info => {
        if (info < 24) return BigInt(info);
        const size = 1 << info - 24, name = ['getUint8', 'getUint16', 'getUint32'][info - 24];
        const value = name ? BigInt(view[name](at)) : view.getBigUint64(at);
        at += size;
        return value;
    };
    const item = () => {
        const first = bytes[at++], value = first >> 5 < 7 ? number(first & 31) : 0n;
        switch (first >> 5) {
            case 0: return value;
            case 1: return -1n - value;
            case 4: return Array.from({ length: Number(value) }, item);
            case 7: return { 0xf4: false, 0xf5: true, 0xf6: null }[first];
        }
        at += Number(value);
        const part = bytes.subarray(at - Number(value), at);
        return first >> 5 === 2 ? part : new TextDecoder('utf-8', { ignoreBOM: true }).decode(part);
    };
    return item();
}
