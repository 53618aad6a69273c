// Random numbers that are the same in each run.

/** A function whose call with `n` gives a number below `n`. */
export function randomFrom(seed) {
    let state = seed >>> 0;
    const random = n => { // mulberry32
        state = state + 0x6d2b79f5 >>> 0;
        let mixed = Math.imul(state ^ state >>> 15, state | 1);
        mixed ^= mixed + Math.imul(mixed ^ mixed >>> 7, mixed | 61);
        return ((mixed ^ mixed >>> 14) >>> 0) % n;
    };
    random.pick = list => list[random(list.length)];
    return random;
}
