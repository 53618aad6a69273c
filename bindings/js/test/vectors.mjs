// Each line of vectors.txt, whole, cut in two at every place, and byte by byte; and the repaint of
// each screen that they lead to. Run it by `node --test test/vectors.mjs`.
//
//     ok WHAT HEX WHY                   a whole answer, change or ask
//     show N HEX SCREEN WHY             what N answers lead to, as `surfwatch` prints it, in hex
//     bad FAULT AT CHANGE WHAT HEX WHY  the fault of a stream's last answer, its byte and change;
//                                       - stands for no change and for no bytes
import assert from 'node:assert/strict';
import { readFileSync } from 'node:fs';
import test from 'node:test';
import { readHead } from '../answer.mjs';
import { Reader } from '../reader.mjs';
import { Client, decodeAsk, encodeAsk, styleOf } from '../tikeburo.mjs';
import { decode } from './encode.mjs';
import { judgeRepaint } from './repaints.mjs';

const bytesOf = hex => Uint8Array.from(hex === '-' ? [] : Buffer.from(hex, 'hex'));
// A repaint of 1,024 columns and 4 rows by one change.
const inAnswer = change => bytesOf(`87020119040004000481${change}`);

/** What a client makes of a stream in these parts: its screen, and each fault with its place. */
const resultOf = (...parts) => resultBy(null, ...parts);

function resultBy(onanswer, ...parts) {
    const faults = [];
    const client = new Client({ onanswer, onstale: fault => faults.push(fault) });
    parts.forEach(part => client.feed(part));
    if (client.end()) faults.push(client.fault);
    const places = faults.map(({ kind, at, change, answer }) => ({ kind, at, change, answer }));
    const { screen, answers } = client;
    return { screen, rows: screen.rows, text: String(screen), answers, places };
}

/**
 * The result of the whole stream, after seeing that every other cut leads to it too, and that each
 * answer's screen has a right repaint.
 */
function inAnyChunks(bytes) {
    const whole = resultBy(({ screen }) => judgeRepaint(screen), bytes);
    for (let cut = 0; cut <= bytes.length; cut++) {
        assert.deepEqual(resultOf(bytes.subarray(0, cut), bytes.subarray(cut)), whole);
    }
    assert.deepEqual(resultOf(...Array.from(bytes, byte => Uint8Array.of(byte))), whole);
    return whole;
}

const small = value => (typeof value === 'bigint' ? Number(value) : value);
const color = value => (Array.isArray(value) ? value.map(small) : small(value));
const link = value => value && { uri: value[0], implicit: value[1], params: value[2] };

/** Judges the screen that a change alone leads to, by kind. Moves and scrolls show no more. */
const EFFECTS = {
    0({ pen }, [which, value]) {
        const style = styleOf(pen.style);
        const found = [
            style.intensity, style.underline, style.italic, style.blink, style.reverse,
            style.strike, style.invisible, pen.foreground, pen.background, pen.link,
        ];
        const number = Number(which);
        assert.deepEqual(found[number], number === 9 ? link(value) : color(value));
    },
    1({ pen }, [style, foreground, background, underlineColor, uri]) {
        assert.deepEqual(pen, {
            style: Number(style), foreground: color(foreground), background: color(background),
            underlineColor: color(underlineColor), link: link(uri),
        });
    },
    2(screen, text, runs = [BigInt([...text].length), 1n, 1n]) {
        if (/[\r\n]/.test(text)) {
            const lines = text.split('\n');
            assert.equal(screen.cursor.y, Math.min(lines.length - 1, 3));
            const last = lines.at(-1).split('\r').at(-1);
            assert.ok(screen.text(screen.cursor.y).includes(last));
            return;
        }
        const shown = text.replace(/[\x00-\x1f\x7f]/g, ' ');
        assert.equal(screen.text(0).trimEnd(), shown.trimEnd());
        let columns = 0;
        for (let k = 0; k < runs.length; k += 3) columns += Number(runs[k] * runs[k + 2]);
        assert.equal(screen.cursor.x, columns);
    },
    3: ({ pen }, background) => assert.deepEqual(pen.background, color(background)),
    4: ({ pen }, background) => assert.deepEqual(pen.background, color(background)),
    5: ({ pen }, background) => assert.deepEqual(pen.background, color(background)),
    6({ cursor }, [kind, value]) {
        const to = Number(value), places = [to, Math.min(to, 1023), 1024 - to];
        const wanted = kind === 1n && to === 1024 ? 1024 : places[Number(kind)];
        const last = kind === 2n && to === 0 ? 1024 : 1023;
        assert.equal(cursor.x, Math.max(0, Math.min(wanted, last)));
    },
    7: ({ cursor }, value) => assert.deepEqual(cursor.color, color(value)),
    8: ({ cursor }, value) => assert.equal(cursor.shape, Number(value)),
    9: ({ cursor }, value) => assert.equal(cursor.visible, value),
    10: screen => assert.equal(screen.rows.length, 4),
    11: screen => assert.equal(screen.rows.length, 4),
    12: ({ title }, value) => assert.equal(title, value),
    13: ({ rows }, value) => assert.equal(rows[0].attribute, Number(value)),
};

function judgeChange(hex) {
    const { screen, places } = inAnyChunks(inAnswer(hex));
    assert.deepEqual(places, []);
    const [kind, ...values] = decode(bytesOf(hex));
    EFFECTS[kind](screen, ...values);
}

/** A delta is after a repaint that leads to its base. */
function judgeAnswer(hex) {
    const bytes = bytesOf(hex), [, surface, width, height, base, number, changes] = decode(bytes);
    const found = readHead(new Reader(bytes, Infinity));
    const { places, next, changes: read, work, ...head } = found;
    assert.deepEqual([read, work], [[], 0n]);
    assert.deepEqual(head, {
        surface, base, number, width: Number(width), height: Number(height), count: changes.length,
    });
    assert.equal(bytes[next - 1] >> 5, 4);
    const result = inAnyChunks(bytes);
    const stale = { kind: 'stale', at: places.surface, change: null, answer: 1 };
    assert.deepEqual(result.places, base ? [stale] : []);
    assert.equal(result.answers, 1);
}

function judgeAsk(hex) {
    const { surface, number } = decodeAsk(bytesOf(hex));
    assert.deepEqual([2n, surface, number], decode(bytesOf(hex)));
    assert.deepEqual(encodeAsk(surface, number), bytesOf(hex));
}

function judgeScreen(count, hex, screen) {
    const { text, answers, places } = inAnyChunks(bytesOf(hex));
    assert.equal(text, Buffer.from(screen, 'hex').toString());
    assert.equal(answers, Number(count));
    assert.deepEqual(places, []);
}

/** A fault stays, whatever follows, unless the bytes only end. */
function judgeFault(kind, at, change, hex) {
    const bytes = bytesOf(hex), { places } = inAnyChunks(bytes), [found] = places;
    if (bytes.length === 0) return assert.deepEqual(places, []);
    const { answer, ...place } = found;
    assert.deepEqual(place, { kind, at: Number(at), change: change === '-' ? null : +change });
    if (kind === 'truncated') return undefined;
    for (const next of [0x00, 0x87, 0xff]) {
        const more = Uint8Array.from([...bytes, ...Array(12).fill(next)]);
        assert.deepEqual(resultOf(more).places[0], { answer, ...place });
    }
    return undefined;
}

function judgeAskFault(kind, at, hex) {
    assert.throws(() => decodeAsk(bytesOf(hex)), { kind, at: Number(at), change: null });
}

function judge([word, ...rest]) {
    if (word === 'show') return judgeScreen(...rest);
    if (word === 'ok') {
        return { change: judgeChange, answer: judgeAnswer, ask: judgeAsk }[rest[0]](rest[1]);
    }
    const [kind, at, change, what, hex] = rest;
    return what === 'ask' ? judgeAskFault(kind, at, hex) : judgeFault(kind, at, change, hex);
}

const lines = readFileSync(new URL('vectors.txt', import.meta.url), 'utf8').trimEnd().split('\n');
for (const line of lines) test(line.slice(0, 80), () => judge(line.split(' ')));
