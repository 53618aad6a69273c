// Prints the recording `demo.cborseq`: what a screen can show. Texts are cut and measured by hand.
import { encodeEntry } from '../recording.mjs';
import { sequence } from './encode.mjs';

const WIDTH = 72, HEIGHT = 20, SURFACE = 7;
const BOLD = 1, HALF = 2, ITALIC = 1 << 7, REVERSE = 1 << 8, STRIKE = 1 << 9, INVISIBLE = 1 << 10;
const OVERLINE = 1 << 12, SUPER = 1 << 15, SUB = 2 << 15, SLOW = 1 << 5, RAPID = 2 << 5;

const pen = (style = 0, front = null, back = null, line = null, link = null) =>
    [1, [style, front, back, line, link]];
const at = (x, y) => [6, [1, x], [1, y]];
const text = (string, ...runs) => (runs.length ? [2, string, runs] : [2, string]);
const link = uri => [uri, false, []];

/** Runs of a text whose pieces have this many characters and columns each. */
const shown = (...parts) => text(parts.map(([piece]) => piece).join(''), ...parts.flatMap(
    ([piece, count, columns]) => [count, [...piece].length / count, columns]));

/** A colour of the circle. */
function hue(part) {
    const value = k => Math.round(127.5 * (1 + Math.cos(2 * Math.PI * (part - k / 3))));
    return [value(0), value(1), value(2)];
}

const underlines = ['none', 'single', 'double', 'curly', 'dotted', 'dashed'].flatMap((word, n) =>
    [at(2 + 11 * n, 3), pen(n << 2, null, null, n ? [255, 96, 96] : null), text(word)]);

const attributes = [
    at(2, 5), pen(BOLD), text('bold'), pen(), text(' '), pen(HALF), text('half'), pen(), text(' '),
    pen(ITALIC), text('italic'), pen(), text(' '), pen(REVERSE), text('reverse'), pen(), text(' '),
    pen(STRIKE), text('strike'), pen(), text(' '), pen(OVERLINE), text('overline'), pen(),
    text(' '), pen(INVISIBLE), text('hidden'), pen(), text('< '), pen(SLOW), text('slow'),
    pen(), text(' '), pen(RAPID), text('rapid'), pen(), text(' x'), pen(SUPER), text('sup'), pen(),
    text(' y'), pen(SUB), text('sub'),
];

const palette = [
    at(2, 7), ...Array.from({ length: 16 }, (_, n) =>
        [pen(0, n === 0 || n === 8 ? 15 : 0, n), text(String(n).padStart(3).padEnd(4))]).flat(),
    at(2, 8), ...Array.from({ length: 64 }, (_, n) =>
        [pen(0, null, n < 40 ? 16 + 5 * n : 192 + n), text(' ')]).flat(),
    at(2, 9), ...Array.from({ length: 64 }, (_, n) =>
        [pen(0, null, hue(n / 64)), text(' ')]).flat(),
];

const links = [
    at(2, 11), pen(1 << 2, 12, null, null, link('https://example.com/')),
    text('a link to example.com'), pen(), text(' and '),
    pen(1 << 2, 9, null, null, link('javascript:alert(1)')), text('a link that is not opened'),
];

const wide = [
    at(2, 13), pen(0, 11), shown(['漢字かな', 4, 2], [' ', 1, 1], ['한국어', 3, 2], [' ', 1, 1],
        ['e\u0301', 1, 1], [' ', 1, 1], ['👩\u200d👩\u200d👧', 1, 2], [' ', 1, 1], ['❤\ufe0f', 1, 2],
        [' ', 1, 1], ['🇩🇪', 1, 2], [' ', 1, 1], ['1\ufe0f\u20e3', 1, 2],
        [' |<col שלום <b>&amp;', 20, 1]),
    at(2, 14), pen(0, 10), text('12345678901234567890123456789|<col'),
];

const rows = [
    at(2, 15), pen(0, 14), text('double width'), [13, 2],
    at(2, 16), pen(0, 14), text('double height'), [13, 0],
    at(2, 17), pen(0, 14), text('double height'), [13, 1],
    at(1, 18), [4, [40, 40, 90]], pen(0, [230, 230, 240], [40, 40, 90]),
    text('bg to the end'), pen(0, 13, [40, 40, 90]), at(68, 18), text('end!'),
];

/** A stream's answers as entries: the first a repaint, the others deltas. */
function recording(steps) {
    let number = 0, time = 0;
    return steps.map(([milliseconds, ...changes]) => {
        const base = number++;
        time += milliseconds;
        const answer = [2, SURFACE, WIDTH, HEIGHT, base, number, changes];
        return encodeEntry(time, sequence(answer));
    });
}

const typed = [...'A stream of answers, played in a browser'].map(letter =>
    [40, [9, true], text(letter)]);

process.stdout.write(Buffer.concat(recording([
    [0, [12, 'A demo of the stream'], [8, 5], at(2, 1), pen(BOLD, 12)], ...typed,
    [500, ...underlines], [500, ...attributes], [700, ...palette], [600, ...links],
    [600, ...wide], [700, ...rows], [400, pen(), at(45, 1)],
    ...[1, 2, 3, 4, 5, 6].map(shape => [700, [8, shape], [7, hue(shape / 6)]]),
    [500, [8, 1], [7, null], [12, 'A demo of the stream: done']],
])));
