// Answers and asks by docs/stream.cddl. What is read here keeps every rule of docs/VIEWER.md.
import { ARRAY, encodeHead, FALSE, NEGATIVE, NULL, Reader, TRUE, UINT } from './reader.mjs';
import { isBreak } from './screen.mjs';

export const VERSION = 2;
const MOST_SIZE = 4294967295, MOST_OFFSET = (1n << 63n) - 1n;
// The fields of a style: lowest bit, mask, and greatest value. One of a single bit is a bool.
const FIELDS = {
    intensity: [0, 3, 2], underline: [2, 7, 5], blink: [5, 3, 2], italic: [7, 1, 1],
    reverse: [8, 1, 1], strike: [9, 1, 1], invisible: [10, 1, 1], wrapped: [11, 1, 1],
    overline: [12, 1, 1], semantic: [13, 3, 2], alignment: [15, 3, 2],
};
// What an attribute of the pen is, by `which`.
const NAMES = ['intensity', 'underline', 'italic', 'blink', 'reverse', 'strike', 'invisible',
    'foreground', 'background', 'link'];

/** The small attributes that a style holds. */
export function styleOf(style) {
    const value = ([shift, mask]) => (mask > 1 ? style >> shift & mask : !!(style >> shift & 1));
    return Object.fromEntries(Object.entries(FIELDS).map(([name, field]) => [name, value(field)]));
}

const readText = reader => reader.text();
const readBool = reader => reader.takes(TRUE) || reader.item(FALSE) < 0;
const upTo = most => reader => reader.item(UINT, 0, most);
const readNumber = upTo(Infinity), readByte = upTo(255);

function readColor(reader) {
    if (reader.takes(NULL)) return null;
    if (!reader.is(ARRAY)) return readByte(reader);
    return Array.from({ length: reader.item(ARRAY, 3, 4) }, () => readByte(reader));
}

/** A key's bytes as characters, so that texts compare as the bytes do. */
const byBytes = key =>
    Array.from(new TextEncoder().encode(key), byte => String.fromCharCode(byte)).join('');

function readLink(reader) {
    if (reader.takes(NULL)) return null;
    reader.item(ARRAY, 3, 3);
    const uri = reader.text(), implicit = readBool(reader);
    const params = reader.list(1, last => {
        reader.item(ARRAY, 2, 2);
        const key = reader.text(), ascends = !last || byBytes(last[0]) < byBytes(key);
        if (!ascends) reader.fail('range', "keys that don't ascend");
        return [key, reader.text()];
    });
    return { uri, implicit, params };
}

function readPen(reader) {
    reader.item(ARRAY, 5, 5);
    const style = reader.item(UINT, 0, (1 << 17) - 1);
    const isPast = ([shift, mask, most]) => (style >> shift & mask) > most;
    if (Object.values(FIELDS).some(isPast)) reader.fail('range', `a style of ${style}`);
    const foreground = readColor(reader), background = readColor(reader);
    const underlineColor = readColor(reader), link = readLink(reader);
    return () => ({ style, foreground, background, underlineColor, link });
}

/** One attribute of the pen, as what makes the pen that has it of another. */
function readAttribute(reader) {
    reader.item(ARRAY, 2, 2);
    const name = NAMES[reader.item(UINT, 0, NAMES.length - 1, 'type')];
    if (name in FIELDS) {
        const [shift, mask, most] = FIELDS[name];
        const bits = (mask > 1 ? reader.item(UINT, 0, most) : readBool(reader)) << shift;
        return pen => ({ ...pen, style: pen.style & ~(mask << shift) | bits });
    }
    const value = name === 'link' ? readLink(reader) : readColor(reader);
    return pen => ({ ...pen, [name]: value });
}

const toStart = () => 0;

/** A position, as what gives the place that it leads to: from `at`, in `size` columns or rows. */
function readPosition(reader) {
    reader.item(ARRAY, 2, 2);
    const which = reader.item(UINT, 0, 2, 'type'), isBack = !which && reader.is(NEGATIVE);
    const argument = reader.item(isBack ? NEGATIVE : UINT, 0, which ? Infinity : MOST_OFFSET);
    const value = isBack ? -1 - Number(argument) : Number(argument); // rounded where long
    if (which === 1 && value === 0) return toStart;
    return (at, size) => [Math.min(at + value, size - 1), value, size - value][which];
}

/** Whether a piece before `next` is a part of CR LF, or has a control character among others. */
const isWrong = (piece, next) => (piece === '\r' ? next === '\n'
    : piece.length > 1 && piece !== '\r\n' && /[\x00-\x1f\x7f]/.test(piece));

/** The runs of a text's pieces. */
function readRuns(reader, [text]) {
    const list = reader.next, characters = [...text];
    let at = 0;
    const runs = reader.list(3, last => {
        const left = characters.length - at, count = reader.item(UINT, 1, left);
        const size = reader.item(UINT, 1, Math.floor(left / count));
        const cut = () => characters.slice(at, at += size).join('');
        const pieces = size === 1 ? characters.slice(at, at += count)
            : Array.from({ length: count }, cut);
        const next = characters[at];
        const isCutWrong = pieces.some((piece, k) => isWrong(piece, pieces[k + 1] ?? next));
        if (isCutWrong) reader.fail('range', 'CR LF or a control character that is cut wrongly');
        const breaks = pieces.filter(isBreak).length;
        const columns = reader.item(UINT, breaks < count ? 1 : 0, breaks ? 0 : 2);
        if (size === last?.size && columns === last.columns) reader.fail('range', 'equal runs');
        return { pieces, size, columns };
    });
    const isNeeded = runs.some(({ size, columns }) => size * columns > 1);
    if (at < characters.length) reader.fail('range', 'pieces that end before the text', list);
    if (!isNeeded) reader.fail('range', "pieces that aren't needed", list);
    return runs;
}

const readSize = (reader, [first], height) =>
    reader.item(UINT, 0, height - Number(first), 'region');
const REGION = [readNumber, readSize, readNumber];
const goHome = ({ cursor }) => Object.assign(cursor, { x: 0, y: 0 });
const setPen = (screen, penOf) => { screen.pen = Object.freeze(penOf(screen.pen)); };
// By a change's kind, what reads its items, and what these do to a screen.
const CHANGES = [
    [[readAttribute], setPen],
    [[readPen], setPen],
    [[readText, readRuns], (screen, text, runs) => screen.print(text, runs)],
    [[readColor], (screen, color) => screen.clear(color, goHome(screen))],
    [[readColor], (screen, color) => screen.clear(color, screen.cursor, screen.cursor.y + 1)],
    [[readColor], (screen, color) => screen.clear(color, screen.cursor)],
    [[readPosition, readPosition], (screen, x, y) => screen.move(x, y)],
    [[readColor], ({ cursor }, color) => { cursor.color = color; }],
    [[upTo(6)], ({ cursor }, shape) => { cursor.shape = shape; }],
    [[readBool], ({ cursor }, visible) => { cursor.visible = visible; }],
    [REGION, (screen, first, size, count) => screen.scroll(first, size, Number(count))],
    [REGION, (screen, first, size, count) => screen.scroll(first, size, -Number(count))],
    [[readText], (screen, title) => { screen.title = title; }],
    [[upTo(3)], (screen, n) => screen.mark(n)],
];

function countLineFeeds(text) {
    let count = 0;
    for (let at = text.indexOf('\n'); at >= 0; at = text.indexOf('\n', at + 1)) count++;
    return BigInt(count);
}

const ofAll = (w, h) => w * h;
const ofScroll = (w, h, first, size, count) =>
    BigInt(size) + w * BigInt(count < size ? count : size);
// By a change's kind, its work on a screen of `w` columns and `h` rows, where it has any. These and
// their sums are BigInts, since a double may round them.
const WORK = {
    2: (w, h, text) => w * countLineFeeds(text),
    3: ofAll,
    4: w => w,
    5: ofAll,
    6: (w, h, x) => (x === toStart ? 0n : w),
    10: ofScroll,
    11: ofScroll,
};

/** A change's work in this size, and what it does to a screen. */
function readChange(reader, w, h) {
    const items = reader.item(ARRAY, 2, 4), kind = reader.item(UINT, 0, CHANGES.length - 1, 'type');
    const [form, apply] = CHANGES[kind], isPlainText = kind === 2 && items === 2;
    if (items !== form.length + 1 && !isPlainText) reader.fail('type', `${items} items`);
    const values = [];
    while (values.length < items - 1) values.push(form[values.length](reader, values, Number(h)));
    return [WORK[kind]?.(w, h, ...values) ?? 0n, screen => apply(screen, ...values)];
}

function readVersion(reader, count) {
    const items = reader.item(ARRAY, 1);
    reader.item(UINT, VERSION, VERSION, 'version');
    if (items !== count) reader.fail('type', `${items} items`, 0);
}

/** An answer without its changes: its numbers, with their places, and the count of the changes. */
export function readHead(reader, { cells = Infinity, rows = Infinity } = {}) {
    const places = {};
    const number = (name, ...range) => {
        places[name] = reader.next;
        return reader.item(UINT, ...range);
    };
    readVersion(reader, 7);
    const surface = BigInt(number('surface', 1));
    const width = number('width', 1, MOST_SIZE), height = number('height', 1, MOST_SIZE);
    if (height > rows) reader.fail('limit', `more than ${rows} rows`);
    if (width > cells / height) reader.fail('limit', `more than ${cells} cells`);
    const base = BigInt(number('base')), own = BigInt(number('number', base));
    const head = { surface, width, height, base, number: own, count: reader.count() };
    return { ...head, places, changes: [], work: 0n, next: reader.next };
}

/** Reads an answer's changes, from the last whole one on, so that none is read twice. */
export function readChanges(reader, answer) {
    const w = BigInt(answer.width), h = BigInt(answer.height), most = 64n + 4n * w * h;
    while (answer.changes.length < answer.count) {
        reader.change = answer.changes.length;
        const [work, change] = readChange(reader, w, h);
        answer.work += work;
        if (answer.work > most) reader.fail('limit', `a work of more than ${most}`, answer.next);
        answer.changes.push(change);
        answer.next = reader.next;
    }
}

/** The bytes of an answer up to its changes, with how many there are. */
export function encodeAnswerHead({ surface, width, height, base, number, count }) {
    const numbers = [VERSION, surface, width, height, base, number];
    return Uint8Array.from([...encodeHead(ARRAY, 7),
        ...numbers.flatMap(value => encodeHead(UINT, value)), ...encodeHead(ARRAY, count)]);
}

/** A number of 64 bits that an integer is, as a BigInt. */
function checkNumber(value) {
    const isExact = typeof value === 'bigint' || Number.isSafeInteger(value);
    if (isExact && BigInt.asUintN(64, BigInt(value)) === BigInt(value)) return BigInt(value);
    throw new RangeError(`${value}, not an integer from 0 to 2^64 - 1`);
}

/** The bytes of `[2, surface, number]`. */
export function encodeAsk(surface, number) {
    const [source, shown] = [surface, number].map(checkNumber);
    if (!source && shown) throw new RangeError(`number ${shown} of no surface`);
    return Uint8Array.of(0x83, VERSION, ...encodeHead(UINT, source), ...encodeHead(UINT, shown));
}

/** What an ask says: the surface and the number that its viewer shows. */
export function decodeAsk(bytes) {
    const reader = new Reader(bytes, Infinity);
    readVersion(reader, 3);
    const surface = BigInt(reader.item(UINT));
    const number = BigInt(reader.item(UINT, 0, surface ? Infinity : 0));
    if (reader.next < bytes.length) reader.fail('range', 'bytes behind the ask', reader.next);
    return { surface, number };
}
