// A repaint of what a screen shows, made without its surface: docs/VIEWER.md, version 2 of the
// stream. repaint.d.ts says what the call does.
//
// A viewer that has Unicode tables refuses a text that it would cut otherwise. There are none here,
// so two cells stand in one text only where that can't be: the sender printed them by one text
// itself, or both are ASCII, which is always cut into single characters.
import { encodeAnswerHead } from './answer.mjs';
import { ARRAY, encodeHead, FALSE, NULL, TEXT, TRUE, UINT } from './reader.mjs';
import { DEFAULT_ATTRIBUTES } from './screen.mjs';

const MOST_BYTES = 1 << 24; // which every client takes, if it isn't told otherwise
const SHORTEST_CLEAR = 8; // blanks that are cleared rather than printed
// The kinds of changes that a repaint needs.
const PEN = 1, PRINT = 2, CLEAR_ROW = 4, MOVE = 6, COLOR = 7, SHAPE = 8, VISIBLE = 9, TITLE = 12,
    MARK = 13;
const COLORS = ['foreground', 'background', 'underlineColor'];
const utf8 = new TextEncoder();

/** Bytes of CBOR items, one behind another, up to a limit. */
class Writer {
    #bytes = new Uint8Array(4096);
    #length = 0;

    constructor(limit) {
        this.limit = limit;
    }

    get bytes() {
        return this.#bytes.subarray(0, this.#length);
    }

    put(bytes) {
        const end = this.#length + bytes.length;
        if (end > this.limit) throw new RangeError(`a repaint of more than ${this.limit} bytes`);
        if (end > this.#bytes.length) {
            const room = new Uint8Array(2 * end);
            room.set(this.bytes);
            this.#bytes = room;
        }
        this.#bytes.set(bytes, this.#length);
        this.#length = end;
    }

    /** Writes null, a bool, a number from 0 on, a text or a list. */
    item(value) {
        if (value === null) return this.put([NULL]);
        if (typeof value === 'boolean') return this.put([value ? TRUE : FALSE]);
        if (typeof value === 'string') return this.#text(utf8.encode(value));
        if (!Array.isArray(value)) return this.put(encodeHead(UINT, value));
        this.put(encodeHead(ARRAY, value.length));
        return value.forEach(each => this.item(each));
    }

    #text(bytes) {
        this.put(encodeHead(TEXT, bytes.length));
        this.put(bytes);
    }
}

const isAscii = ({ text }) => text.length === 1 && text < '\x7f';

/** A link is compared by its object: equal ones cost bytes, and nothing else. */
const isSamePen = (one, other) => one === other || one.link === other.link
    && one.style === other.style && COLORS.every(name => String(one[name]) === String(other[name]));

/** Whether a cell is as a clear to its background leaves it. */
function isCleared({ text, columns, attributes }) {
    const { style, foreground, underlineColor, link } = attributes;
    return text === ' ' && columns === 1 && style === 0 && foreground === null
        && underlineColor === null && link === null;
}

const isNew = cell => isCleared(cell) && cell.attributes.background === null;

const penChange = ({ style, link, ...colors }) => [PEN, [style, ...COLORS.map(name => colors[name]),
    link && [link.uri, link.implicit, link.params]]];
const moveTo = (x, y) => [MOVE, [1, x], [1, y]];

/** The change that prints these cells, with their pieces where it needs them. */
function printChange(cells) {
    const runs = [];
    for (const { text, columns } of cells) {
        const characters = [...text].length, last = runs.at(-1);
        if (last?.[1] === characters && last[2] === columns) last[0]++;
        else runs.push([1, characters, columns]);
    }
    const isNeeded = runs.some(([, characters, columns]) => characters * columns > 1);
    const text = cells.map(cell => cell.text).join('');
    return isNeeded ? [PRINT, text, runs.flat()] : [PRINT, text];
}

/** Cells as the parts that one text each prints. */
function textsOf(cells) {
    const texts = [];
    let before = null;
    for (const cell of cells) {
        const isJoined = before && isSamePen(before.attributes, cell.attributes)
            && (cell.follows(before) || isAscii(before) && isAscii(cell));
        if (isJoined) texts.at(-1).push(cell);
        else texts.push([cell]);
        before = cell;
    }
    return texts;
}

/** How many cells of a row stand before what a clear to its end shows as well. */
function countBeforeClear(cells) {
    const last = cells.at(-1);
    if (!isCleared(last)) return cells.length;
    const end = 1 + cells.findLastIndex(cell =>
        !isCleared(cell) || !isSamePen(cell.attributes, last.attributes));
    return isNew(last) || cells.length - end >= SHORTEST_CLEAR ? end : cells.length;
}

/**
 * The changes that paint row `y`, which is new, and the pen that they leave. Their work is twice
 * the width at most: that of a move to where the row begins, and that of a clear.
 */
function paintRow(screen, y, pen) {
    const all = Array.from(screen.cells(y)), cells = all.map(([, cell]) => cell), changes = [];
    const { attribute } = screen.rows[y], end = countBeforeClear(cells);
    const begin = cells.findIndex(cell => !isNew(cell));
    if (begin >= 0 || attribute !== 3) changes.push(moveTo(all[Math.max(0, begin)][0], y));
    if (attribute !== 3) changes.push([MARK, attribute]);
    if (begin < 0) return { changes, pen };
    for (const text of textsOf(cells.slice(begin, end))) {
        const [{ attributes }] = text;
        if (!isSamePen(pen, attributes)) changes.push(penChange(attributes));
        pen = attributes;
        changes.push(printChange(text));
    }
    if (end === cells.length || isNew(cells[end])) return { changes, pen };
    pen = cells[end].attributes; // which is what a clear sets
    changes.push([CLEAR_ROW, pen.background]);
    return { changes, pen };
}

/** The changes that lead from a new screen to what is shown, in turn. */
function* changesOf(screen) {
    const { cursor, title } = screen;
    let pen = DEFAULT_ATTRIBUTES;
    if (title) yield [TITLE, title];
    for (let y = 0; y < screen.height; y++) {
        const painted = paintRow(screen, y, pen);
        yield* painted.changes;
        pen = painted.pen;
    }
    yield moveTo(cursor.x, cursor.y);
    if (!isSamePen(pen, screen.pen)) yield penChange(screen.pen);
    if (cursor.color !== null) yield [COLOR, cursor.color];
    if (cursor.shape) yield [SHAPE, cursor.shape];
    if (!cursor.visible) yield [VISIBLE, false];
}

export function encodeRepaint(screen, {
    bytes = MOST_BYTES, surface = screen.surface, number = screen.number,
} = {}) {
    if (!surface) throw new RangeError('a screen of no surface, which has no repaint');
    const changes = new Writer(bytes), answer = new Writer(bytes), { width, height } = screen;
    let count = 0;
    for (const change of changesOf(screen)) {
        changes.item(change);
        count++;
    }
    answer.put(encodeAnswerHead({ surface, width, height, base: 0, number, count }));
    answer.put(changes.bytes);
    return answer.bytes;
}
