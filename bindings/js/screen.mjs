// What a viewer keeps, and what the changes of docs/VIEWER.md do to it. What a program sees of it
// is in tikeburo.d.ts.

export const DEFAULT_ATTRIBUTES = Object.freeze({
    style: 0, foreground: null, background: null, underlineColor: null, link: null,
});

export const isBreak = piece => piece === '\n' || piece === '\r' || piece === '\r\n';

class Cell {
    #place; // a number that goes up by one with each piece of a text

    constructor(text, columns, attributes, place) {
        this.text = text;
        this.columns = columns;
        this.attributes = attributes;
        this.#place = place;
        Object.freeze(this);
    }

    /** Whether the same text has this cell's piece directly after that cell's. */
    follows(before) {
        return this.#place === before.#place + 1;
    }
}

const blank = attributes => new Cell(' ', 1, attributes, NaN); // after none
/** A row of blanks, which is shared: `cells` are made where it is first written to. */
const blankRow = (rest, attribute) =>
    Object.freeze({ cells: null, rest, attribute, version: 0 });
const DEFAULT_ROW = blankRow(blank(DEFAULT_ATTRIBUTES), 3); // of single width

/** Has a row's cells up to column `x`, before which only a blank is left of one of two columns. */
function cut({ cells, rest }, x) {
    while (cells.length < x) cells.push(rest);
    const cell = cells[x - 1];
    if (cell?.columns === 2) cells[x - 1] = blank(cell.attributes);
}

export class Screen {
    surface = 0n;
    number = 0n;
    #rows; // of the screen, after those that left it by line feeds
    #top; // how many left
    #place = 0; // of the last piece

    constructor() {
        this.reset(0, 0);
    }

    /** All as new, in this size. */
    reset(width, height) {
        const cursor = { x: 0, y: 0, visible: true, shape: 0, color: null };
        this.#rows = Array(height).fill(DEFAULT_ROW);
        this.#top = 0;
        Object.assign(this, { width, height, cursor, pen: DEFAULT_ATTRIBUTES, title: '' });
    }

    get rows() {
        this.#drop();
        return this.#rows;
    }

    *cells(y) {
        const { cells, rest } = this.rows[y]; // blanks are the rest after the cells
        for (let x = 0, cell; x < this.width; x += cell.columns) {
            cell = cells?.[x] ?? rest;
            yield [x, cell];
        }
    }

    text(y) {
        return Array.from(this.cells(y), ([, cell]) => cell.text).join('');
    }

    toString() {
        const rows = this.rows.map((_, y) => `|${this.text(y)}|\n`).join('');
        return `viewer ${this.number}\n${rows}cursor ${this.cursor.x} ${this.cursor.y}\n`;
    }

    /** Row `y`, to write to: from now on it has another version. */
    #row(y) {
        const at = this.#top + y;
        if (!this.#rows[at].cells) this.#rows[at] = { ...this.#rows[at], cells: [] };
        this.#rows[at].version++;
        return this.#rows[at];
    }

    /** Sets the attribute of the cursor's row. */
    mark(attribute) {
        this.#row(this.cursor.y).attribute = attribute;
    }

    /** Clears row `y` from column `x` on, and the rows below it that are before row `end`. */
    clear(background, { x, y }, end = this.height) {
        this.pen = Object.freeze({ ...DEFAULT_ATTRIBUTES, background });
        const rest = blank(this.pen), blanks = [0, 1, 2, 3].map(n => blankRow(rest, n));
        if (x > 0 && x < this.width) {
            const row = this.#row(y);
            cut(row, x);
            row.cells.length = x;
            row.rest = rest;
        }
        for (let at = this.#top + (x > 0 ? y + 1 : y); at < this.#top + end; at++) {
            this.#rows[at] = blanks[this.#rows[at].attribute];
        }
    }

    /** Moves to what `x` and `y` give for the cursor's place. A column may be the width itself. */
    move(x, y) {
        const { cursor, width, height } = this, column = x(cursor.x, width);
        cursor.x = Math.max(0, column > width ? width - 1 : column);
        cursor.y = Math.max(0, Math.min(y(cursor.y, height), height - 1));
    }

    /** Scrolls `size` rows from row `first` on up by `count`, or down where that is below 0. */
    scroll(first, size, count) {
        const begin = this.#top + first, region = this.#rows.slice(begin, begin + size);
        const isInside = k => k >= 0 && k < size;
        region.forEach((_, k) => {
            this.#rows[begin + k] = isInside(k + count) ? region[k + count] : DEFAULT_ROW;
        });
    }

    /** All rows move up. Those that leave are dropped together, and so in a step or two each. */
    #feed() {
        this.#rows.push(DEFAULT_ROW);
        if (++this.#top > this.height) this.#drop();
    }

    #drop() {
        this.#rows.splice(0, this.#top);
        this.#top = 0;
    }

    /** Prints runs of pieces. Without these each character is a piece of one column. */
    print(text, runs = [{ pieces: text, columns: 1 }]) {
        this.#place++; // so that no piece follows one of another text
        for (const { pieces, columns } of runs) {
            for (const piece of pieces) this.#print(piece, columns);
        }
    }

    #break(piece) {
        const { cursor, height } = this;
        if (piece !== '\n') cursor.x = 0;
        if (piece === '\r') return;
        if (cursor.y + 1 < height) cursor.y++;
        else this.#feed();
    }

    #print(piece, columns) {
        const first = piece.charCodeAt(0), isControl = first < 32 || first === 127;
        const place = ++this.#place;
        if (isControl && isBreak(piece)) return this.#break(piece);
        if (this.cursor.x >= this.width) this.#break('\r\n');
        const { x, y } = this.cursor, row = this.#row(y), { cells } = row;
        cut(row, x);
        cells[x] = isControl // which is cut from its neighbours, as a space may not be
            ? new Cell(' ', columns, this.pen, NaN) : new Cell(piece, columns, this.pen, place);
        if (columns === 2 && x + 1 < this.width) cells[x + 1] = blank(this.pen);
        this.cursor.x = Math.min(x + columns, this.width);
    }
}
