/** The form of the stream that is read: docs/VIEWER.md, docs/stream.cddl. */

export type FaultKind =
    | 'truncated' | 'version' | 'type' | 'utf-8' | 'range' | 'region' | 'limit' | 'stale' | 'size';

/** Why an answer isn't taken. Its message is as in `range at 12 in change 3`. */
export class Fault extends Error {
    readonly kind: FaultKind;
    /** The byte, from the answer's start, where the item begins that shows it. */
    readonly at: number;
    /** The index of the change that has this item; null before the first change. */
    readonly change: number | null;
    /** The answer's number in the stream, from 1. */
    readonly answer: number;
    /** What was found, for whoever looks for the cause. */
    readonly why: string;
}

/**
 * Default (null), an index of the palette, a true colour, or a true colour with the index for
 * terminals without them. Parts are red, green and blue, 0 to 255.
 */
export type Color =
    | null | number | readonly [number, number, number] | readonly [number, number, number, number];

/** Untrusted: show the address as text, and open `https` alone, on a click. */
export interface Link {
    readonly uri: string;
    readonly implicit: boolean;
    /** By ascending keys. */
    readonly params: readonly (readonly [key: string, value: string])[];
}

/** Frozen. Cells that were printed with one pen have the same object. */
export interface Attributes {
    /** Small attributes in bits, which `styleOf` names. */
    readonly style: number;
    readonly foreground: Color;
    readonly background: Color;
    readonly underlineColor: Color;
    readonly link: Link | null;
}

export interface Style {
    /** Normal, bold, half. */
    intensity: 0 | 1 | 2;
    /** None, single, double, curly, dotted, dashed. */
    underline: 0 | 1 | 2 | 3 | 4 | 5;
    /** None, slow, rapid. */
    blink: 0 | 1 | 2;
    italic: boolean;
    reverse: boolean;
    strike: boolean;
    invisible: boolean;
    wrapped: boolean;
    overline: boolean;
    /** Output, input, prompt. */
    semantic: 0 | 1 | 2;
    /** Base line, superscript, subscript. */
    alignment: 0 | 1 | 2;
}

export const DEFAULT_ATTRIBUTES: Attributes;

/** The small attributes that a style holds. */
export function styleOf(style: number): Style;

/** A text, its columns and its attributes. Frozen. */
export interface Cell {
    /** Untrusted: show it as text, isolated and clipped. */
    readonly text: string;
    readonly columns: 1 | 2;
    readonly attributes: Attributes;
}

export interface Row {
    /** 0 double height, top half; 1 double height, bottom half; 2 double width; 3 single width. */
    readonly attribute: 0 | 1 | 2 | 3;
    /**
     * Goes up with each change of this object. While a screen has its width, a row that is the same
     * object with the same version shows the same, wherever a scroll has moved it.
     */
    readonly version: number;
}

export interface Cursor {
    /** 0 to the width: there the next text wraps. */
    readonly x: number;
    /** 0 to the height less 1. */
    readonly y: number;
    readonly visible: boolean;
    /** 0 default, then blinking and steady block (1, 2), underline (3, 4) and bar (5, 6). */
    readonly shape: 0 | 1 | 2 | 3 | 4 | 5 | 6;
    readonly color: Color;
}

/** What a viewer shows. A client changes it, and nobody else. */
export class Screen {
    /** Whose screen it is, and its number; 0 and 0 where none is shown. */
    readonly surface: bigint;
    readonly number: bigint;
    /** In columns and rows; 0 and 0 before the first answer. */
    readonly width: number;
    readonly height: number;
    /** From the top on. Rows of blanks may be one object. */
    readonly rows: readonly Row[];
    readonly cursor: Cursor;
    readonly pen: Attributes;
    /** Untrusted. */
    readonly title: string;

    /**
     * The cells that row `y` shows, each with its column. A cell of two columns hides the next one,
     * which isn't among them. One that stands in the last column has that column alone.
     */
    cells(y: number): IterableIterator<[column: number, cell: Cell]>;

    /** The text of row `y`, with its blanks. */
    text(y: number): string;

    /** The screen as the program `surfwatch` prints it. */
    toString(): string;
}

export interface ClientOptions {
    /** Most cells of an answer, width times height; 1,048,576 if not given. */
    cells?: number;
    /** Most rows of an answer; 65,536 if not given. */
    rows?: number;
    /** Most bytes of an answer; 16,777,216 if not given. */
    bytes?: number;
    /** Called after each answer that was taken. */
    onanswer?: ((client: Client) => void) | null;
    /**
     * Called for each delta that doesn't lead on from what is shown: it came late or twice, is
     * another surface's, or one before it was lost. It changed nothing.
     */
    onstale?: ((fault: Fault, client: Client) => void) | null;
}

/** A viewer of one stream of answers, whose bytes may be cut anywhere. */
export class Client {
    constructor(options?: ClientOptions);

    onanswer: ((client: Client) => void) | null;
    onstale: ((fault: Fault, client: Client) => void) | null;
    readonly limits: { readonly cells: number; readonly rows: number; readonly bytes: number };
    readonly screen: Screen;
    /** How many answers of this connection were read, stale ones too. */
    readonly answers: number;
    /** Bytes of the coming answer that are there. */
    readonly pending: number;
    /** Why the stream is read no further. */
    readonly fault: Fault | null;

    /**
     * Takes the stream's next bytes, and reads them in place: nothing may change them until it
     * returns. Behind a fault they are left out.
     */
    feed(bytes: Uint8Array): void;

    /** The stream has ended. Returns the fault, which is `truncated` within an answer. */
    end(): Fault | null;

    /** The bytes that ask for what the screen lacks: all of it, where nothing is shown. */
    ask(): Uint8Array;

    /**
     * Begins with a new connection: what came in part is dropped, and the screen stays. `ask` goes
     * on from its number, but after a fault other than `truncated` from nothing.
     */
    restart(): void;
}

/**
 * The bytes of an ask for what lies after this number of this surface; 0 and 0 for a repaint.
 * Throws a `RangeError` where one is no integer from 0 to 2^64 - 1, or a double above 2^53 - 1, and
 * where the surface is 0 and the number isn't.
 */
export function encodeAsk(surface: bigint | number, number: bigint | number): Uint8Array;

/**
 * What an ask says. Throws a `Fault` where the bytes are no ask: `truncated` where they end too
 * early, and `range` where more follow it.
 */
export function decodeAsk(bytes: Uint8Array): { surface: bigint; number: bigint };
