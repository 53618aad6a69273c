import type { Client, ClientOptions, Fault } from './tikeburo.js';

/** Bytes of a stream that came at once, and when, in milliseconds from the beginning. */
export interface Entry {
    readonly time: number;
    readonly bytes: Uint8Array;
}

/** The bytes of an entry, to be written after those of earlier ones. */
export function encodeEntry(milliseconds: number, bytes: Uint8Array): Uint8Array;

/**
 * The entries of a recording, or of a stream that was kept without times, whose answers are a tenth
 * of a second apart then. Where the recording is cut or damaged the entries end before, and `fault`
 * is why; its place counts from the recording's beginning, or of a stream from the answer's.
 */
export function readRecording(bytes: Uint8Array): { entries: Entry[]; fault: Fault | null };

/** Whether the answer whose bytes begin here is a repaint. */
export function isRepaint(bytes: Uint8Array): boolean;

/** Plays entries. It has no clock: whoever plays it calls `advance`. */
export class Player {
    constructor(entries: readonly Entry[], options?: ClientOptions);

    readonly entries: readonly Entry[];
    /** The one that shows the present time. It is another one after a step back. */
    readonly client: Client;
    /** Both in milliseconds. */
    readonly time: number;
    readonly duration: number;
    /** Whether all entries were played. */
    readonly isOver: boolean;

    advance(milliseconds: number): void;

    /** Goes to a time, or to the beginning or the end where there is none such. */
    seek(milliseconds: number): void;
}
