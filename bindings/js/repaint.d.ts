import type { Screen } from './tikeburo.js';

export interface RepaintOptions {
    /** Most bytes; 16,777,216 if not given. */
    bytes?: number;
    /** Whose screen the repaint says it is, and its number; the screen's own if not given. */
    surface?: bigint;
    number?: bigint;
}

/**
 * The bytes of a repaint, by which any viewer comes to show what this screen shows, with its
 * surface and number, so that the surface's next deltas lead on from there. Throws a `RangeError`
 * where the screen is no surface's, or where the repaint has more bytes than the limit.
 */
export function encodeRepaint(screen: Screen, options?: RepaintOptions): Uint8Array;
