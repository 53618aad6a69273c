import type { Client } from './tikeburo.js';

/** Why no answers come, in words that say who has stopped: the server, or the way to it. */
export class Stopped extends Error {}

export interface PullOptions {
    /** Stops it: the promise is rejected with the signal's reason. */
    signal?: AbortSignal;
    /** Called before each request but the first, which waits for what it returns. */
    wait?: () => unknown;
    /**
     * Called with each problem after which it goes on by another request: a `Stopped`, or the
     * `Fault` of damaged bytes. The screen stays.
     */
    onproblem?: (problem: Error) => void;
    /** Used instead of the global one. */
    fetch?: typeof fetch;
}

/** How a screen came to its end. */
export interface End {
    /** `ended`: the program has (410). `gone`: there is no such screen, or no longer (404). */
    readonly state: 'ended' | 'gone';
    /** The program's exit status, where the server says it. */
    readonly exit: number | null;
}

/**
 * Follows the screen at the address `base` by requests of `BASE/SOURCE/NUMBER`, and feeds what
 * comes to the client, until the screen comes to its end. It begins with what the client shows.
 * Where nothing new comes, or a request fails, it waits before the next one: at first 0.1 to 0.2
 * seconds, and 5 at most. After damage it asks for a repaint.
 *
 * The promise is rejected with a `Fault` that another request would bring again (`version`,
 * `limit`), with what a callback throws, and with a `TypeError` where `base` is no address.
 */
export function pull(client: Client, base: string | URL, options?: PullOptions): Promise<End>;
