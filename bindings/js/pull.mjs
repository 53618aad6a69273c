// Follows a screen over HTTP, by requests that caches on the way can answer: docs/VIEWER.md, "Over
// HTTP". It runs in node and in browsers; pull.d.ts says what the call does.
import { Fault } from './reader.mjs';

const SHORTEST_WAIT = 200, LONGEST_WAIT = 5000; // milliseconds before the same is asked again
const SILENCE = 45000; // milliseconds: a server sends something three times as often
const ENDED = 410, GONE = 404; // statuses
const FINAL = ['version', 'limit']; // faults that another response would have again

/** Why no more comes, in words that say who has stopped. */
export class Stopped extends Error {}

const isOffline = () => globalThis.navigator?.onLine === false;
const pause = milliseconds => new Promise(done => setTimeout(done, milliseconds));

/** Whether another connection may bring what this one didn't. */
export const isPassing = error =>
    error instanceof Stopped || error instanceof Fault && !FINAL.includes(error.kind);

/** Throws the reason that was given for stopping, or else one in these words. */
function stop(error, words, offline) {
    if (error instanceof Stopped) throw error;
    throw new Stopped(isOffline() ? offline : words, { cause: error });
}

/** Waits for a response, whatever its status is. */
export const respond = coming => coming.catch(error => stop(error,
    "the server doesn't answer: it has stopped, or can't be reached",
    'this device has no connection'));

/** Waits for the next bytes of a response, of which there are none at its end. */
export const receive = reader => reader.read().then(({ value }) => value, error => stop(error,
    'the connection is lost: the server has stopped, or the way to it is cut',
    'this device has lost its connection'));

/** How a screen ended, where a response says so instead of bringing answers. */
export function endOf({ ok, status, headers }) {
    if (ok) return null;
    if (status !== ENDED && status !== GONE) {
        throw new Stopped(`the server sends no screen, but the status ${status}`);
    }
    const exit = /^\d{1,3}$/.exec(headers.get('exit-status') ?? '');
    return { state: status === ENDED ? 'ended' : 'gone', exit: exit && Number(exit[0]) };
}

/** A signal for one request, which comes by `outer` too, and where nothing comes for too long. */
class Patience {
    #controller = new AbortController();
    #timer = 0;

    constructor(outer) {
        this.outer = outer;
        outer?.addEventListener('abort', this.#abort);
        this.renew();
    }

    #abort = () => this.#controller.abort(this.outer?.reason);

    get signal() {
        return this.#controller.signal;
    }

    /** Something has come. */
    renew() {
        const silent = new Stopped('the server has sent nothing for too long');
        clearTimeout(this.#timer);
        this.#timer = setTimeout(() => this.#controller.abort(silent), SILENCE);
    }

    end() {
        clearTimeout(this.#timer);
        this.outer?.removeEventListener('abort', this.#abort);
        this.#abort(); // what is left of the response isn't read
    }
}

/** The address of what a client lacks. A query stays after it, as that of a signed address. */
function addressOf(base, { surface, number }) {
    const address = new URL(base, globalThis.document?.baseURI);
    address.pathname = `${address.pathname.replace(/\/+$/, '')}/${surface}/${number}`;
    return address.href;
}

/** Feeds a response to a client, as it comes. */
async function feedBody(client, response, patience) {
    const reader = response.body?.getReader(); // a status as 204 has none
    for (let bytes; reader && !client.fault && (bytes = await receive(reader));) {
        patience.renew();
        client.feed(bytes);
    }
    if (client.end()) throw client.fault;
}

/** Asks once, and returns the end, where the response says it. */
async function ask(client, base, { fetch, signal }) {
    const patience = new Patience(signal);
    try {
        // In the usual mode: by `no-store` a browser tells caches on the way not to answer.
        const coming = fetch(addressOf(base, client.screen), { signal: patience.signal });
        const response = await respond(coming), end = endOf(response);
        if (!end) await feedBody(client, response, patience);
        return end;
    } finally {
        patience.end();
    }
}

/** What a request comes to: the end, or why nothing more comes of it. */
async function attempt(client, base, options) {
    try {
        return { end: await ask(client, base, options) };
    } catch (problem) {
        options.signal?.throwIfAborted();
        if (!isPassing(problem)) throw problem;
        return { problem };
    }
}

const isDamage = problem => problem instanceof Fault && problem.kind !== 'truncated';

export async function pull(client, base, {
    signal, wait = () => {}, onproblem = () => {}, fetch = globalThis.fetch,
} = {}) {
    client.restart();
    for (let fruitless = 0; ; await wait()) {
        signal?.throwIfAborted();
        const { surface, number } = client.screen;
        const { end, problem } = await attempt(client, base, { fetch, signal });
        if (end) return end;
        const isNew = client.screen.surface !== surface || client.screen.number !== number;
        if (!isNew || isDamage(problem)) fruitless++;
        else fruitless = problem ? 1 : 0;
        if (problem) {
            client.restart(); // after damage it asks for a repaint
            onproblem(problem);
        }
        const longest = Math.min(SHORTEST_WAIT * 2 ** (fruitless - 1), LONGEST_WAIT);
        // Viewers that lost a server together don't come back together.
        if (fruitless) await pause(longest * (0.5 + Math.random() / 2));
    }
}
