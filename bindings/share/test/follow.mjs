// `node follow.mjs ADDRESS` follows a shared terminal. It prints the last screen, and on its second
// output the first row of each.
import { fileURLToPath } from 'node:url';
import { pull } from '../../js/pull.mjs';
import { Client } from '../../js/tikeburo.mjs';

const ENOUGH = new Error('enough');

/** All that a screen shows, to be compared. */
export function contentsOf(screen) {
    const { width, height, cursor, title } = screen;
    const rows = screen.rows.map(({ attribute }, y) => [attribute, ...screen.cells(y)]);
    return { width, height, cursor, title, rows };
}

/** A `fetch` whose bodies end at once with this signal: node's own may go on where it is late. */
const fetchUntil = (signal, get) => async (address, options) => {
    const response = await get(address, options), { ok, status, headers } = response;
    const body = response.body?.pipeThrough(new TransformStream(), { signal });
    return { ok, status, headers, body };
};

/**
 * Asks until the terminal ends, or this holds of the client. Returns the end, where it came to
 * that. `options` are those of `pull`.
 */
export async function follow(client, address, isEnough = () => false, options = {}) {
    const { onanswer = () => {}, fetch = globalThis.fetch, ...others } = options;
    const stop = new AbortController(), { signal } = stop;
    client.onanswer = () => {
        onanswer(client);
        if (isEnough(client)) stop.abort(ENOUGH);
    };
    if (client.answers && isEnough(client)) return null;
    try {
        return await pull(client, address, { ...others, signal, fetch: fetchUntil(signal, fetch) });
    } catch (error) {
        if (error !== ENOUGH) throw error;
        return null;
    }
}

if (process.argv[1] === fileURLToPath(import.meta.url)) {
    const client = new Client();
    const onanswer = ({ screen }) => console.error(screen.text(0));
    await follow(client, process.argv[2], () => false, { onanswer });
    console.log(JSON.stringify(contentsOf(client.screen)));
}
