// What a viewer does over HTTP, and the server that it asks. Run it by `node --test test/pull.mjs`.
import assert from 'node:assert/strict';
import { once, setMaxListeners } from 'node:events';
import { createServer } from 'node:http';
import { connect } from 'node:net';
import test, { after } from 'node:test';
import { pull, Stopped } from '../pull.mjs';
import { Kept, serve } from '../serve.mjs';
import { Client, decodeAsk, encodeAsk } from '../tikeburo.mjs';
import { decode, sequence } from './encode.mjs';
import { randomFrom } from './random.mjs';
import { contentsOf } from './repaints.mjs';
import { randomChanges } from './screens.mjs';
import { allowed } from './work.mjs';

const repaint = (number, text) => sequence([2, 9, 8, 1, 0, number, [[2, text]]]);
const delta = (base, text) => sequence([2, 9, 8, 1, base, base + 1, [[2, text]]]);
const joined = (...parts) => Buffer.concat(parts.map(part => Buffer.from(part)));
const pause = milliseconds => new Promise(done => setTimeout(done, milliseconds));
const shown = ({ screen }) => (screen.width ? screen.text(0).trimEnd() : '');

/** Does this while timers of this many milliseconds take a hundredth of them. */
async function hasten(long, act) {
    const before = globalThis.setTimeout;
    globalThis.setTimeout = (done, milliseconds, ...words) =>
        before(done, milliseconds === long ? long / 100 : milliseconds, ...words);
    try {
        await act();
    } finally {
        globalThis.setTimeout = before;
    }
}

const servers = [], over = new AbortController();
setMaxListeners(0, over.signal);
after(() => {
    over.abort();
    servers.forEach(server => {
        server.close();
        server.closeAllConnections();
    });
});

/** Pulls until the tests are over, at the longest. */
const follow = (client, base, options) => pull(client, base, { signal: over.signal, ...options });

async function listen(handler, port = 0) {
    const server = createServer(handler).listen(port, '127.0.0.1');
    servers.push(server);
    await once(server, 'listening');
    return `http://127.0.0.1:${server.address().port}/token/stream`;
}

/** A server that answers each request by the next of these: bytes, a status, or a function. */
async function script(...answers) {
    const asks = [], times = [];
    const base = await listen((request, response) => {
        asks.push(request.url);
        times.push(performance.now());
        const next = answers.shift() ?? 410;
        if (typeof next === 'function') return next(response);
        response.writeHead(typeof next === 'number' ? next : 200);
        return response.end(typeof next === 'number' ? '' : next);
    });
    return { base, asks: () => asks.map(ask => ask.replace('/token/stream/', '')), times };
}

test('asks are taken apart and made', () => {
    const asks = [[[0x83, 2, 0, 0], 0n, 0n], [[0x83, 2, 1, 0x18, 42], 1n, 42n]];
    for (const [bytes, surface, number] of asks) {
        assert.deepEqual(decodeAsk(Uint8Array.from(bytes)), { surface, number });
        assert.deepEqual([...encodeAsk(surface, number)], bytes);
        assert.deepEqual([...encodeAsk(Number(surface), Number(number))], bytes);
    }
    const most = (1n << 64n) - 1n;
    assert.deepEqual(decodeAsk(encodeAsk(most, most)), { surface: most, number: most });
    for (const wrong of [-1, -1n, 1.5, NaN, 2 ** 53, most + 1n, '1', null, undefined]) {
        const message = `${wrong}, not an integer from 0 to 2^64 - 1`;
        assert.throws(() => encodeAsk(wrong, 0), { name: 'RangeError', message });
        assert.throws(() => encodeAsk(1, wrong), { name: 'RangeError', message });
    }
    assert.throws(() => encodeAsk(0, 1), { name: 'RangeError', message: 'number 1 of no surface' });
    const faults = [['83', 'truncated', 1], ['830201', 'truncated', 3], ['83020000ff', 'range', 4],
        ['83020001', 'range', 3], ['8302180100', 'range', 2], ['87', 'truncated', 1],
        ['', 'truncated', 0]];
    for (const [hex, kind, at] of faults) {
        assert.throws(() => decodeAsk(Buffer.from(hex, 'hex')), { name: 'Fault', kind, at }, hex);
    }
});

test('a viewer asks by what it shows, and takes what comes', { timeout: 120000 }, async () => {
    const client = new Client(), seen = [];
    client.onanswer = () => seen.push(shown(client));
    const inParts = async response => {
        const bytes = joined(delta(6, 'c'), delta(7, 'd'));
        for (let at = 0; at < bytes.length; at += 5) {
            response.write(bytes.subarray(at, at + 5));
            await pause(2);
        }
        while (seen.at(-1) !== 'abcd') await pause(5); // before the response ends
        response.end();
    };
    const { base, asks } = await script(
        repaint(5, 'a'), delta(5, 'b'), inParts, delta(8, 'e'), 410);
    const end = await follow(client, `${base}/?signed=x`);
    assert.deepEqual(end, { state: 'ended', exit: null });
    assert.deepEqual(seen, ['a', 'ab', 'abc', 'abcd', 'abcde']);
    const query = ask => `${ask}?signed=x`;
    assert.deepEqual(asks(), ['0/0', '9/5', '9/6', '9/8', '9/9'].map(query));
});

test('how a screen ended', { timeout: 120000 }, async () => {
    const ends = async (status, headers) => {
        const { base } = await script(response => response.writeHead(status, headers).end());
        return follow(new Client(), new URL(base));
    };
    assert.deepEqual(await ends(404, {}), { state: 'gone', exit: null });
    assert.deepEqual(await ends(410, { 'exit-status': '137' }), { state: 'ended', exit: 137 });
    assert.deepEqual(await ends(410, { 'exit-status': '0' }), { state: 'ended', exit: 0 });
    assert.deepEqual(await ends(410, { 'exit-status': 'none' }), { state: 'ended', exit: null });
});

test('cut, damaged and other responses', { timeout: 120000 }, async () => {
    const client = new Client(), problems = [];
    const cut = response => {
        response.writeHead(200, { 'content-length': 1000 });
        response.write(joined(delta(5, 'b'), delta(6, 'c').subarray(0, 9)));
        setTimeout(() => response.destroy(), 50);
    };
    const { base, asks } = await script(repaint(5, 'a'), cut, delta(6, 'c').subarray(0, 9), 503,
        response => response.destroy(), delta(6, 'c'), joined(delta(7, 'd'), [0x87, 2, 0]),
        repaint(20, 'abcde'), joined(delta(20, 'f'), delta(8, 'x')), 410);
    const onproblem = problem => problems.push(`${problem.name}: ${problem.message}`);
    await follow(client, base, { onproblem });
    assert.equal(shown(client), 'abcdef');
    assert.deepEqual(asks(),
        ['0/0', '9/5', '9/6', '9/6', '9/6', '9/6', '9/7', '0/0', '9/20', '9/21']);
    assert.deepEqual(problems, [
        'Error: the connection is lost: the server has stopped, or the way to it is cut',
        'Fault: truncated at 9 in change 0',
        'Error: the server sends no screen, but the status 503',
        "Error: the server doesn't answer: it has stopped, or can't be reached",
        'Fault: range at 2',
    ]);
});

test('what comes again ends it, and so does a signal', { timeout: 120000 }, async () => {
    const { base } = await script(Uint8Array.from([0x87, 3]));
    await assert.rejects(follow(new Client(), base), { name: 'Fault', kind: 'version' });
    const large = await script(repaint(1, 'a'));
    const small = new Client({ cells: 7 });
    await assert.rejects(follow(small, large.base), { name: 'Fault', kind: 'limit' });
    await assert.rejects(follow(new Client(), 'no address'), TypeError);
    let isClosed = false;
    const slow = await script(response => response.on('close', () => { isClosed = true; }));
    const stop = new AbortController();
    const pulled = follow(new Client(), slow.base, { signal: stop.signal });
    while (!slow.times.length) await pause(5);
    stop.abort();
    await assert.rejects(pulled, { name: 'AbortError' });
    while (!isClosed) await pause(5);
    const again = follow(new Client(), slow.base, { signal: stop.signal });
    await assert.rejects(again, { name: 'AbortError' });
    assert.equal(slow.times.length, 1);
});

test('who gets nothing new waits longer each time', { timeout: 120000 }, async () => {
    const { base, times } = await script(repaint(5, 'a'), 204, repaint(5, 'a'), delta(4, 'x'),
        delta(5, 'b'), 410);
    await follow(new Client(), base);
    const waits = times.slice(1).map((time, k) => time - times[k]);
    assert.ok(waits[1] >= 95, waits);
    assert.ok(waits[2] >= 195, waits);
    assert.ok(waits[3] >= 395, waits);
});

test('a response in which nothing comes is given up', { timeout: 120000 }, async () => {
    const problems = [];
    await hasten(45000, async () => {
        const { base, asks } = await script(repaint(5, 'a'), () => {},
            response => response.write(delta(5, 'b')), delta(6, 'c'), 410);
        await follow(new Client(), base, { onproblem: ({ message }) => problems.push(message) });
        assert.deepEqual(asks(), ['0/0', '9/5', '9/5', '9/6', '9/7']);
        assert.deepEqual(problems, Array(2).fill('the server has sent nothing for too long'));
    });
});

test('a viewer finds a server again that was replaced', { timeout: 120000 }, async () => {
    const client = new Client(), problems = [];
    const { base } = await script(repaint(5, 'a'), () => {});
    const pulled = follow(client, base, { onproblem: problem => problems.push(problem) });
    while (!client.screen.width) await pause(5);
    const server = servers.at(-1), { port } = server.address();
    server.close();
    server.closeAllConnections();
    while (problems.length < 3) await pause(5);
    const asks = [];
    await listen((request, response) => {
        asks.push(request.url.replace('/token/stream/', ''));
        if (asks.length > 1) return response.writeHead(410).end();
        return response.end(sequence([2, 3, 8, 1, 0, 1, [[2, 'another']]]));
    }, port);
    await pulled;
    assert.equal(shown(client), 'another');
    assert.deepEqual(asks, ['9/5', '3/1']);
    assert.ok(problems.every(problem => problem instanceof Stopped));
});

/** A live stream over HTTP, and what is put into it. */
class Live {
    client = new Client(); // of the sender
    #random = randomFrom(71);
    #number = 0;

    constructor(options) {
        this.kept = new Kept(options);
    }

    async start() {
        this.server = await serve({ port: 0, source: this.kept });
        servers.push(this.server);
        this.base = `http://127.0.0.1:${this.server.address().port}/stream`;
        return this;
    }

    put(isRepaint = false) {
        const base = isRepaint ? 0 : this.#number++;
        if (!base) this.size = [1 + this.#random(40), 1 + this.#random(12)];
        const changes = randomChanges(this.#random, ...this.size).slice(0, 4);
        const number = isRepaint ? ++this.#number : this.#number;
        const few = allowed(changes, ...this.size);
        const answer = sequence([2, 5, ...this.size, base, number, few]);
        this.client.feed(answer);
        assert.equal(this.client.fault, null);
        this.kept.put(answer);
    }
}

const pictureOf = ({ screen }) => ({ ...contentsOf(screen), surface: null, number: null });

test('viewers who ask at any time come to show the last screen', { timeout: 120000 }, async () => {
    const live = await new Live({ segment: 200 }).start(), random = randomFrom(72), viewers = [];
    for (let k = 0; k < 120; k++) {
        live.put(k % 40 === 39);
        if (k % 4 === 0) {
            const client = new Client({ onstale: assert.fail }), wait = () => pause(random(100));
            const end = follow(client, live.base, { wait, onproblem: assert.fail });
            viewers.push({ client, end });
        }
        await pause(10);
    }
    live.kept.end();
    for (const { client, end } of viewers) {
        assert.deepEqual(await end, { state: 'ended', exit: null });
        assert.deepEqual(pictureOf(client), pictureOf(live.client));
        assert.equal(client.screen.surface, live.kept.relay.source);
    }
});

test('a response is the same for all who ask the same', { timeout: 120000 }, async () => {
    const live = await new Live({ segment: 0 }).start();
    const { base, kept: { relay: { source } } } = live;
    const bytesOf = async path => {
        const response = await fetch(`${base}/${path}`);
        return Buffer.from(await response.arrayBuffer());
    };
    const early = bytesOf('0/0'); // waits for the first screen
    live.put();
    const [first, again] = [await early, await bytesOf('0/0')];
    assert.deepEqual(first, again);
    const [version, surface, , , from, number] = decode(first);
    assert.deepEqual([version, surface, from, number], [2n, source, 0n, 1n]);
    const waiting = Array.from({ length: 3 }, () => fetch(`${base}/${source}/1`));
    await pause(50);
    live.put();
    live.put();
    const responses = await Promise.all(waiting);
    const bodies = await Promise.all(responses.map(each => each.arrayBuffer()));
    const { status, headers } = responses[0];
    assert.equal(status, 200);
    assert.equal(headers.get('cache-control'), 'public, max-age=1, stale-while-revalidate=0');
    assert.equal(headers.get('content-type'), 'application/cbor-seq');
    assert.deepEqual(bodies[1], bodies[0]);
    assert.deepEqual(bodies[2], bodies[0]);
    const client = new Client({ onstale: assert.fail });
    client.feed(joined(first, new Uint8Array(bodies[0])));
    assert.deepEqual([client.answers, client.screen.number], [3, 3n]);
    assert.deepEqual(pictureOf(client), pictureOf(live.client));
    const other = decode(await bytesOf('7/3')); // of another source
    assert.deepEqual([other[1], other[4], other[5]], [source, 0n, 3n]);
    live.kept.end();
    const end = await fetch(`${base}/${source}/3`);
    assert.deepEqual([end.status, end.headers.get('cache-control')],
        [410, 'public, max-age=1, stale-while-revalidate=0']);
    assert.deepEqual(await bytesOf(`${source}/1`), Buffer.from(bodies[0]));
    for (const wrong of ['00/0', '1/', '1/01', '1/2/3', '1/-1', '1/0x1', 'a/b']) {
        assert.equal((await fetch(`${base}/${wrong}`)).status, 404, wrong);
    }
});

test('who lacks too much gets a repaint', { timeout: 120000 }, async () => {
    const live = await new Live({ segment: 0 }).start(), { kept, base } = live;
    live.put();
    for (let k = 0; k < 200; k++) live.put();
    await pause(100); // a tick
    const { source } = kept.relay;
    const headOf = async number => {
        const response = await fetch(`${base}/${source}/${number}`);
        return decode(Buffer.from(await response.arrayBuffer())).slice(4, 6);
    };
    assert.deepEqual(await headOf(200), [200n, 201n]);
    assert.deepEqual(await headOf(1), [0n, 201n]);
    assert.deepEqual(await headOf(999), [0n, 201n]); // which nobody was given
    kept.relay.follow = async function* follow() { throw new RangeError('too long'); };
    const { status, headers } = await fetch(`${base}/0/0`);
    assert.deepEqual([status, headers.get('cache-control')], [503, 'no-store']);
});

/** What comes back for these bytes, up to the end of the connection. */
async function sendRaw(port, text) {
    const socket = connect(port, '127.0.0.1'), parts = [];
    socket.write(text);
    for await (const part of socket) parts.push(part);
    return Buffer.concat(parts);
}

test('a request of HTTP/1.0 gets one answer, with its length', { timeout: 120000 }, async () => {
    const live = await new Live().start(), { port } = live.server.address();
    live.put();
    const ask = path => sendRaw(port,
        `GET /stream/${path} HTTP/1.0\r\nhost: 127.0.0.1:${port}\r\n\r\n`);
    const lengthOf = head => Number(/\r\ncontent-length: (\d+)\r\n/i.exec(head)?.[1]);
    const response = await ask('0/0'), end = response.indexOf('\r\n\r\n');
    const head = response.toString('latin1', 0, end + 2), body = response.subarray(end + 4);
    assert.match(head, /^HTTP\/1.1 200 /);
    assert.equal(lengthOf(head), body.length);
    const client = new Client();
    client.feed(body);
    assert.deepEqual([client.end(), client.answers], [null, 1]);
    assert.deepEqual(pictureOf(client), pictureOf(live.client));
    live.kept.end();
    const last = String(await ask(`${live.kept.relay.source}/1`));
    assert.match(last, /^HTTP\/1.1 410 /);
    assert.equal(lengthOf(last), 0);
});

test('a still screen has a beat, which changes nothing', { timeout: 120000 }, async () => {
    await hasten(15000, async () => {
        const live = await new Live({ segment: 0 }).start(), client = new Client();
        live.put();
        const followed = follow(client, live.base, { onproblem: assert.fail });
        while (client.screen.number < 3n) await pause(20);
        assert.deepEqual(pictureOf(client), pictureOf(live.client));
        live.put();
        live.kept.end();
        await followed;
        assert.deepEqual(pictureOf(client), pictureOf(live.client));
    });
});
