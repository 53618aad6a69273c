// Viewers with troubles of their own, over caches that lose the server and one another: in the end
// all show the last screen. Run it by `node --test test/engines.mjs`; what isn't there of Varnish
// and nginx is left out.
import assert from 'node:assert/strict';
import { spawn, spawnSync } from 'node:child_process';
import { once, setMaxListeners } from 'node:events';
import { chmodSync, mkdtempSync, readFileSync, rmSync, writeFileSync } from 'node:fs';
import { createServer } from 'node:net';
import { tmpdir } from 'node:os';
import { join } from 'node:path';
import test, { after } from 'node:test';
import { fileURLToPath } from 'node:url';
import { pull } from '../pull.mjs';
import { Client } from '../tikeburo.mjs';
import { sequence } from './encode.mjs';
import { randomFrom } from './random.mjs';
import { contentsOf } from './repaints.mjs';
import { randomChanges } from './screens.mjs';
import { allowed } from './work.mjs';

const SIZE = [60, 16], FRAME = 100; // milliseconds between the sender's answers
const EACH = 4; // viewers of each kind
const LONGEST = 170000; // milliseconds, on a machine that is busy
const env = { ...process.env, PATH: `${process.env.PATH}:/usr/sbin:/usr/local/sbin` };
const pathOf = name => fileURLToPath(new URL(name, import.meta.url));
const pause = milliseconds => new Promise(done => setTimeout(done, milliseconds));
const random = randomFrom(73);
const folder = mkdtempSync(join(tmpdir(), 'tikeburo-engines-'));
const children = new Set(), over = new AbortController();
chmodSync(folder, 0o755);
setMaxListeners(0, over.signal);

after(async () => {
    over.abort();
    await Promise.all([...children].map(child => stop({ child })));
    rmSync(folder, { recursive: true, force: true });
});

function start(command, ...words) {
    const child = spawn(command, words, { env, stdio: ['pipe', 'ignore', 'ignore'] });
    child.stdin.on('error', () => {}); // it may be killed
    child.ended = once(child, 'exit').then(() => children.delete(child));
    children.add(child);
    return child;
}

async function stop({ child }, signal = 'SIGTERM') {
    child.kill(signal);
    await child.ended;
}

/** Waits until a program answers at its port, whatever it says. */
async function answers({ child, port }) {
    for (let response = null; !response && !over.signal.aborted; await pause(50)) {
        assert.ok(children.has(child), `${child.spawnargs.join(' ')} has ended`);
        response = await fetch(`http://127.0.0.1:${port}/`).catch(() => null);
        await response?.body?.cancel();
    }
}

/** Ports on which nothing listens. */
async function freePorts(count) {
    const servers = Array.from({ length: count }, () => createServer().listen(0, '127.0.0.1'));
    await Promise.all(servers.map(server => once(server, 'listening')));
    const ports = servers.map(server => server.address().port);
    await Promise.all(servers.map(server => once(server.close(), 'close')));
    return ports;
}

// What runs a cache by a configuration in a folder.
const ENGINES = [
    {
        name: 'Varnish', program: 'varnishd', version: '-V', file: 'edge.vcl',
        words: (path, dir, port) => ['-F', '-f', path, '-a', `127.0.0.1:${port}`, '-n', `${dir}/n`,
            '-s', 'malloc,16m', '-p', 'http_gzip_support=off', '-p', 'thread_pool_min=20',
            '-j', 'none'],
    },
    {
        name: 'nginx', program: 'nginx', version: '-v', file: 'nginx.conf',
        words: (path, dir) => ['-c', path, '-e', `${dir}/error.log`],
    },
];

/** A cache at a port, before what listens at the next one. */
function startCache({ program, file, words }, port, next) {
    const dir = mkdtempSync(join(folder, 'cache-')), path = join(dir, file);
    chmodSync(dir, 0o755); // nginx gives up the rights of root
    const values = { DIR: dir, WORKERS: 1, PORT: port, NEXT: next };
    const text = readFileSync(pathOf(`../../share/engines/${file}`), 'utf8');
    writeFileSync(path, text.replace(/@([A-Z]+)@/g, (_, name) => values[name]));
    return { port, child: start(program, ...words(path, dir, port)) };
}

/** A server, and the sender of what it shows: another source each time. */
class Origin {
    client = new Client();
    #number = 0;

    constructor(port, source) {
        Object.assign(this, { port, source });
        this.child = start(process.execPath, pathOf('../serve.mjs'), '--port', String(port));
    }

    /** Sends a screen, and then changes, until the call that is returned. */
    play() {
        const timer = setInterval(() => this.#send(), FRAME);
        return () => clearInterval(timer);
    }

    #send() {
        const changes = allowed(randomChanges(random, ...SIZE), ...SIZE).slice(0, 12);
        const base = this.#number++;
        const answer = sequence([2, this.source, ...SIZE, base, this.#number, changes]);
        this.client.feed(answer);
        this.child.stdin.write(answer);
    }
}

/** Responses with some of the older ones again, before or after them. */
function shuffling(get) {
    const kept = [];
    return async (address, options) => {
        const response = await get(address, options);
        if (!response.ok) return response;
        kept.push(Buffer.from(await response.arrayBuffer()));
        if (kept.length > 8) kept.shift();
        const parts = [kept.at(-1)];
        for (let n = random(4); n; n--) parts.splice(random(2) * parts.length, 0, random.pick(kept));
        return new Response(Buffer.concat(parts));
    };
}

/** One of four responses ends anywhere. */
const cutting = get => async (address, options) => {
    const response = await get(address, options);
    if (!response.ok || random(4)) return response;
    const bytes = Buffer.from(await response.arrayBuffer());
    return new Response(bytes.subarray(0, random(bytes.length)));
};

/** Each request goes to any of the edges. */
const scattering = (get, edges) => (address, options) => {
    const url = new URL(address);
    url.port = random.pick(edges);
    return get(url, options);
};

const KINDS = {
    early: {}, late: { delay: 3000 }, latest: { delay: 7000 },
    slow: { wait: () => pause(400) },
    asleep: { wait: () => pause(random(20) ? 0 : 2500) },
    far: { wait: () => pause(120) },
    scattered: { through: scattering },
    doubled: { through: shuffling },
    cut: { through: (get, edges) => cutting(scattering(get, edges)) },
};

/** A viewer, and which sources it has seen. */
function view(kind, edges) {
    const { delay = 0, wait, through = get => get } = KINDS[kind], sources = new Set();
    const client = new Client({ onanswer: ({ screen }) => sources.add(screen.surface) });
    const options = { signal: over.signal, wait, fetch: through(fetch, edges) };
    const base = `http://127.0.0.1:${random.pick(edges)}/stream`;
    return { kind, client, sources, end: pause(delay).then(() => pull(client, base, options)) };
}

/** Waits until all viewers that are there from the beginning have seen this many sources. */
async function haveSeen(views, count) {
    const isBehind = ({ kind, sources }) => kind === 'early' && sources.size < count;
    while (views.some(isBehind) && !over.signal.aborted) await pause(50);
}

const pictureOf = ({ screen }) => ({ ...contentsOf(screen), surface: null, number: null });

async function judge(engine, [port, middle, ...edges]) {
    const between = startCache(engine, middle, port), first = new Origin(port, 5);
    const caches = edges.map(edge => startCache(engine, edge, middle));
    await Promise.all([first, between, ...caches].map(answers));
    const stopPlaying = first.play();
    const views = Object.keys(KINDS).flatMap(kind =>
        Array.from({ length: EACH }, () => view(kind, edges)));
    await haveSeen(views, 1);
    await pause(2000);
    stopPlaying();
    await stop(first, 'SIGKILL');
    await pause(500);
    const second = new Origin(port, 6);
    await answers(second);
    const stopPlayingOn = second.play();
    await haveSeen(views, 2);
    await stop(caches[0]); // what it kept is lost
    await answers(startCache(engine, edges[0], middle));
    await pause(2000);
    stopPlayingOn();
    second.child.stdin.end();
    const wanted = pictureOf(second.client);
    for (const { kind, client, end } of views) {
        assert.deepEqual(await end, { state: 'ended', exit: null }, kind);
        assert.deepEqual(pictureOf(client), wanted, kind);
    }
    return views.length;
}

/** Why an engine is left out, where it is. */
function lackOf({ program, version }) {
    const { error, status } = spawnSync(program, [version], { env, stdio: 'ignore' });
    return !error && status === 0 ? false : `${program} is not there`;
}

test('viewers with troubles', { concurrency: true, timeout: LONGEST }, async all => {
    const ports = await freePorts(4 * ENGINES.length);
    await Promise.all(ENGINES.map((engine, k) => all.test(
        `36 viewers with troubles, over ${engine.name}`, { skip: lackOf(engine) },
        async () => assert.equal(await judge(engine, ports.slice(4 * k, 4 * k + 4)), 36))));
});
