#!/usr/bin/env node
// serve.mjs [--port N] [--record FILE] [RECORDING] shows a screen in browsers: `sender | serve.mjs`
// the stream of its input, live, and with a RECORDING that file, with a player. `--record` keeps
// the stream with its times. It listens on 127.0.0.1 alone.
//
// There is no surface here to ask. Whoever joins is sent a repaint of what the stream shows, and
// then each answer as it comes; who is slow gets another repaint instead of much that is old. A
// live stream is also sent to who asks, and to caches: docs/VIEWER.md, "Over HTTP".
//
// What can't be done is one line on the error output, and status 2. A fault of the stream is a line
// as soon as it shows, and the last whole screen stays.
import { once } from 'node:events';
import { createReadStream, createWriteStream, openSync, readFileSync } from 'node:fs';
import { createServer } from 'node:http';
import { pipeline } from 'node:stream/promises';
import { fileURLToPath } from 'node:url';
import { parseArgs } from 'node:util';
import { encodeEntry, readRecording } from './recording.mjs';
import { Relay } from './relay.mjs';
import { encodeRepaint } from './repaint.mjs';
import { Client } from './tikeburo.mjs';

const USAGE = 'usage: serve.mjs [--port N] [--record FILE] [RECORDING]';
const PORT = 8002, MOST_PORT = 65535;
const SEGMENT = 1000; // milliseconds
const ASK = /^stream\/(0|[1-9]\d{0,19})\/(0|[1-9]\d{0,19})$/; // one spelling, for caches
const AT_ONCE = 65536;
const KINDS = { html: 'text/html; charset=utf-8', css: 'text/css', mjs: 'text/javascript' };
const FILES = ['index.html', 'page.css', 'page.mjs', 'answer.mjs', 'element.mjs', 'grid.mjs',
    'look.mjs', 'pull.mjs', 'reader.mjs', 'recording.mjs', 'screen.mjs', 'tikeburo.mjs'];
const HEADERS = {
    'cache-control': 'no-store',
    'content-security-policy': "default-src 'none'; script-src 'self'; connect-src 'self'; "
        + "style-src 'self'; frame-ancestors 'none'; base-uri 'none'; form-action 'none'",
    'referrer-policy': 'no-referrer',
    'x-content-type-options': 'nosniff',
};
const STREAM = { ...HEADERS, 'content-type': 'application/cbor-seq' };
// Pages of other origins don't read it, since its address has no secret.
const CACHED = { ...STREAM, 'cache-control': 'public, max-age=1, stale-while-revalidate=0' };
const REASONS = {
    EACCES: 'not allowed', EADDRINUSE: 'another program listens there', EISDIR: 'a folder',
    ENOENT: 'no such file or folder', ENOSPC: 'no space is left',
};

/** What can't be done, and why. */
class Refusal extends Error {}

const say = text => console.error(text === USAGE ? text : `serve.mjs: ${text}`);
const reasonOf = error => REASONS[error.code] ?? error.message;

/** What is done with a file, or a refusal. */
function attempt(file, act) {
    try {
        return act();
    } catch (error) {
        throw new Refusal(`${file}: ${reasonOf(error)}`);
    }
}

/** A live stream: what it shows, and its newest answers. */
export class Kept {
    isOver = false;
    #answers = [];
    #first = 0; // the number of the first one that is kept
    #size = 0; // bytes that are kept
    #parts = []; // the bytes that came of the next answer
    #damage = null; // the bytes that show the fault, where no more come
    #repaint = null; // of what is shown, once a viewer needs it
    #waiting = [];
    #client = new Client({ onanswer: () => this.#take(true), onstale: () => this.#take(false) });

    constructor({ onfault = null, segment = SEGMENT } = {}) {
        this.onfault = onfault;
        this.relay = new Relay({ segment });
    }

    /** Takes the stream's next bytes, cut anywhere. What is after a fault is left out. */
    put(bytes) {
        for (let at = 0; at < bytes.length && !this.isOver; at += AT_ONCE) {
            const part = bytes.subarray(at, at + AT_ONCE);
            this.#parts.push(part);
            this.#client.feed(part);
            if (!this.#client.fault) continue;
            this.#damage = Buffer.concat(this.#parts);
            this.end();
        }
    }

    end() {
        if (this.isOver) return;
        this.isOver = true;
        const fault = this.#client.end();
        if (fault) this.onfault?.(fault);
        this.relay.end();
        this.#wake();
    }

    /** Keeps an answer that is whole, and as many before it as are worth sending. */
    #take(isShown) {
        const bytes = this.#parts.length > 1 ? Buffer.concat(this.#parts) : this.#parts[0];
        const length = bytes.length - this.#client.pending;
        this.#parts = length < bytes.length ? [bytes.subarray(length)] : [];
        this.#repaint = null;
        this.#answers.push(bytes.subarray(0, length));
        if (isShown) this.relay.put(this.#answers.at(-1), this.#client.screen);
        this.#size += length;
        for (; this.#size > this.#most; this.#first++) this.#size -= this.#answers.shift().length;
        this.#wake();
    }

    /** The bytes of answers above which a repaint is sent instead, as a surface does. */
    get #most() {
        const { width, height } = this.#client.screen;
        return width ? 64 + 4 * width * height : AT_ONCE;
    }

    #wake() {
        this.#waiting.splice(0).forEach(done => done());
    }

    /** The repaint of what is shown; nothing before the first one, or where it is too long. */
    #paint() {
        try {
            this.#repaint ??= encodeRepaint(this.#client.screen);
        } catch (error) {
            if (!(error instanceof RangeError)) throw error;
        }
        return this.#repaint;
    }

    /** What one viewer is sent, as it comes: the damage too, so that it sees what the fault is. */
    async *follow() {
        for (let next = -1; ;) {
            const repaint = next < this.#first && this.#paint();
            const news = this.#answers.slice(Math.max(0, next - this.#first));
            const parts = repaint ? [repaint] : news;
            next = this.#first + this.#answers.length;
            if (parts.length) yield Buffer.concat(parts);
            else if (!this.isOver) await new Promise(done => this.#waiting.push(done));
            else break;
        }
        if (this.#damage) yield this.#damage;
    }
}

/** Puts a stream into `kept`, and its bytes into the recording. */
async function readStream(input, kept, recorder) {
    const began = Date.now();
    for await (const chunk of input) {
        recorder?.write(encodeEntry(Date.now() - began, chunk));
        kept.put(chunk);
    }
    kept.end();
}

function sendFile(response, name) {
    const kind = KINDS[name.split('.').at(-1)];
    response.writeHead(200, { ...HEADERS, 'content-type': kind });
    response.end(readFileSync(fileURLToPath(new URL(name, import.meta.url))));
}

/** Waits until what was written is sent, or the viewer is gone. */
const drained = response => new Promise(done => {
    const go = () => {
        response.off('drain', go).off('close', go);
        done();
    };
    response.on('drain', go).on('close', go);
});

/** Sends parts as they come, and waits where the viewer is slow. */
async function sendParts(response, parts) {
    for await (const bytes of parts) {
        if (response.destroyed) return;
        if (!response.write(bytes)) await drained(response);
    }
    response.end();
}

function sendStream(response, kept) {
    response.writeHead(200, STREAM);
    return sendParts(response, kept.follow());
}

/**
 * Sends what a viewer lacks, once there is something. HTTP/1.0, which knows a cut response by its
 * length alone, gets what there is, and nothing that comes later.
 */
async function sendAnswers(response, { relay }, ask) {
    const parts = relay.follow(...ask.map(BigInt)), { value = '', done } = await parts.next();
    const isWhole = done || response.req.httpVersion === '1.0';
    const length = isWhole ? { 'content-length': value.length } : {};
    response.writeHead(done ? 410 : 200, { ...CACHED, ...length });
    if (isWhole) return response.end(value);
    response.write(value);
    return sendParts(response, parts);
}

async function sendRecording(response, file) {
    const input = createReadStream(file);
    try {
        await once(input, 'open');
    } catch (error) {
        say(`${file}: ${reasonOf(error)}`);
        response.writeHead(404, HEADERS).end();
        return;
    }
    response.writeHead(200, STREAM);
    await pipeline(input, response).catch(() => response.destroy()); // or the viewer is gone
}

/** Only pages of this server read it: another name for 127.0.0.1 isn't answered. */
export async function answer(request, response, source, port) {
    const path = request.url.split('?')[0], name = path === '/' ? 'index.html' : path.slice(1);
    const isOwn = [`127.0.0.1:${port}`, `localhost:${port}`].includes(request.headers.host);
    if (request.method === 'GET' && isOwn) {
        if (FILES.includes(name)) return sendFile(response, name);
        const isRecording = typeof source === 'string', [, ...ask] = ASK.exec(name) ?? [];
        if (name === 'stream') return (isRecording ? sendRecording : sendStream)(response, source);
        if (ask.length && !isRecording) return sendAnswers(response, source, ask);
    }
    response.writeHead(isOwn ? 404 : 403, HEADERS);
    return response.end();
}

/** Answers a request that can't be answered otherwise, as where a repaint is too long. */
function fail(response, error) {
    say(error.message);
    if (response.headersSent) response.destroy();
    else response.writeHead(503, HEADERS).end();
}

export async function serve({ port = PORT, source }) {
    const server = createServer((request, response) => {
        const { port: own } = server.address();
        return answer(request, response, source, own).catch(error => fail(response, error));
    });
    server.listen(port, '127.0.0.1');
    await once(server, 'listening');
    return server;
}

function optionsOf(args) {
    const options = {
        port: { type: 'string' }, record: { type: 'string' }, help: { type: 'boolean', short: 'h' },
    };
    let parsed;
    try {
        parsed = parseArgs({ args, options, allowPositionals: true });
    } catch {
        throw new Refusal(USAGE);
    }
    const { values: { port = String(PORT), record, help }, positionals: [file, ...more] } = parsed;
    if (help) return { help };
    if (!/^\d{1,5}$/.test(port) || port > MOST_PORT) {
        throw new Refusal(`--port ${port}: a port is a number from 0 to ${MOST_PORT}`);
    }
    if (more.length) throw new Refusal(USAGE);
    if (file && record) throw new Refusal('--record keeps the stream of the input, and no file');
    return { port: Number(port), record, file };
}

/** Refuses a file of which nothing can be played. Of a damaged one the beginning is played. */
function checkRecording(file) {
    const { entries, fault } = readRecording(attempt(file, () => readFileSync(file)));
    const client = new Client(), rest = [...entries];
    while (rest.length && !client.answers && !client.fault) client.feed(rest.shift().bytes);
    if (!client.answers) {
        const why = client.end() ?? fault;
        const reason = why ? ` (${why.message})` : ', since it is empty';
        throw new Refusal(`${file}: no recording${reason}`);
    }
    if (fault) say(`${file}: cut or damaged (${fault.message}), and played up to there`);
}

/** What a live stream is recorded by. */
function openRecord(file) {
    const fd = attempt(file, () => openSync(file, 'w'));
    const recorder = createWriteStream(file, { fd });
    recorder.on('error', error => say(`${file}: no longer written (${reasonOf(error)})`));
    return recorder;
}

async function start({ port, record, file }) {
    if (file) checkRecording(file);
    const onfault = fault => console.error(`answer ${fault.answer}: ${fault.message}`);
    const source = file ?? new Kept({ onfault });
    const server = await serve({ port, source }).catch(error => {
        throw new Refusal(`port ${port}: ${reasonOf(error)}`);
    });
    const recorder = record && openRecord(record), mode = file ? '?controls' : '';
    console.error(`http://127.0.0.1:${server.address().port}/${mode}`);
    if (file) return;
    await readStream(process.stdin, source, recorder).catch(error => {
        throw new Refusal(`input: ${reasonOf(error)}`);
    });
}

async function main(args) {
    try {
        const options = optionsOf(args);
        if (options.help) console.log(USAGE);
        else await start(options);
    } catch (error) {
        if (!(error instanceof Refusal)) throw error;
        say(error.message);
        process.exit(2);
    }
}

if (process.argv[1] === fileURLToPath(import.meta.url)) await main(process.argv.slice(2));
