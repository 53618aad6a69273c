// Recordings, their player, and the server that keeps them. Run it by
// `node --test test/recording.mjs`.
import assert from 'node:assert/strict';
import { spawn, spawnSync } from 'node:child_process';
import { once } from 'node:events';
import { mkdtempSync, readFileSync, rmSync, writeFileSync } from 'node:fs';
import { createServer, request } from 'node:http';
import { tmpdir } from 'node:os';
import { join } from 'node:path';
import { createInterface } from 'node:readline';
import test, { after } from 'node:test';
import { fileURLToPath } from 'node:url';
import { encodeEntry, Player, readRecording } from '../recording.mjs';
import { encodeRepaint } from '../repaint.mjs';
import { Kept, serve } from '../serve.mjs';
import { Client } from '../tikeburo.mjs';
import { decode, sequence } from './encode.mjs';
import { randomFrom } from './random.mjs';
import { contentsOf } from './repaints.mjs';
import { randomChanges } from './screens.mjs';
import { allowed } from './work.mjs';

const pathOf = name => fileURLToPath(new URL(name, import.meta.url));
const repaint = (number, text) => sequence([2, 1, 4, 1, 0, number, [[2, text]]]);
const delta = (base, text) => sequence([2, 1, 4, 1, base, base + 1, [[2, text]]]);
const joined = (...parts) => Uint8Array.from(parts.flatMap(part => [...part]));
const stream = [repaint(5, 'a'), delta(5, 'b'), repaint(7, 'c'), delta(7, 'd')];

test('entries are CBOR, in the shortest form', () => {
    for (const time of [0, 23, 24, 255, 256, 65535, 65536, 4294967296, Number.MAX_SAFE_INTEGER]) {
        for (const length of [0, 1, 24, 256, 65536]) {
            const bytes = new Uint8Array(length).fill(7), entry = encodeEntry(time, bytes);
            assert.deepEqual(entry, sequence([time, bytes]));
            assert.deepEqual(decode(entry), [BigInt(time), bytes]);
        }
    }
});

test('a recording is read to its end, or to where it is cut', () => {
    const entries = stream.map((bytes, k) => encodeEntry(1000 * k, bytes));
    const whole = readRecording(joined(...entries));
    assert.deepEqual(whole.entries.map(entry => entry.time), [0, 1000, 2000, 3000]);
    assert.deepEqual(whole.entries.map(entry => entry.bytes), stream);
    assert.equal(whole.fault, null);
    const cut = readRecording(joined(...entries).subarray(0, -1));
    assert.deepEqual(cut.entries, whole.entries.slice(0, 3));
    assert.equal(cut.fault.kind, 'truncated');
    const back = readRecording(joined(entries[2], entries[1]));
    assert.deepEqual(back.entries.map(entry => entry.time), [2000, 2000]);
    assert.deepEqual(readRecording(new Uint8Array(0)), { entries: [], fault: null });
});

test('a stream without times has an answer each tenth of a second', () => {
    const { entries, fault } = readRecording(joined(...stream));
    assert.deepEqual(entries, stream.map((bytes, k) => ({ time: 100 * k, bytes })));
    assert.equal(fault, null);
    const damaged = readRecording(joined(stream[0], [0x87, 3, 0]));
    assert.deepEqual(damaged.entries.map(entry => entry.bytes.length), [stream[0].length, 3]);
    assert.equal(damaged.fault.kind, 'version');
});

test('the player goes to any time', () => {
    const bytes = joined(...stream), cuts = [0, 3, 12, 30, bytes.length];
    const parts = cuts.slice(1).map((end, k) =>
        ({ time: 1000 * k, bytes: bytes.subarray(cuts[k], end) }));
    const screens = [];
    for (const entries of [parts, stream.map((part, k) => ({ time: 1000 * k, bytes: part }))]) {
        const player = new Player(entries);
        const shown = [0, 1, 2, 3].map(second => {
            player.seek(1000 * second);
            return String(player.client.screen);
        });
        for (const second of [0, 3, 2, 1, 3, 0, 2]) {
            player.seek(1000 * second + 1);
            assert.equal(String(player.client.screen), shown[second]);
            assert.equal(player.time, Math.min(1000 * second + 1, 3000));
        }
        player.seek(500);
        player.advance(501);
        assert.equal(String(player.client.screen), shown[1]);
        player.seek(9999);
        assert.ok(player.isOver);
        screens.push(shown);
    }
    assert.equal(screens[1][3], 'viewer 8\n|cd  |\ncursor 2 0\n');
    assert.equal(screens[0][3], screens[1][3]);
});

test('demo.cborseq is what demo.mjs prints, and plays to its end', () => {
    const bytes = readFileSync(pathOf('../demo.cborseq'));
    const { stdout } = spawnSync(process.execPath, [pathOf('demo.mjs')]);
    assert.deepEqual(stdout, bytes);
    const { entries, fault } = readRecording(bytes), player = new Player(entries);
    player.seek(Infinity);
    assert.equal(fault ?? player.client.fault, null);
    assert.equal(player.client.screen.number, BigInt(entries.length));
});

/** Status, headers and body of what a server answers. */
async function get(port, path, headers = {}, method = 'GET') {
    const asked = request({ host: '127.0.0.1', port, path, method, headers });
    asked.end();
    const [response] = await once(asked, 'response'), parts = [];
    for await (const part of response) parts.push(part);
    return [response.statusCode, response.headers, Buffer.concat(parts)];
}

/** What a client shows of a stream. */
function shownBy(...parts) {
    const client = new Client();
    parts.forEach(part => client.feed(part));
    assert.equal(client.end(), null);
    return client.screen;
}

test('the server sends its files, and to who is late a repaint alone', async () => {
    const kept = new Kept(), server = await serve({ port: 0, source: kept });
    const { port } = server.address();
    stream.forEach(answer => kept.put(answer));
    kept.end();
    const [status, headers, body] = await get(port, '/stream');
    assert.equal(status, 200);
    assert.match(headers['content-security-policy'], /^default-src 'none'/);
    assert.deepEqual(Uint8Array.from(body), encodeRepaint(shownBy(...stream)));
    assert.deepEqual(contentsOf(shownBy(body)), contentsOf(shownBy(...stream)));
    const [, , page] = await get(port, '/');
    assert.deepEqual(page, readFileSync(pathOf('../index.html')));
    const wrong = ['/serve.mjs', '/../package.json', '/test/vectors.txt', '/%2e%2e/LICENSE', '//'];
    for (const path of wrong) assert.equal((await get(port, path))[0], 404);
    assert.equal((await get(port, '/', {}, 'POST'))[0], 404);
    assert.equal((await get(port, '/', { host: `example.com:${port}` }))[0], 403);
    server.close();
    server.closeAllConnections();
});

test('viewers who join and wait at any time come to show the same screen', async () => {
    const random = randomFrom(40), kept = new Kept(), client = new Client(), viewers = [];
    let base = 0, sent = 0, size = null;
    for (let number = 1; number <= 200; number++) {
        if (base === 0) size = [1 + random(30), 1 + random(10)];
        const changes = allowed(randomChanges(random, ...size), ...size).slice(0, 5);
        const answer = sequence([2, 9, ...size, base, number, changes]);
        for (let at = 0; at < answer.length; at += 30) kept.put(answer.subarray(at, at + 30));
        client.feed(answer);
        sent += answer.length;
        base = random(20) ? number : 0;
        if (!random(5)) {
            const viewer = { client: new Client(), stream: kept.follow(), bytes: 0 };
            viewer.client.onstale = assert.fail;
            viewers.push(viewer);
        }
        for (const viewer of viewers) {
            if (random(10)) continue; // it is slow
            const { value } = await viewer.stream.next();
            viewer.client.feed(value);
            viewer.bytes += value.length;
            assert.deepEqual(contentsOf(viewer.client.screen), contentsOf(client.screen));
        }
    }
    kept.end();
    assert.ok(viewers.length > 20, viewers.length);
    for (const viewer of viewers) {
        for await (const bytes of viewer.stream) viewer.client.feed(bytes);
        assert.deepEqual(contentsOf(viewer.client.screen), contentsOf(client.screen));
        assert.ok(viewer.bytes < sent, `${viewer.bytes} of ${sent}`);
    }
});

const children = [];
after(() => children.forEach(child => child.kill())); // also where a test failed

/** `serve.mjs` with these words. */
function run(...words) {
    const child = spawn(process.execPath, [pathOf('../serve.mjs'), '--port', '0', ...words]);
    const lines = createInterface({ input: child.stderr })[Symbol.asyncIterator]();
    child.line = async () => (await lines.next()).value;
    children.push(child);
    return child;
}

/** The same, once it has said its address. */
async function start(...words) {
    const child = run(...words);
    child.port = new URL(await child.line()).port;
    return child;
}

async function stop(child) {
    child.kill();
    await once(child, 'exit');
}

test('serve.mjs records its input, and ends at a fault', async () => {
    const folder = mkdtempSync(join(tmpdir(), 'tikeburo-serve-')), file = join(folder, 'kept');
    const child = await start('--record', file);
    child.stdin.end(joined(...stream, [0x86, 2]));
    assert.equal(await child.line(), 'answer 5: type at 0');
    const client = new Client();
    client.feed((await get(child.port, '/stream'))[2]);
    assert.equal(String(client.screen), 'viewer 8\n|cd  |\ncursor 2 0\n');
    await stop(child);
    const { entries } = readRecording(readFileSync(file));
    assert.deepEqual(Buffer.concat(entries.map(entry => entry.bytes)),
        Buffer.from(joined(...stream, [0x86, 2])));
    rmSync(folder, { recursive: true });
});

test('serve.mjs says at once what the fault of a live stream is, and viewers see it', async () => {
    const child = await start();
    child.stdin.write(joined(...stream, [0x86, 2]));
    assert.equal(await child.line(), 'answer 5: type at 0'); // its input is still open
    const client = new Client();
    client.feed((await get(child.port, '/stream'))[2]);
    assert.equal(client.fault.message, 'type at 0');
    assert.equal(String(client.screen), 'viewer 8\n|cd  |\ncursor 2 0\n');
    child.stdin.write(joined(stream[0]));
    const late = new Client();
    late.feed((await get(child.port, '/stream'))[2]);
    assert.equal(String(late.screen), String(client.screen));
    await stop(child);
});

test('serve.mjs says when its input ends within an answer', async () => {
    const child = await start();
    child.stdin.end(stream[0].subarray(0, -1));
    assert.equal(await child.line(), 'answer 1: truncated at 10 in change 0');
    await stop(child);
});

/** Output, error output and status of `serve.mjs` with these words, where it ends. */
function refused(...words) {
    const options = { input: '', encoding: 'utf8', timeout: 60000 };
    const { stdout, stderr, status } = spawnSync(process.execPath,
        [pathOf('../serve.mjs'), ...words], options);
    return [stdout, stderr, status];
}

test("serve.mjs refuses in one line what it can't do", async () => {
    const folder = mkdtempSync(join(tmpdir(), 'tikeburo-serve-'));
    const fileOf = (name, bytes) => {
        writeFileSync(join(folder, name), bytes);
        return join(folder, name);
    };
    const usage = 'usage: serve.mjs [--port N] [--record FILE] [RECORDING]\n';
    for (const words of [['--help'], ['-h'], ['-h', '--port', 'abc', 'missing']]) {
        assert.deepEqual(refused(...words), [usage, '', 0]);
    }
    for (const words of [['--wrong'], ['--port'], ['one', 'two']]) {
        assert.deepEqual(refused(...words), ['', usage, 2]);
    }
    const says = (line, ...words) =>
        assert.deepEqual(refused(...words), ['', `serve.mjs: ${line}\n`, 2]);
    for (const port of ['abc', '', '65536', '8e3', '123456']) {
        says(`--port ${port}: a port is a number from 0 to 65535`, '--port', port);
    }
    says('--port -1: a port is a number from 0 to 65535', '--port=-1');
    const busy = createServer().listen(0, '127.0.0.1');
    await once(busy, 'listening');
    const { port } = busy.address();
    says(`port ${port}: another program listens there`, '--port', String(port));
    busy.close();
    const missing = join(folder, 'missing');
    says(`${missing}: no such file or folder`, missing);
    says(`${folder}: a folder`, folder);
    const empty = fileOf('empty', ''), text = fileOf('text', 'no recording');
    says(`${empty}: no recording, since it is empty`, empty);
    says(`${text}: no recording (type at 0)`, text);
    const cut = fileOf('cut', encodeEntry(0, stream[0]).subarray(0, 9));
    says(`${cut}: no recording (truncated at 2)`, cut);
    const damaged = fileOf('damaged', encodeEntry(0, joined([0x87, 3])));
    says(`${damaged}: no recording (version at 1)`, damaged);
    const half = fileOf('half', encodeEntry(0, stream[0].subarray(0, 9)));
    says(`${half}: no recording (truncated at 9 in change 0)`, half);
    const nowhere = join(folder, 'missing', 'kept');
    assert.match(refused('--port', '0', '--record', nowhere)[1],
        /^serve\.mjs: .*kept: no such file or folder\n$/);
    says('--record keeps the stream of the input, and no file', '--record', missing, text);
    rmSync(folder, { recursive: true });
});

test('a recording that is cut is played up to there, and may go away', async () => {
    const folder = mkdtempSync(join(tmpdir(), 'tikeburo-serve-')), file = join(folder, 'cut');
    writeFileSync(file, joined(encodeEntry(0, stream[0]), [0x82]));
    const child = run(file), { line } = child;
    assert.equal(await line(),
        `serve.mjs: ${file}: cut or damaged (truncated at 16), and played up to there`);
    const { port } = new URL(await line());
    assert.deepEqual((await get(port, '/stream'))[2], readFileSync(file));
    rmSync(folder, { recursive: true });
    assert.equal((await get(port, '/stream'))[0], 404);
    assert.equal(await line(), `serve.mjs: ${file}: no such file or folder`);
    assert.equal((await get(port, '/'))[0], 200);
    await stop(child);
});
