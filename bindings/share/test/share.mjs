// The program `share`, as it is used: `SHARE=PROGRAM node --test share.mjs`. It runs in a window of
// `script`, whose size is set by `stty`.
import assert from 'node:assert/strict';
import { spawn } from 'node:child_process';
import { once } from 'node:events';
import { readFileSync } from 'node:fs';
import { connect } from 'node:net';
import { join } from 'node:path';
import test, { after, before } from 'node:test';
import { Chromium, findChromium } from '../../js/test/chromium.mjs';
import { randomFrom } from '../../js/test/random.mjs';
import { Player, readRecording } from '../../js/recording.mjs';
import { Client, styleOf } from '../../js/tikeburo.mjs';
import { contentsOf, follow } from './follow.mjs';
import { here, makeFolder, removeFolder, Shared, until } from './shared.mjs';

const CLIENTS = 200;
const folder = makeFolder(), record = join(folder, 'record');
const program = findChromium();
const painter = ['--', process.execPath, here('painter.mjs')];
const shared = Shared.inWindow(folder, ['--record', record, ...painter]);
const early = new Client(), streamed = new Client();
let stream = null, browser = null, page = null, stopped = null;
let requests = 0; // of the page, since it is hidden

/** Another process that follows, and what it prints at the end. */
function followElsewhere() {
    const follower = spawn(process.execPath, [here('follow.mjs'), shared.stream]);
    Object.assign(follower, { errors: '', output: '' });
    follower.stderr.on('data', data => follower.errors += data);
    follower.stdout.on('data', data => follower.output += data);
    follower.last = once(follower, 'close').then(() => JSON.parse(follower.output));
    return follower;
}

/** The stream of a `GET`, whose answers nobody asks for. */
async function followStream() {
    const response = await fetch(shared.stream);
    for await (const chunk of response.body) streamed.feed(chunk);
    assert.equal(streamed.end(), null);
}

/** Whether a client has all that the painter paints in this size. */
const hasSize = (width, height) => ({ screen }) => screen.title === `${width} by ${height}`
    && screen.height === height && screen.text(height - 1).startsWith('か');

before(async () => {
    await shared.start();
    await until(() => shared.output.includes('Press Enter'), 'what to press');
    shared.press('\r');
    if (program) browser = new Chromium(program);
});
after(async () => {
    await browser?.close();
    shared.process.kill();
    removeFolder(folder);
});

// What a terminal of 50 columns and 14 rows shows of what the painter writes.
const ROWS = [
    'size 50 14',
    'bold red wave palette',
    'か漢字 and ﾊﾝ, wide',
    '🙂👩‍🚀🇩🇪 e\u0301 ☂️|',
    '',
    'a link ┌─┐',
    'line in  42',
    '',
    '',
    'ne 43',
    'line 44',
    'line 45',
    `line 46${' '.repeat(39)}wrap`,
    'かne 47',
];
const attributesAt = (screen, column, y) =>
    [...screen.cells(y)].find(([x]) => x === column)[1].attributes;

function judge(screen) {
    assert.deepEqual(ROWS.map((_, y) => screen.text(y).trimEnd()), ROWS);
    assert.deepEqual([screen.width, screen.height, screen.title], [50, 14, '50 by 14']);
    assert.deepEqual(screen.cursor, { x: 4, y: 1, visible: true, shape: 5, color: null });
    const red = attributesAt(screen, 0, 1), wave = attributesAt(screen, 9, 1);
    assert.deepEqual([red.foreground, styleOf(red.style).intensity], [1, 1]);
    assert.deepEqual([wave.underlineColor, styleOf(wave.style).underline], [[1, 2, 3], 3]);
    const palette = attributesAt(screen, 14, 1);
    assert.deepEqual([palette.foreground, styleOf(palette.style).reverse], [200, true]);
    assert.deepEqual(attributesAt(screen, 49, 4).background, [10, 20, 30]);
    assert.equal(attributesAt(screen, 0, 5).link.uri, 'https://example.org/');
    const columns = Array.from(screen.cells(3)).slice(0, 8).map(([, cell]) => cell.columns);
    assert.deepEqual(columns, [2, 2, 2, 1, 1, 1, 2, 1]);
}

test('colours, wide texts and emoji, in three sizes', { timeout: 20000 }, async () => {
    stream = followStream();
    await follow(early, shared.stream, hasSize(80, 24));
    stopped = followElsewhere();
    page = await browser?.open(shared.address + '?pull', 900, 600);
    shared.resize(100, 30);
    await follow(early, shared.stream, hasSize(100, 30));
    await until(() => stopped.errors.includes('size 100 30'), 'another size');
    stopped.kill('SIGSTOP');
    shared.resize(50, 14);
    await follow(early, shared.stream, hasSize(50, 14));
    judge(early.screen);
});

const statusOf = response => Number(/^HTTP\/1.1 (\d+) /.exec(response)?.[1]);

test('what others send changes nothing', { timeout: 20000 }, async () => {
    const { pathname, host } = new URL(shared.stream), random = randomFrom(58);
    const bytes = Buffer.from(Array.from({ length: 1 << 17 }, () => random(256)));
    const noise = length => bytes.subarray(random(1 << 16)).subarray(0, length);
    const wrong = pathname.replace(/[0-9a-f]/, digit => (digit === '0' ? '1' : '0'));
    const statuses = async (wanted, ...parts) =>
        assert.equal(statusOf(await shared.send(10000, ...parts)), wanted, `${parts[0]}`);
    const get = (path, name = host) => `GET ${path} HTTP/1.1\r\nhost: ${name}\r\n\r\n`;
    const post = length => shared.head('POST', 'stream', `content-length: ${length}\r\n`);
    await Promise.all([
        statuses(404, get('/')),
        statuses(404, get('/stream')),
        statuses(404, get(wrong)),
        statuses(404, get(`${wrong}/0/0`)),
        statuses(404, get(`${pathname.slice(0, -8)}/stream`)),
        statuses(404, get(`${pathname}/../../etc/passwd`)),
        statuses(404, get(`${pathname}/0/00`)),
        statuses(421, get(`${pathname}/0/0`, 'a.example')),
        statuses(405, post(4), new Client().ask()),
        statuses(405, shared.head('PUT', 'stream')),
        statuses(400, 'a line and no more\r\n\r\n'),
        statuses(431, `GET ${pathname} HTTP/1.1\r\na: `, 'b'.repeat(9000)),
        ...Array.from({ length: 50 }, () => shared.send(1000, noise(1 + random(5000)))),
        ...Array.from({ length: 50 }, () => shared.send(1000, post(1 << 20), noise(1 << 16))),
        ...Array.from({ length: 50 }, () => shared.send(1000, post(20))),
        ...Array.from({ length: 50 }, async () => connect(shared.port, '127.0.0.1').destroy()),
    ]);
    const late = new Client();
    await follow(late, shared.stream, hasSize(50, 14));
    assert.deepEqual(contentsOf(late.screen), contentsOf(early.screen));
});

/** Lets the page sleep behind another one, and counts what it asks from now on. */
async function hidePage() {
    await browser.send('Target.createTarget', { url: 'about:blank' });
    await page.until("document.visibilityState === 'hidden'");
    await page.send('Network.enable');
    browser.on('Network.requestWillBeSent', () => requests++);
}

const isLast = ({ screen }) => screen.text(0).includes('frame 100');

test(`${CLIENTS} clients at once`, { timeout: 30000 }, async () => {
    if (page) await hidePage();
    const clients = Array.from({ length: CLIENTS }, () => new Client());
    const ends = clients.map(client => follow(client, shared.stream, isLast));
    await until(() => clients.every(({ answers }) => answers > 0), 'a first answer for each');
    const began = performance.now();
    shared.press('r');
    const times = await Promise.all(ends.map(end => end.then(() => performance.now() - began)));
    const answers = clients.map(client => client.answers).sort((a, b) => a - b);
    console.log(`${CLIENTS} clients: ${answers[0]} to ${answers.at(-1)} answers each, the last `
        + `after ${Math.round(Math.max(...times))} ms`);
    await follow(early, shared.stream, isLast);
    const last = JSON.stringify(contentsOf(early.screen));
    for (const { screen } of clients) assert.equal(JSON.stringify(contentsOf(screen)), last);
    assert.ok(shared.threads <= 8, `${shared.threads} threads`);
});

const skip = !program && "Chromium isn't there";
test('a page that slept shows the screen', { skip }, async () => {
    assert.ok(requests <= 1, `${requests} requests while it slept`);
    await page.send('Page.bringToFront');
    const element = "document.querySelector('tikeburo-screen')";
    await page.until(`${element}.screen.text(0).includes('frame 100')`);
    const rows = `[...${element}.shadowRoot.querySelectorAll('.row')].map(e => e.textContent)`;
    await page.until(`${rows}[0].includes('frame 100')`);
    const { screen } = early;
    assert.deepEqual(await page.evaluate(rows), screen.rows.map((_, y) => screen.text(y)));
    assert.equal(await page.evaluate('document.title'), screen.title);
});

test('all show the last screen at the end', { timeout: 20000 }, async () => {
    const late = followElsewhere();
    stopped.kill('SIGCONT');
    for (const follower of [late, stopped]) {
        await until(() => follower.errors.includes('frame 100'), 'the last frame');
    }
    shared.press('q');
    const end = await follow(early, shared.stream);
    assert.deepEqual(end, { state: 'ended', exit: 7 });
    const last = JSON.parse(JSON.stringify(contentsOf(early.screen)));
    assert.deepEqual(await late.last, last);
    assert.deepEqual(await stopped.last, last);
    await stream;
    assert.deepEqual(JSON.parse(JSON.stringify(contentsOf(streamed.screen))), last);
    assert.deepEqual(await shared.ended, [7, null]);
    const { entries, fault } = readRecording(readFileSync(record));
    assert.equal(fault, null);
    const player = new Player(entries);
    player.seek(player.duration);
    assert.deepEqual(JSON.parse(JSON.stringify(contentsOf(player.client.screen))), last);
    if (page) {
        await page.until("document.querySelector('tikeburo-screen').state === 'ended'");
    }
});
