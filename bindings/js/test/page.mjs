// The page in a browser: its cells, as they are in the document and in a screenshot, are those of
// the client's screen. Run it by `node --test test/page.mjs`; `SHOTS=FOLDER` keeps screenshots.
import assert from 'node:assert/strict';
import { once } from 'node:events';
import { readFileSync, writeFileSync } from 'node:fs';
import { createServer } from 'node:http';
import { join } from 'node:path';
import test, { after, before } from 'node:test';
import { fileURLToPath } from 'node:url';
import { Player, readRecording } from '../recording.mjs';
import { answer, Kept, serve } from '../serve.mjs';
import { Client } from '../tikeburo.mjs';
import { ELEMENT, judgeCells, judgePixels, ROOT } from './cells.mjs';
import { Chromium, findChromium } from './chromium.mjs';
import { sequence } from './encode.mjs';
import { randomFrom } from './random.mjs';
import { randomChanges } from './screens.mjs';
import { allowed } from './work.mjs';

const demo = fileURLToPath(new URL('../demo.cborseq', import.meta.url));
const program = findChromium(), skip = program ? false : 'chromium is not there';
const servers = [];
let browser = null;

before(() => {
    if (program) browser = new Chromium(program);
});
after(async () => {
    await browser?.close();
    for (const server of servers) {
        server.close();
        server.closeAllConnections();
    }
});

async function open(source, query = '', width = 1000, height = 640) {
    const server = await serve({ port: 0, source });
    servers.push(server);
    const address = `http://127.0.0.1:${server.address().port}/${query}`;
    const page = await browser.open(address, width, height);
    await page.until(`customElements.get('tikeburo-screen') && ${ELEMENT}.screen.width`);
    return page;
}

const numberIs = number => `${ELEMENT}.screen.number === ${number}n && ${ELEMENT}.state === 'live'`;
const pause = milliseconds => new Promise(done => setTimeout(done, milliseconds));
const drawn = page => page.evaluate(
    'new Promise(done => requestAnimationFrame(() => requestAnimationFrame(done)))');

test('30 random screens, in the document and in screenshots', { skip }, async () => {
    const random = randomFrom(30), kept = new Kept(), client = new Client();
    let page = null, base = 0, size = null, pixels = 0;
    for (let number = 1; number <= 30; number++) {
        if (base === 0) size = [1 + random(60), 1 + random(20)];
        const changes = allowed(randomChanges(random, ...size), ...size);
        const answer = sequence([2, 9, ...size, base, number, changes]);
        kept.put(answer);
        client.feed(answer);
        assert.equal(client.fault, null);
        page ??= await open(kept);
        await page.until(numberIs(number));
        await drawn(page);
        await judgeCells(page, client.screen);
        pixels += await judgePixels(page, client.screen);
        base = random(3) ? number : 0;
    }
    assert.ok(pixels > 100, `${pixels} pixels`);
    const names = await page.evaluate(
        `[...new Set([...${ROOT}.querySelectorAll('[part=grid] *')].map(e => e.localName))]`);
    assert.deepEqual(names.filter(name => !['div', 'span', 'a'].includes(name)), []);
});

/**
 * Has `takeSteps()` in the page say how often a row's cells were read since it was called last, and
 * how many rows were drawn, or put elsewhere.
 */
const countSteps = page => page.evaluate(`(async () => {
    const { Screen } = await import(new URL('tikeburo.mjs', location));
    const { cells } = Screen.prototype, isRow = node => node.classList?.contains('row');
    let read = 0, seen = [];
    Screen.prototype.cells = function count(y) {
        read++;
        return cells.call(this, y);
    };
    const observer = new MutationObserver(records => seen.push(...records));
    observer.observe(${ROOT}.querySelector('[part=grid]'), { childList: true, subtree: true });
    globalThis.takeSteps = () => {
        const all = [...seen, ...observer.takeRecords()];
        const records = all.filter(({ addedNodes }) => addedNodes.length);
        const drawn = records.filter(({ target }) => isRow(target.parentNode)).length;
        const moved = records.filter(({ addedNodes }) => isRow(addedNodes[0])).length;
        const steps = { read, drawn, moved };
        read = 0;
        seen = [];
        return steps;
    };
})()`);

test('a drawing reads and draws the rows that changed alone', { skip }, async () => {
    const height = 200, kept = new Kept(), client = new Client();
    let number = 0;
    const put = (...changes) => {
        const answer = sequence([2, 9, 40, height, number, ++number, changes]);
        kept.put(answer);
        client.feed(answer);
        assert.equal(client.fault, null);
    };
    put([2, Array.from({ length: height - 50 }, (_, y) => `row ${y}`).join('\r\n')]);
    const page = await open(kept);
    await page.until(numberIs(1));
    await drawn(page);
    await countSteps(page);
    const stepsOf = async (...changes) => {
        put(...changes);
        await page.evaluate(`new Promise(done => {
            const see = () => ${ELEMENT}.screen.number === ${number}n && done();
            ${ELEMENT}.addEventListener('screen', see);
            see();
        })`);
        await drawn(page);
        const { read, drawn: rows, moved } = await page.evaluate('takeSteps()');
        await judgeCells(page, client.screen);
        await page.evaluate('takeSteps()');
        return [read, rows, moved];
    };
    const to = y => [6, [1, 0], [1, y]], clear = [1, [0, null, null, null, null]];
    // Rows that are read, drawn and put elsewhere. The one that the cursor is in is read once more.
    // Blank rows are one object, and any element of theirs is put where one comes to stand.
    assert.deepEqual(await stepsOf([12, 'a title']), [1, 0, 0]);
    assert.deepEqual(await stepsOf(to(7), [2, 'x']), [2, 1, 0]);
    assert.deepEqual(await stepsOf(to(7), [2, 'x']), [2, 0, 0]); // it is as it was
    assert.deepEqual(await stepsOf(to(190), clear, [2, 'in a blank row']), [2, 1, 0]);
    assert.deepEqual(await stepsOf([10, 0, height, 1]), [2, 1, 2]);
    assert.deepEqual(await stepsOf([11, 50, 100, 3]), [3, 2, 3]);
    assert.deepEqual(await stepsOf(to(199), [2, 'one\r\ntwo\r\nthree']), [4, 3, 8]);
    assert.deepEqual(await stepsOf(to(20), [13, 2], [6, [1, 3], [1, 20]], [4, 5]), [2, 1, 0]);
});

test('the demo is played, there and back', { skip }, async () => {
    const page = await open(demo, '?controls&speed=8');
    const { entries } = readRecording(readFileSync(demo)), player = new Player(entries);
    assert.equal(await page.evaluate(`${ELEMENT}.player.duration`), player.duration);
    await page.until(`${ELEMENT}.player.time > 500`);
    await page.evaluate(`${ELEMENT}.pause()`);
    for (const time of [player.duration, 0, 3000, 1200, 4000, player.duration]) {
        await page.evaluate(`${ELEMENT}.seek(${time})`);
        await drawn(page);
        player.seek(time);
        await judgeCells(page, player.client.screen);
    }
    await page.evaluate(`${ELEMENT}.play()`); // from the end it begins anew
    await page.until(`${ELEMENT}.player.time < ${player.duration}`);
    await page.until(`${ELEMENT}.player.isOver`);
});

const repaint = (number, ...changes) => sequence([2, 9, 20, 4, 0, number, changes]);
const shownText = page => page.evaluate(
    `[...${ROOT}.querySelectorAll('.row')].map(row => row.textContent.trimEnd()).join('|')`);

test('links open on a click alone, and https alone', { skip }, async () => {
    const kept = new Kept(), links = ['https://a.invalid/', 'javascript:document.title=1'];
    kept.put(repaint(1, ...links.flatMap((uri, y) =>
        [[6, [1, 0], [1, y]], [1, [0, null, null, null, [uri, false, []]]], [2, 'a link']])));
    const page = await open(kept), opened = [];
    await browser.send('Target.setDiscoverTargets', { discover: true });
    browser.on('Target.targetCreated', ({ targetInfo }) => opened.push(targetInfo.openerId));
    await drawn(page);
    const places = await page.evaluate(`[...${ROOT}.querySelectorAll('[title]')].map(e => {
        const { left, top } = e.getBoundingClientRect();
        return [e.localName, e.rel ?? '', e.title, left + 5, top + 5];
    })`);
    assert.deepEqual(places.map(place => place.slice(0, 3)), [
        ['a', 'noopener noreferrer nofollow', links[0]], ['span', '', `not opened: ${links[1]}`],
    ]);
    opened.length = 0;
    await page.click(places[1][3], places[1][4]);
    await pause(200);
    assert.equal(opened.length, 0);
    await page.click(places[0][3], places[0][4]);
    for (let left = 100; left && !opened.length; left--) {
        await pause(50);
    }
    assert.equal(opened.length, 1);
});

test('what is copied is the text without blanks behind it', { skip }, async () => {
    const kept = new Kept();
    kept.put(repaint(1, [2, 'か and <b>\r\n  two', [1, 1, 2, 8, 1, 1, 1, 2, 0, 5, 1, 1]]));
    const page = await open(kept);
    await drawn(page);
    const copied = await page.evaluate(`new Promise(done => {
        document.addEventListener('copy', event => done(event.clipboardData.getData('text/plain')));
        const grid = ${ROOT}.querySelector('[part=grid]');
        getSelection().setBaseAndExtent(grid.children[0], 0, grid.children[2], 0);
        document.execCommand('copy');
    })`);
    assert.equal(copied.trimEnd(), 'か and <b>\n  two');
});

test('the screen fits the window, in dark and in light', { skip }, async () => {
    const kept = new Kept();
    kept.put(repaint(1, [2, 'text']));
    const page = await open(kept);
    const size = async (...window) => {
        await page.resize(...window);
        await drawn(page);
        await drawn(page);
        return page.evaluate(`(() => {
            const grid = ${ROOT}.querySelector('[part=grid]').getBoundingClientRect();
            const view = ${ROOT}.querySelector('[part=view]').getBoundingClientRect();
            const isWithin = grid.width <= view.width && grid.height <= view.height;
            return [grid.width, grid.height, isWithin];
        })()`);
    };
    const great = await size(1000, 640), small = await size(300, 400, 2);
    assert.ok(great[2] && small[2]);
    assert.ok(great[0] > 500 && small[0] < 300 && small[0] > 200, `${great} ${small}`);
    const hasBack = async (look, color) => {
        await page.until(`document.documentElement.dataset.look === '${look}'`); // as the page has
        await page.until(`getComputedStyle(${ELEMENT}).backgroundColor === '${color}'`);
    };
    await page.evaluate(`${ELEMENT}.removeAttribute('look')`);
    await page.prefer({ 'prefers-color-scheme': 'light' });
    await hasBack('light', 'rgb(253, 253, 251)');
    await page.prefer({ 'prefers-color-scheme': 'dark' });
    await hasBack('dark', 'rgb(16, 20, 27)');
    await page.evaluate(`${ELEMENT}.setAttribute('look', 'light')`);
    await hasBack('dark', 'rgb(253, 253, 251)');
});

test("the page and its texts take the system's look whenever that changes", { skip }, async () => {
    const kept = new Kept(), client = new Client();
    const texts = Array.from({ length: 17 }, (_, n) => [1, [0, n < 16 ? n : null, 4, null, null]]);
    const answer = repaint(1, ...texts.flatMap(pen => [pen, [2, 'x']]));
    kept.put(answer);
    client.feed(answer);
    const page = await open(kept);
    const judge = async (look, back) => {
        await page.until(`document.documentElement.dataset.look === '${look}'`);
        await drawn(page);
        assert.equal(await page.evaluate(`getComputedStyle(${ELEMENT}).backgroundColor`), back);
        await judgeCells(page, client.screen);
    };
    const dark = ['dark', 'rgb(16, 20, 27)'], light = ['light', 'rgb(253, 253, 251)'];
    for (const look of [light, dark, light, dark]) {
        await page.prefer({ 'prefers-color-scheme': look[0] });
        await judge(...look);
    }
    await page.clickOn("document.getElementById('look')");
    await judge(...light);
    await page.prefer({ 'prefers-color-scheme': 'light' });
    await judge(...light);
    await page.prefer({ 'prefers-color-scheme': 'dark' });
    await judge(...dark);
    await page.evaluate(`${ELEMENT}.removeAttribute('look')`); // an element of a page of one's own
    for (const look of [light, dark]) {
        await page.prefer({ 'prefers-color-scheme': look[0] });
        await judge(...look);
    }
});

const FONT = `parseFloat(getComputedStyle(${ROOT}.querySelector('[part=grid]')).fontSize)`;

test('keys and buttons zoom, and the session keeps how far', { skip }, async () => {
    const kept = new Kept();
    kept.put(repaint(1, [2, 'text']));
    const page = await open(kept), button = name => `document.getElementById('${name}')`;
    const isNear = async (times, first) => {
        await drawn(page);
        await drawn(page);
        const font = await page.evaluate(FONT);
        assert.ok(Math.abs(font / first - times) < 0.1 * times, `${font} is ${times} of ${first}`);
        assert.equal(await page.evaluate(`${button('zoom')}.textContent`), `${100 * times} %`);
    };
    await drawn(page);
    const first = await page.evaluate(FONT);
    await isNear(1, first);
    for (const [key, times] of [['+', 1.25], ['=', 1.5], ['-', 1.25], ['0', 1], ['-', 0.75]]) {
        await page.press(key);
        await isNear(times, first);
    }
    const clicks = [['zoom', 1], ['larger', 1.25], ['larger', 1.5], ['smaller', 1.25]];
    for (const [name, times] of clicks) {
        await page.clickOn(button(name));
        await isNear(times, first);
    }
    await page.send('Page.reload');
    await page.until(`${ELEMENT}?.zoom === 1.25 && ${ELEMENT}.screen.width`);
    await isNear(1.25, first);
    for (let k = 0; k < 9; k++) await page.press('+');
    await isNear(4, first);
    assert.equal(await page.evaluate(`${button('larger')}.disabled`), true);
    const isScrolled = `(() => {
        const view = ${ROOT}.querySelector('[part=view]');
        return view.scrollWidth > view.clientWidth;
    })()`;
    assert.ok(await page.evaluate(isScrolled));
    assert.equal(await (await open(kept)).evaluate(`${ELEMENT}.zoom`), 1); // another session
});

test('on a phone wide rows are scrolled, by a font that can be read', { skip }, async () => {
    const kept = new Kept(), width = 120, height = 30;
    kept.put(sequence([2, 9, width, height, 0, 1, [[2, 'x'.repeat(width * height)]]]));
    const page = await open(kept, '', 360, 640);
    const sizes = async (...window) => {
        await page.resize(...window);
        await drawn(page);
        await drawn(page);
        return page.evaluate(`(() => {
            const view = ${ROOT}.querySelector('[part=view]'), grid = view.firstChild;
            view.scrollLeft = 0;
            const box = view.getBoundingClientRect(), begin = grid.getBoundingClientRect().left;
            view.scrollLeft = 1e6;
            const end = grid.getBoundingClientRect().right;
            return { font: ${FONT}, begins: begin >= box.left - 1, ends: end <= box.right + 1,
                scrolls: view.scrollWidth > view.clientWidth,
                page: document.documentElement.scrollWidth };
        })()`);
    };
    for (const [size, dots] of [[[320, 568], 2], [[360, 640], 3], [[412, 915], 2.625]]) {
        for (const zoom of [1, 0.5]) {
            await page.evaluate(`${ELEMENT}.setAttribute('zoom', ${zoom})`);
            const { font, ...rest } = await sizes(...size, dots);
            assert.ok(font >= 11 && font < 13, `${font} on ${size}`);
            assert.deepEqual(rest, { begins: true, ends: true, scrolls: true, page: size[0] });
        }
        await page.evaluate(`${ELEMENT}.setAttribute('zoom', 1.5)`); // of what can be read
        const { font } = await sizes(...size, dots);
        assert.ok(font >= 16 && font < 18, `${font} on ${size}`);
    }
    await page.evaluate(`${ELEMENT}.setAttribute('zoom', 1)`);
    await page.evaluate(`${ELEMENT}.setAttribute('fit', 'width')`);
    assert.ok((await sizes(360, 640)).font >= 11);
    await page.evaluate(`${ELEMENT}.style.fontSize = '8px'`); // the page asks for it
    const { font, scrolls } = await sizes(370, 640);
    assert.ok(font >= 8 && font < 10 && scrolls, font);
    await page.evaluate(`${ELEMENT}.style.fontSize = ''`);
    assert.equal((await sizes(1400, 900)).scrolls, false);
});

test('who has stopped is said in words', { skip }, async () => {
    const says = async (page, state, message) => {
        await page.until(`${ELEMENT}.state === '${state}' && ${ELEMENT}.message === ${
            JSON.stringify(message)}`);
        const shown = `${ROOT}.querySelector('[part=status]:not([hidden])').textContent`;
        assert.equal(await page.evaluate(shown), message);
    };
    const kept = new Kept();
    kept.put(repaint(1, [2, 'it stays']));
    let page = await open(kept);
    kept.end();
    await says(page, 'ended', 'the program has ended');
    await says(await open(kept), 'ended', 'the program has ended'); // to who comes later too
    const other = new Kept();
    other.put(repaint(1, [2, 'it stays']));
    page = await open(other);
    await page.evaluate(`globalThis.said = []; ${ELEMENT}.addEventListener('state',
        () => said.push(${ELEMENT}.message))`);
    servers.at(-1).close();
    servers.at(-1).closeAllConnections();
    await says(page, 'lost', "the server doesn't answer: it has stopped, or can't be reached");
    assert.equal(await page.evaluate('said[0]'),
        'the connection is lost: the server has stopped, or the way to it is cut');
    assert.equal(await shownText(page), 'it stays|||');
    page = await open(kept);
    await page.evaluate(`${ELEMENT}.setAttribute('src', 'nowhere')`);
    await says(page, 'gone', 'the server has no such screen, or no longer');
    await page.send('Network.enable');
    await page.send('Network.emulateNetworkConditions',
        { offline: true, latency: 0, downloadThroughput: -1, uploadThroughput: -1 });
    await page.evaluate(`${ELEMENT}.setAttribute('src', 'stream')`);
    await says(page, 'lost', 'this device has no connection');
});

test('blinks, and none where less motion is preferred', { skip }, async () => {
    const kept = new Kept();
    kept.put(repaint(1, [1, [1 << 5, null, null, null, null]], [2, 'slow'], [8, 1]));
    const page = await open(kept);
    await drawn(page);
    const names = `['.slow', '.cursor'].map(name =>
        getComputedStyle(${ROOT}.querySelector(name)).animationName).join()`;
    assert.equal(await page.evaluate(names), 'blink,vanish');
    await page.prefer({ 'prefers-reduced-motion': 'reduce' });
    assert.equal(await page.evaluate(names), 'none,none');
});

test('the cursor has its place, its shape and its colour', { skip }, async () => {
    const kept = new Kept();
    const found = async (page, number, ...changes) => {
        kept.put(repaint(number, ...changes));
        page ??= await open(kept);
        await page.until(numberIs(number));
        await drawn(page);
        return [page, await page.evaluate(`(() => {
            const cursor = ${ROOT}.querySelector('.cursor'), style = getComputedStyle(cursor);
            const box = cursor.getBoundingClientRect();
            const grid = ${ROOT}.querySelector('[part=grid]').getBoundingClientRect();
            const cell = grid.width / 20, row = grid.height / 4;
            return [Math.round((box.left - grid.left) / cell),
                Math.round((box.top - grid.top) / row), Math.round(box.width / cell),
                style.display, style.backgroundColor, style.borderBottomWidth,
                style.borderLeftWidth];
        })()`)];
    };
    const red = [7, [255, 0, 0]], wide = [2, 'abか', [2, 1, 1, 1, 1, 2]];
    const none = 'rgba(0, 0, 0, 0)', places = [];
    let [page, place] = await found(null, 1, red, wide, [8, 2], [6, [1, 3], [1, 0]]);
    places.push(place);
    [page, place] = await found(page, 2, red, [8, 3], [6, [1, 20], [1, 2]]);
    places.push(place);
    [page, place] = await found(page, 3, [8, 6], [6, [1, 1], [1, 1]], [13, 2]);
    places.push(place);
    [page, place] = await found(page, 4, [9, false]);
    assert.deepEqual(places, [
        [2, 0, 2, 'block', 'rgb(255, 0, 0)', '0px', '0px'],
        [19, 2, 1, 'block', none, '2px', '0px'], [2, 1, 2, 'block', none, '0px', '2px'],
    ]);
    assert.equal(place[3], 'none');
});

test('who joins late waits for a repaint', { skip }, async () => {
    const kept = new Kept(), server = await serve({ port: 0, source: kept });
    servers.push(server);
    kept.put(sequence([2, 9, 20, 4, 3, 4, [[2, 'lost']]]));
    const page = await browser.open(`http://127.0.0.1:${server.address().port}/`, 800, 600);
    await page.until(`${ELEMENT}?.message === 'waiting for a repaint'`);
    kept.put(repaint(5, [2, 'shown']));
    await page.until(`${numberIs(5)} && ${ELEMENT}.message === ''`);
    await drawn(page);
    assert.equal(await shownText(page), 'shown|||');
});

test('a damaged stream: the screen stays, and the place is shown', { skip }, async () => {
    const kept = new Kept();
    kept.put(repaint(1, [2, 'it stays']));
    const page = await open(kept);
    await page.until(numberIs(1));
    kept.put(Uint8Array.from([0x87, 2, 0]));
    await page.until(`${ELEMENT}.message.startsWith('answer 2: range at 2')`);
    assert.match(await page.evaluate(`${ELEMENT}.message`), /what the program sends is damaged$/);
    assert.equal(await shownText(page), 'it stays|||');
});

/** A source that holds each ask until `put` has what to answer: bytes, or a status and headers. */
class Asked {
    asks = [];
    #answers = [];
    #waiting = [];

    async start() {
        const server = createServer((request, response) => {
            const [, ask] = /^\/stream\/(.*)$/.exec(request.url) ?? [];
            if (!ask) return answer(request, response, null, server.address().port);
            this.asks.push(ask);
            this.#waiting.push(response);
            const { method, headers } = request;
            this.last = [method, headers['cache-control'], headers.pragma];
            return this.#match();
        });
        servers.push(server);
        server.listen(0, '127.0.0.1');
        await once(server, 'listening');
        return `http://127.0.0.1:${server.address().port}/?pull`;
    }

    put(next, headers = {}) {
        this.#answers.push([next, headers]);
        this.#match();
    }

    /** Waits until this many asks have come. */
    async until(count) {
        while (this.asks.length < count) await pause(10);
    }

    #match() {
        while (this.#answers.length && this.#waiting.length) {
            const [next, headers] = this.#answers.shift(), response = this.#waiting.shift();
            // A 410 that doesn't say how long it holds is kept by a browser for ever.
            headers['cache-control'] ??= 'no-store';
            response.writeHead(typeof next === 'number' ? next : 200, headers);
            response.end(typeof next === 'number' ? '' : next);
        }
    }
}

const says = (page, state, message) => page.until(
    `${ELEMENT}.state === '${state}' && ${ELEMENT}.message === ${JSON.stringify(message)}`);

test('a source that takes asks', { skip }, async () => {
    const source = new Asked(), page = await browser.open(await source.start(), 800, 600);
    const next = (base, text) => sequence([2, 9, 20, 4, base, base + 1, [[2, text]]]);
    source.put(repaint(5, [12, 'a program'], [2, 'one']));
    await page.until(`customElements.get('tikeburo-screen') && ${numberIs(5)}`);
    await page.until("document.title === 'a program'");
    source.put(next(5, ' two'));
    source.put(503);
    await says(page, 'connecting', 'the server sends no screen, but the status 503');
    source.put(next(6, ' three'));
    await page.until(numberIs(7));
    assert.deepEqual(source.last, ['GET', undefined, undefined]);
    source.put(Uint8Array.from([0x87, 2, 0]));
    await page.until(`/what the program sends is damaged$/.test(${ELEMENT}.message)`);
    source.put(repaint(9, [2, 'one two three four']));
    await page.until(numberIs(9));
    source.put(Uint8Array.from([0x87, 3]));
    await page.until(`${ELEMENT}.state === 'lost'`);
    assert.match(await page.evaluate(`${ELEMENT}.message`), /: the program sends another form$/);
    await drawn(page);
    assert.equal(await shownText(page), 'one two three four|||');
    assert.deepEqual(source.asks, ['0/0', '9/5', '9/6', '9/6', '9/7', '0/0', '9/9']);
});

test('a source that takes asks says how it ends', { skip }, async () => {
    const source = new Asked(), page = await browser.open(await source.start(), 800, 600);
    const begin = (...end) => {
        source.put(repaint(1, [2, 'it stays']));
        source.put(...end);
    };
    begin(410, { 'exit-status': '3' });
    await page.until(`customElements.get('tikeburo-screen')`);
    await says(page, 'ended', 'the program has ended, with status 3');
    const ends = [
        [[410, { 'exit-status': '0' }], 'ended', 'the program has ended'],
        [[410, { 'exit-status': '<b>' }], 'ended', 'the program has ended'],
        [[410], 'ended', 'the program has ended'],
        [[404], 'gone', 'the server has no such screen, or no longer'],
    ];
    for (const [end, state, message] of ends) {
        begin(...end);
        await page.evaluate(`${ELEMENT}.setAttribute('src', 'stream/')`);
        await says(page, state, message);
        await drawn(page);
        assert.equal(await shownText(page), 'it stays|||');
    }
    await pause(500);
    assert.deepEqual(source.asks, Array(5).fill(['0/0', '9/1']).flat()); // and nothing more
});

test("a page that isn't seen asks for nothing", { skip }, async () => {
    const source = new Asked(), page = await browser.open(await source.start(), 800, 600);
    source.put(repaint(1, [2, 'one']));
    await page.until(`customElements.get('tikeburo-screen') && ${numberIs(1)}`);
    await source.until(2);
    await browser.send('Target.createTarget', { url: 'about:blank' });
    await page.until("document.visibilityState === 'hidden'");
    source.put(repaint(2, [2, 'two'])); // to what was asked before
    await pause(500);
    assert.deepEqual(source.asks, ['0/0', '9/1']);
    await page.send('Page.bringToFront');
    source.put(repaint(7, [2, 'seven']));
    await page.until(numberIs(7));
    assert.deepEqual(source.asks.slice(0, 3), ['0/0', '9/1', '9/2']);
});

/** The address of a page of one's own, without a policy, that shows what is at another one. */
async function ownPage(src) {
    const text = '<!doctype html><script type="module" src="element.mjs"></script>'
        + `<tikeburo-screen pull src="${src}"></tikeburo-screen>`;
    const server = createServer((request, response) => {
        if (request.url !== '/') return answer(request, response, null, server.address().port);
        return response.writeHead(200, { 'content-type': 'text/html' }).end(text);
    });
    servers.push(server);
    server.listen(0, '127.0.0.1');
    await once(server, 'listening');
    return `http://127.0.0.1:${server.address().port}/`;
}

test('a page of another origin shows the screen, and how it ended', { skip }, async () => {
    const source = new Asked(), { origin } = new URL(await source.start());
    const open = { 'access-control-allow-origin': '*' };
    source.put(repaint(1, [2, 'one']), { ...open });
    source.put(sequence([2, 9, 20, 4, 1, 2, [[2, ' two']]]), { ...open });
    const page = await browser.open(await ownPage(`${origin}/stream`), 800, 600);
    await page.until(`customElements.get('tikeburo-screen') && ${numberIs(2)}`);
    source.put(410, { ...open, 'access-control-expose-headers': 'exit-status', 'exit-status': '7' });
    await says(page, 'ended', 'the program has ended, with status 7');
    assert.deepEqual(source.last, ['GET', undefined, undefined]); // and no `OPTIONS` before it
    assert.deepEqual(source.asks, ['0/0', '9/1', '9/2']);
});

test('screenshots of the demo', { skip: skip || !process.env.SHOTS }, async () => {
    const page = await open(demo, '?controls', 900, 600);
    for (const look of ['dark', 'light']) {
        await page.prefer({ 'prefers-color-scheme': look, 'prefers-reduced-motion': 'reduce' });
        await page.evaluate(`(() => {
            const button = document.getElementById('look');
            if (button.textContent === '${look}') button.click();
            ${ELEMENT}.pause();
            ${ELEMENT}.seek(7000);
        })()`);
        await drawn(page);
        writeFileSync(join(process.env.SHOTS, `browser-${look}.png`), await page.screenshot());
    }
});
