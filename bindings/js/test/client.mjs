// What the vectors don't have: limits, new connections, hostile bytes, repaints, and watch.mjs. Run
// it by `node --test test/client.mjs`.
import assert from 'node:assert/strict';
import { spawnSync } from 'node:child_process';
import { readFileSync } from 'node:fs';
import test from 'node:test';
import { fileURLToPath } from 'node:url';
import { COLORS, NAMES, Palette } from '../look.mjs';
import { Player, readRecording } from '../recording.mjs';
import { encodeRepaint } from '../repaint.mjs';
import { Client, DEFAULT_ATTRIBUTES } from '../tikeburo.mjs';
import { contrast, partsOf } from './contrast.mjs';
import { sequence } from './encode.mjs';
import { randomFrom } from './random.mjs';
import { contentsOf, judgeRepaint } from './repaints.mjs';
import { randomChanges } from './screens.mjs';
import { allowed } from './work.mjs';

const ask = (surface, number) => sequence([2, surface, number]);
const repaint = (width, height, number, ...changes) =>
    sequence([2, 1, width, height, 0, number, changes]);
const delta = (width, height, base, ...changes) =>
    sequence([2, 1, width, height, base, base + 1, changes]);
const join = (...parts) => Uint8Array.from(parts.flatMap(part => [...part]));

test('a new connection goes on from what is shown', () => {
    const client = new Client();
    assert.deepEqual(client.ask(), ask(0, 0));
    client.feed(join(repaint(4, 1, 5, [2, 'ab']), delta(4, 1, 5, [2, 'c']).subarray(0, 9)));
    assert.equal(client.end().message, 'truncated at 9 in change 0');
    assert.equal(client.fault.answer, 2);
    client.restart();
    assert.equal(client.fault, null);
    assert.deepEqual(client.ask(), ask(1, 5));
    client.feed(delta(4, 1, 5, [2, 'c']));
    assert.equal(String(client.screen), 'viewer 6\n|abc |\ncursor 3 0\n');
});

test('bytes stay the caller\'s, whatever their buffer is', () => {
    const all = join(repaint(4, 1, 5, [2, 'ab']), delta(4, 1, 5, [2, 'c']), delta(4, 1, 6, [2, 'd']));
    for (const length of [1, 7, 20, all.length]) {
        for (const buffer of [new ArrayBuffer(99), new SharedArrayBuffer(99),
            new ArrayBuffer(99, { maxByteLength: 999 })]) {
            const client = new Client(), room = new Uint8Array(buffer);
            for (let at = 0; at < all.length; at += length) {
                const some = all.subarray(at, at + length);
                room.set(some, 3);
                client.feed(room.subarray(3, 3 + some.length));
                assert.deepEqual(room.subarray(3, 3 + some.length), some);
                room.fill(0xff);
            }
            assert.equal(client.end(), null);
            assert.equal(String(client.screen), 'viewer 7\n|abcd|\ncursor 4 0\n');
        }
    }
});

test('a callback may feed on', () => {
    const answers = [[2, 'a'], [2, 'b'], [2, 'c']].map((text, at) => delta(4, 1, 5 + at, text));
    const room = new Uint8Array(999), last = answers.at(-1);
    const client = new Client({
        onanswer: ({ answers: count }) => count === 1 && client.feed(last.subarray(0, 4)),
    });
    const first = join(repaint(4, 1, 5), answers[0], answers[1]);
    room.set(first);
    client.feed(room.subarray(0, first.length));
    client.feed(last.subarray(4));
    assert.deepEqual(room.subarray(first.length, first.length + 9), new Uint8Array(9));
    assert.equal(String(client.screen), 'viewer 8\n|abc |\ncursor 3 0\n');
});

test('after damage the screen stays, and a repaint is asked for', () => {
    const client = new Client();
    client.feed(join(repaint(4, 1, 5, [2, 'ab']), [0x87, 2, 0]));
    assert.equal(client.fault.message, 'range at 2');
    client.feed(delta(4, 1, 5, [2, 'c']));
    assert.equal(String(client.screen), 'viewer 5\n|ab  |\ncursor 2 0\n');
    client.restart();
    assert.deepEqual(client.ask(), ask(0, 0));
    assert.equal(client.screen.text(0), 'ab  ');
});

test('a stale answer changes nothing, and the stream goes on', () => {
    const stale = [];
    const client = new Client({ onstale: fault => stale.push(fault) });
    const once = delta(4, 1, 5, [2, 'c']);
    client.feed(join(repaint(4, 1, 5, [2, 'ab']), once, once, delta(4, 1, 6, [2, 'd'])));
    assert.equal(String(client.screen), 'viewer 7\n|abcd|\ncursor 4 0\n');
    assert.deepEqual(stale.map(({ kind, at, answer }) => [kind, at, answer]), [['stale', 5, 3]]);
    assert.equal(client.answers, 4);
});

test('a callback may begin anew, and may feed', () => {
    const client = new Client();
    client.onanswer = ({ answers }) => {
        if (answers === 1) client.restart();
    };
    client.feed(join(repaint(4, 1, 5, [2, 'ab']), [0x87]));
    assert.equal(client.pending, 0);
    client.onanswer = ({ screen }) => {
        if (screen.number === 6n) client.feed(delta(4, 1, 6, [2, 'd']));
    };
    client.feed(delta(4, 1, 5, [2, 'c']));
    assert.equal(client.screen.text(0), 'abcd');
});

test('limits', () => {
    const faultOf = (limits, bytes) => {
        const client = new Client(limits);
        client.feed(bytes);
        return client.end()?.message ?? null;
    };
    const bytes = repaint(4, 3, 5, [2, 'ab']);
    assert.equal(faultOf({ cells: 12 }, bytes), null);
    assert.equal(faultOf({ cells: 11 }, bytes), 'limit at 4');
    assert.equal(faultOf({ rows: 3 }, bytes), null);
    assert.equal(faultOf({ rows: 2 }, bytes), 'limit at 4');
    assert.equal(faultOf({ bytes: bytes.length }, bytes), null);
    assert.equal(faultOf({ bytes: bytes.length - 1 }, bytes), 'limit at 10 in change 0');
    assert.equal(faultOf({ bytes: bytes.length - 1 }, bytes.subarray(0, 11)),
        'limit at 10 in change 0');
    assert.equal(faultOf({ bytes: 0 }, bytes), 'limit at 0');
});

test('what is buffered stays near the limit', () => {
    const client = new Client({ bytes: 1000 });
    const answer = repaint(4, 1, 5, [2, 'x'.repeat(900)]);
    const many = new Uint8Array(answer.length * 2000);
    for (let k = 0; k < 2000; k++) many.set(answer, k * answer.length);
    client.feed(many);
    assert.equal(client.answers, 2000);
    assert.equal(client.pending, 0);
});

test('the first change past the work of an answer is its fault', () => {
    const random = randomFrom(64), found = { whole: 0, limit: 0 };
    for (let k = 0; k < 500; k++) {
        const size = [1 + random(12), 1 + random(8)], changes = randomChanges(random, ...size);
        const count = allowed(changes, ...size).length, rest = changes.slice(count);
        const bytes = repaint(...size, 1, ...changes), at = bytes.length - sequence(...rest).length;
        const client = new Client();
        for (let part = 0; part < bytes.length; part += 100) {
            client.feed(bytes.subarray(part, part + 100));
        }
        const message = rest.length ? `limit at ${at} in change ${count}` : undefined;
        assert.equal(client.end()?.message, message);
        found[rest.length ? 'limit' : 'whole']++;
    }
    assert.ok(found.whole > 50 && found.limit > 50, JSON.stringify(found));
});

test('the work is exact where a double is not', () => {
    const most = 2 ** 32 - 1, great = (1n << 64n) - 1n, clear = [3, null];
    const faultOf = (...changes) => {
        const client = new Client({ cells: Infinity, rows: Infinity });
        client.feed(delta(most, most, 1, ...changes)); // it is stale: no such screen is made
        return client.end()?.message ?? null;
    };
    assert.equal(faultOf(clear, clear, clear, clear, [10, 0, 64, 0]), null);
    assert.equal(faultOf(clear, clear, clear, clear, [10, 0, 65, 0]), 'limit at 28 in change 4');
    assert.equal(faultOf(clear, clear, clear, [11, most - 64, 64, great]), null);
    assert.equal(faultOf(clear, clear, clear, [11, 0, most, great]), 'limit at 25 in change 3');
});

/** How many row objects a screen has, and how many cells are in them. */
function madeIn({ rows }) {
    const made = [...new Set(rows)];
    return [made.length, made.reduce((sum, { cells }) => sum + (cells?.length ?? 0), 0)];
}

test('rows of blanks are one, which has no cells', () => {
    const madeBy = (...changes) => {
        const client = new Client();
        client.feed(repaint(1024, 1024, 1, ...changes));
        assert.equal(client.fault, null);
        return madeIn(client.screen);
    };
    const clear = [3, 1], end = [6, [1, 0], [2, 1]];
    const first = Array.from({ length: 1024 }, (_, y) => [[6, [1, 0], [1, y]], [2, 'x']]).flat();
    assert.deepEqual(madeBy(), [1, 0]);
    assert.deepEqual(madeBy(clear, clear, clear, clear), [1, 0]);
    assert.deepEqual(madeBy(...first), [1024, 1024]);
    assert.deepEqual(madeBy(...first, clear), [1, 0]);
    assert.deepEqual(madeBy(...first, [10, 0, 1024, 1000]), [25, 24]);
    assert.deepEqual(madeBy([6, [1, 7], [1, 5]], [2, 'x'], [5, 2]), [3, 8]);
    assert.deepEqual(madeBy([13, 2], [3, 1]), [2, 0]);
    assert.deepEqual(madeBy(end, [2, `x${'\n'.repeat(1000)}`]), [2, 1]);
});

/** How many elements the arrays have, of which a method that may touch all of them is called. */
function touchedIn(run) {
    const names = ['copyWithin', 'fill', 'forEach', 'map', 'shift', 'slice', 'splice', 'unshift'];
    const kept = names.map(name => [name, Array.prototype[name]]);
    let count = 0;
    for (const [name, method] of kept) {
        Array.prototype[name] = function touch(...values) {
            const { length } = this, result = method.apply(this, values);
            count += name === 'slice' ? result.length : length;
            return result;
        };
    }
    try {
        run();
    } finally {
        for (const [name, method] of kept) Array.prototype[name] = method;
    }
    return count;
}

test('line feeds and scrolls move rows, and copy no cells', () => {
    const height = 65536, client = new Client();
    client.feed(repaint(2, height, 1, [2, `${'x\r\n'.repeat(height - 1)}x`]));
    let number = 1;
    /** Where each row's cells were before a change, and how many steps it took. */
    const moved = change => {
        const places = new Map(client.screen.rows.map(({ cells }, y) => [cells, y]));
        places.set(null, null); // a row of blanks has none
        const steps = touchedIn(() => client.feed(delta(2, height, number++, change)));
        assert.equal(client.fault, null);
        return { from: client.screen.rows.map(({ cells }) => places.get(cells)), steps };
    };
    const all = Array.from({ length: height }, (_, y) => y);
    const none = count => Array(count).fill(null);
    const up = moved([10, 0, height - 1, 1]);
    assert.deepEqual(up.from, [...all.slice(1, -1), null, height - 1]);
    assert.ok(up.steps < 3 * height, up.steps);
    const down = moved([11, 100, 10, 3]);
    assert.deepEqual(down.from.slice(100, 110), [...none(3), ...all.slice(100, 107)]);
    assert.ok(down.steps < 100, down.steps);
    const few = moved([2, '\n'.repeat(1000)]);
    assert.deepEqual(few.from.slice(-1002), [null, height - 1, ...none(1000)]);
    assert.ok(few.steps < 100, few.steps);
    const many = moved([2, '\n'.repeat(100000)]);
    assert.deepEqual(many.from, none(height));
    assert.ok(many.steps < 4 * 100000, many.steps);
});

test('a row and its version show what they did, and others come by writing alone', () => {
    const random = randomFrom(300), shown = new Map(); // what each row and version showed
    let client = null, number = 0, same = 0, others = 0;
    for (let k = 0; k < 1000; k++) {
        if (!random(8)) client = null;
        const size = client ? [client.screen.width, client.screen.height]
            : [1 + random(20), 1 + random(40)];
        const changes = allowed(randomChanges(random, ...size).slice(0, 4), ...size);
        const before = client?.screen.rows.map(row => [row, row.version]);
        const answer = sequence([2, 1, ...size, client ? number : 0, ++number, changes]);
        if (!client) shown.clear();
        client ??= new Client();
        client.feed(answer);
        const { screen } = client;
        screen.rows.forEach((row, y) => {
            const versions = shown.get(row) ?? [], content = [row.attribute, ...screen.cells(y)];
            shown.set(row, versions);
            if (versions[row.version]) assert.deepEqual(content, versions[row.version]);
            versions[row.version] = content;
        });
        before?.forEach(([row, version], y) => {
            if (screen.rows[y] === row && row.version === version) same++;
            else others++;
        });
        if (changes.every(([kind]) => [0, 1, 6, 7, 8, 9, 12].includes(kind))) {
            before?.forEach(([row, version], y) =>
                assert.deepEqual([screen.rows[y] === row, row.version], [true, version]));
        }
    }
    assert.ok(same > 2 * others, `${same} and ${others}`);
});

test('great screens, and scrolls of all their rows', () => {
    const rows = 1 << 20, client = new Client({ rows });
    client.feed(repaint(1, rows, 1, [2, 'x'], [10, 0, rows, rows], [11, 0, rows, 1], [2, 'y\n']));
    assert.equal(client.fault, null);
    assert.equal(client.screen.text(1), 'y');
    assert.equal(client.screen.cursor.y, 2);
});

test('a text of many pieces that comes in small parts is read a few times only', () => {
    const count = 100000, runs = Array.from({ length: count }, (_, k) => [1, 1, 2 - k % 2]).flat();
    const bytes = repaint(80, 24, 1, [2, 'x'.repeat(count), runs]);
    const client = new Client(), { decode } = TextDecoder.prototype;
    let read = 0;
    TextDecoder.prototype.decode = function count(...values) {
        read++;
        return decode.apply(this, values);
    };
    for (let at = 0; at < bytes.length; at += 50) client.feed(bytes.subarray(at, at + 50));
    TextDecoder.prototype.decode = decode;
    assert.equal(client.end(), null);
    assert.ok(read < 5, read);
});

test('4,000 damaged streams do alike in any chunks, and throw nothing', () => {
    const random = randomFrom(4000);
    const lines = readFileSync(new URL('vectors.txt', import.meta.url), 'utf8').split('\n');
    const streams = lines.filter(line => line.startsWith('show')).map(line =>
        Uint8Array.from(Buffer.from(line.split(' ')[2], 'hex')));
    const resultOf = (bytes, most) => {
        const client = new Client({ cells: 4096, bytes: 4096 });
        for (let at = 0; at < bytes.length;) {
            const length = 1 + random(most);
            client.feed(bytes.subarray(at, at + length));
            at += length;
        }
        return `${client.end()?.message ?? 'whole'} ${client.fault?.answer}\n${client.screen}`;
    };
    for (let k = 0; k < 4000; k++) {
        const bytes = join(random.pick(streams), random.pick(streams));
        for (let n = random(4); n > 0; n--) bytes[random(bytes.length)] = random(256);
        assert.equal(resultOf(bytes, 9), resultOf(bytes, 1 << 16));
    }
});

test('random bytes', () => {
    const random = randomFrom(1);
    for (let k = 0; k < 4000; k++) {
        const client = new Client();
        client.feed(Uint8Array.from({ length: random(64) }, () => random(256)));
        client.end();
        assert.equal(client.screen.number, 0n);
    }
});

test('the repaints of the demo', () => {
    const { entries } = readRecording(readFileSync(new URL('../demo.cborseq', import.meta.url)));
    const player = new Player(entries), times = new Set(entries.map(entry => entry.time));
    for (const time of times) {
        player.seek(time);
        judgeRepaint(player.client.screen);
    }
    assert.ok(times.size > 50, times.size);
});

test('the repaints of 1,500 random screens, and what follows them', () => {
    const random = randomFrom(1500);
    let client = null, number = 0;
    for (let k = 0; k < 1500; k++) {
        if (!random(4)) client = null;
        const size = { width: 1 + random(40), height: 1 + random(12) };
        const { width, height } = client?.screen ?? size;
        const changes = allowed(randomChanges(random, width, height), width, height);
        const answer = sequence([2, 1, width, height, client ? number : 0, ++number, changes]);
        const next = new Client(); // which begins with the repaint of what came before
        if (client) next.feed(encodeRepaint(client.screen));
        client ??= new Client();
        for (const each of [client, next]) {
            each.feed(answer);
            assert.equal(each.fault, null);
        }
        assert.deepEqual(contentsOf(next.screen), contentsOf(client.screen));
        judgeRepaint(client.screen);
    }
});

test('the texts of a repaint are cut as their sender cut them', () => {
    const paintedBy = (...changes) => {
        const client = new Client();
        client.feed(repaint(12, 2, 1, ...changes));
        return judgeRepaint(client.screen).filter(([kind]) => kind === 2n)
            .map(([, text, runs]) => (runs ? [text, ...runs.map(Number)] : text));
    };
    const home = [6, [1, 0], [1, 0]];
    // One text stays one, ASCII is joined, and whatever a viewer's tables may join stands alone.
    assert.deepEqual(paintedBy([2, 'かなé', [2, 1, 2, 1, 1, 1]]), [['かなé', 2, 1, 2, 1, 1, 1]]);
    assert.deepEqual(paintedBy([2, 'か', [1, 1, 2]], [2, 'な', [1, 1, 2]]),
        [['か', 1, 1, 2], ['な', 1, 1, 2]]);
    assert.deepEqual(paintedBy([2, 'a'], [2, 'b'], [1, [0, null, null, null, null]], [2, 'c']),
        ['abc']);
    assert.deepEqual(paintedBy([2, 'e'], [2, '\u0301'], [2, 'x']), ['e', '\u0301', 'x']);
    assert.deepEqual(paintedBy([2, '🇩'], [2, '🇪']), ['🇩', '🇪']);
    assert.deepEqual(paintedBy([2, '🇩🇪🇺🇸', [2, 2, 2]]), [['🇩🇪🇺🇸', 2, 2, 2]]);
    // A mark is cut from a control character, and not from the space that it is shown as.
    assert.deepEqual(paintedBy([2, 'a\x07\u0301']), ['a ', '\u0301']);
    assert.deepEqual(paintedBy([2, '\u0600\x07a']), ['\u0600', ' a']);
    // What was printed over, and what stands in another row, follows nothing.
    assert.deepEqual(paintedBy([2, 'éèà'], home, [2, 'x'], [2, 'ü']), ['x', 'ü', 'à']);
    assert.deepEqual(paintedBy([2, 'éèéèéèéèéèéèé']), ['éèéèéèéèéèéè', 'é']);
});

/** The runs of pieces, of this many columns each. */
function runsOf(pieces, columnsOf) {
    const runs = [];
    for (const piece of pieces) {
        const size = [...piece].length, columns = columnsOf(piece), last = runs.at(-1);
        if (last?.[1] === size && last[2] === columns) last[0]++;
        else runs.push([1, size, columns]);
    }
    return runs.flat();
}

/** Random changes whose texts are cut by node's own tables of graphemes. */
function changesByTables(random, segmenter, width, height) {
    const parts = ['a', ' ', 'é', 'e\u0301', '\u0301', '\u200d', '\u0600', '\x07', '👩', '🇩', '🇪',
        'か', 'क', '\u094d', '\u0e33', '한', '\u11a8', '\ufe0f', '\u20e3', '1'];
    const print = () => {
        const text = Array.from({ length: 1 + random(8) }, () => random.pick(parts)).join('');
        const pieces = Array.from(segmenter.segment(text), ({ segment }) => segment);
        const columns = piece => 1 + /[か👩]/u.test(piece);
        const needed = pieces.some(piece => columns(piece) > 1 || [...piece].length > 1);
        return needed ? [2, text, runsOf(pieces, columns)] : [2, text];
    };
    const move = () => [6, [1, random(width)], [1, random(height)]];
    const changes = Array.from({ length: 30 }, () => (random(3) ? print() : move()));
    return allowed(changes, width, height);
}

test("a viewer's tables cut the texts of a repaint as the repaint says", () => {
    const random = randomFrom(9), segmenter = new Intl.Segmenter('en', { granularity: 'grapheme' });
    let several = 0;
    for (let k = 0; k < 1000; k++) {
        const client = new Client(), size = [1 + random(20), 1 + random(6)];
        client.feed(repaint(...size, 1, ...changesByTables(random, segmenter, ...size)));
        assert.equal(client.fault, null);
        for (const [kind, text, runs] of judgeRepaint(client.screen)) {
            if (kind !== 2n) continue;
            const segments = Array.from(segmenter.segment(text), ({ segment }) => segment);
            const pieces = segments.map(segment => [...segment].length);
            const sizes = (runs ?? [[...text].length, 1]).flatMap((_, at, all) =>
                (at % 3 ? [] : Array(Number(all[at])).fill(Number(all[at + 1]))));
            assert.deepEqual(pieces, sizes);
            several += pieces.length > 1 && /[^ -~]/.test(text);
        }
    }
    assert.ok(several > 1000, several);
});

test('a repaint clears what is blank, and moves past what is new', () => {
    const client = new Client();
    client.feed(repaint(40, 3, 1, [6, [1, 0], [1, 1]], [1, [0, null, 4, null, null]], [5, 4],
        [6, [1, 30], [1, 0]], [1, [0, null, null, null, null]], [2, 'x']));
    assert.deepEqual(judgeRepaint(client.screen), [
        [6n, [1n, 30n], [1n, 0n]], [2n, 'x'], [6n, [1n, 0n], [1n, 1n]], [4n, 4n],
        [6n, [1n, 0n], [1n, 2n]], [4n, 4n], [6n, [1n, 31n], [1n, 0n]],
        [1n, [0n, null, null, null, null]],
    ]);
});

test('what has no repaint, or a too long one', () => {
    const client = new Client();
    assert.throws(() => encodeRepaint(client.screen),
        { name: 'RangeError', message: 'a screen of no surface, which has no repaint' });
    client.feed(repaint(4, 1, 5, [2, 'ab']));
    const { length } = encodeRepaint(client.screen);
    assert.equal(encodeRepaint(client.screen, { bytes: length }).length, length);
    assert.throws(() => encodeRepaint(client.screen, { bytes: length - 1 }),
        { name: 'RangeError', message: `a repaint of more than ${length - 1} bytes` });
    const link = ['https://a.example/'.padEnd(1 << 20, 'x'), false, []];
    const pen = style => [1, [style, null, null, null, style ? link : null]];
    const everyOther = [2, 'x\r\n\r\n'.repeat(39)], second = [6, [1, 0], [1, 1]];
    client.feed(repaint(1, 80, 6, pen(1), everyOther, second, pen(0), everyOther));
    assert.equal(client.fault, null);
    assert.throws(() => encodeRepaint(client.screen),
        { name: 'RangeError', message: 'a repaint of more than 16777216 bytes' });
});

for (const [look, colors] of Object.entries(COLORS)) {
    const own = Object.fromEntries(NAMES.map((name, k) => [name, partsOf(colors[k])]));
    const palette = new Palette(own), indexes = Array.from({ length: 16 }, (_, n) => n);
    /** The colours of a text and of its ground, where its style has this intensity. */
    const shownOf = (foreground, background, style = 0) => {
        const { css } = palette.lookOf({ ...DEFAULT_ATTRIBUTES, foreground, background, style });
        const parts = (name, otherwise) => {
            const [, value = otherwise] = new RegExp(`(?:^|;)${name}:([^;]*)`).exec(css) ?? [];
            const [, variable, part] = /var\(--([^)]*)\)(?: (60)%)?/.exec(value) ?? [];
            const color = variable ? own[variable] : partsOf(value);
            return part ? color.map((each, k) =>
                0.6 * each + 0.4 * parts('background-color', 'var(--back)')[k]) : color;
        };
        return [parts('color'), parts('background-color', 'var(--back)')];
    };

    test(`texts can be read, whatever two of the ${look} colours they have`, () => {
        let raised = 0;
        for (const foreground of [null, ...indexes]) {
            for (const background of [null, ...indexes]) {
                if (foreground === background && foreground !== null) continue;
                const name = foreground === null ? 'front' : `color-${foreground}`;
                const ground = background === null ? 'back' : `color-${background}`;
                for (const style of [0, 1, 2]) {
                    const [text, back] = shownOf(foreground, background, style);
                    const found = contrast(text, back);
                    assert.ok(found >= 2.99, `${found} of ${name} on ${ground}, ${style}`);
                    assert.deepEqual(back, own[ground]);
                    if (style === 2) continue;
                    const isExact = contrast(own[name], own[ground]) >= 3;
                    if (isExact) assert.deepEqual(text, own[name]);
                    else assert.ok(found < 3.5, `${found} of ${name} on ${ground}`);
                    raised += !isExact;
                }
            }
        }
        assert.ok(raised > 100, raised);
    });

    test(`usual texts and grounds keep their ${look} colours`, () => {
        const least = look === 'dark' ? 3 : 1.8; // on light, text of `white` is drawn darker
        for (const n of indexes.slice(1)) {
            assert.ok(contrast(own[`color-${n}`], own.back) >= least, `${n} on the ground`);
        }
        for (const n of look === 'dark' ? [1, 4, 5] : []) { // grounds of file managers and errors
            assert.ok(contrast(own.front, own[`color-${n}`]) >= 3, `text on ${n}`);
            assert.ok(contrast(own['color-15'], own[`color-${n}`]) >= 3, `15 on ${n}`);
        }
    });

    test(`exact colours stay in the ${look} look, and what is hidden stays hidden`, () => {
        const near = [[200, 200, 200], [190, 190, 190]];
        assert.deepEqual(shownOf(...near), near);
        assert.deepEqual(shownOf(250, 251), [[188, 188, 188], [198, 198, 198]]);
        assert.deepEqual(shownOf(4, 4), [own['color-4'], own['color-4']]);
        const [text] = shownOf(own.back, null); // it is not known that this is the ground's
        assert.ok(contrast(text, own.back) >= 3);
        const area = palette.lookOf({ ...DEFAULT_ATTRIBUTES, foreground: 6, background: 4 });
        assert.match(area.area, /^color:var\(--color-6\);background-color:var\(--color-4\);$/);
    });
}

test('colours that are not known are drawn as they are', () => {
    const palette = new Palette(Object.fromEntries(NAMES.map(name => [name, null])));
    const { css } = palette.lookOf({ ...DEFAULT_ATTRIBUTES, foreground: 6, background: 4 });
    assert.equal(css, 'color:var(--color-6);background-color:var(--color-4);');
});

const program = fileURLToPath(new URL('../watch.mjs', import.meta.url));
const watch = (input, ...words) => {
    const { stdout, stderr, status } = spawnSync(process.execPath, [program, ...words], { input });
    return [String(stdout), String(stderr), status];
};

test('watch.mjs', () => {
    const first = repaint(4, 1, 5, [2, 'ab']), second = delta(4, 1, 5, [2, 'か', [1, 1, 2]]);
    const one = 'viewer 5\n|ab  |\ncursor 2 0\n', two = 'viewer 6\n|abか|\ncursor 4 0\n';
    assert.deepEqual(watch(''), ['', '', 0]);
    assert.deepEqual(watch(join(first, second)), [two, '', 0]);
    assert.deepEqual(watch(join(first, second), '-a'), [one + two, '', 0]);
    const stale = 'answer 3: stale at 5\n';
    const late = join(first, second, second, first);
    assert.deepEqual(watch(late, '-a'), [one + two + one, stale, 2]);
    assert.deepEqual(watch(late), [one, stale, 2]);
    const cut = 'answer 2: truncated at 10 in change 0\n';
    assert.deepEqual(watch(join(first, second.subarray(0, 12))), [one, cut, 2]);
    assert.deepEqual(watch(first, '--cells', '3'), ['', 'answer 1: limit at 4\n', 2]);
    assert.deepEqual(watch(first, '--rows', '0'), ['', 'answer 1: limit at 4\n', 2]);
    assert.deepEqual(watch(first, '--bytes=3'), ['', 'answer 1: limit at 3\n', 2]);
    const closed = spawnSync('sh', ['-c', '"$@" <&-', 'sh', process.execPath, program]);
    assert.deepEqual([String(closed.stderr), closed.status], ['', 0]);
    const folder = spawnSync('sh', ['-c', '"$@" </', 'sh', process.execPath, program]);
    assert.deepEqual([String(folder.stderr), folder.status], ['input: unreadable\n', 2]);
    const usage = 'usage: watch.mjs [-a] [--cells N] [--rows N] [--bytes N]\n';
    for (const words of [['-b'], ['x'], ['--cells'], ['--cells', 'x'], ['--bytes', '-1'], ['--bytes', '0']]) {
        assert.deepEqual(watch('', ...words), ['', usage, 2]);
    }
});
