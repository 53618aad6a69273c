// programs.mjs SURFSEND SURFWATCH [COUNT [SEED]] lets the one program send random scripts (as in
// docs/SCRIPT.md), and compares what the other one prints of the stream with what the client shows,
// byte by byte: after each answer, and where the stream is cut or damaged. It ends with
// `N passed, M failed`, and status 1 where any failed. Where no programs are given, as by
// `node --test`, it is a test that is left out.
import { spawnSync } from 'node:child_process';
import test from 'node:test';
import { Client } from '../tikeburo.mjs';
import { randomFrom } from './random.mjs';

const PIECES = [
    'a', 'Z', '~', ' ', '\\\\', 'hello', 'é', 'Žluť', '─│', 'я', 'か', 'かな', '漢字', '한국어', 'ｶﾅ',
    '👩', '👩\u200d👩\u200d👧', '🇩🇪', '🇩', '❤\ufe0f', '1\ufe0f\u20e3', '☺', '⌚\ufe0e', 'e\\u{301}',
    '\\u{301}', 'か\\u{3099}', '\\u{200d}', '\\u{feff}', '\\u{80}', '\\u{9b}', '\\u{0}', '\\u{1b}',
    '\\u{7f}', '\t', '\\n', '\\r', '\\r\\n', '\\n\\n', 'שלום', 'مرحبا', 'नि', 'ไทย',
];
const WORDS = ['default', 'bold', 'half', 'underline', 'italic', 'reverse', 'strike'];

/** A script, and its size. */
function randomScript(random) {
    const below = n => random(n), size = () => 1 + (below(6) ? below(20) : below(120));
    const color = () => (below(2) ? below(256) : `#${['00', '7f', 'ff'].map(() =>
        below(256).toString(16).padStart(2, '0')).join('')}`);
    const text = () => Array.from({ length: below(12) }, () => random.pick(PIECES)).join('');
    const pen = () => (below(2) ? random.pick(WORDS) : `${random.pick(['fg', 'bg'])}=${color()}`);
    const maybe = word => (below(2) ? word : `${word} ${color()}`);
    const commands = [
        () => `text ${text()}`, () => `text ${text()}`, () => `text ${text()}`,
        () => `at ${below(24)} ${below(12)}`, () => `at ${below(130)} ${below(130)}`,
        () => `pen ${Array.from({ length: 1 + below(3) }, pen).join(' ')}`,
        () => maybe(random.pick(['eol', 'eos', 'eol', 'eos', 'clear'])),
        () => `${random.pick(['up', 'down'])} ${below(6)} ${below(8)} ${below(9)}`,
        () => (below(4) ? 'send' : `resize ${size()} ${size()}`),
        () => (below(3) ? 'send' : `flush ${below(40)}`),
    ];
    const lines = Array.from({ length: 1 + below(40) }, () => random.pick(commands)());
    return { words: [size(), size()], script: `${lines.join('\n')}\nsend\n` };
}

/** What the client shows of a stream, in random parts, and its faults as the programs print them. */
function shown(random, bytes) {
    let text = '', faults = '';
    const report = fault => { faults += `answer ${fault.answer}: ${fault.message}\n`; };
    const client = new Client({ onstale: report, onanswer: ({ screen }) => { text += screen; } });
    for (let at = 0; at < bytes.length;) {
        const length = 1 + random(40);
        client.feed(bytes.subarray(at, at + length));
        at += length;
    }
    if (client.end()) report(client.fault);
    return text + faults;
}

function run(program, words, input) {
    const { stdout, stderr, error } = spawnSync(program, words, { input, maxBuffer: 1 << 28 });
    if (error) throw error;
    return { stdout, stderr: String(stderr) };
}

/** The stream, the stream cut, and the stream with a byte that is another. */
function variants(random, bytes) {
    if (bytes.length === 0) return [bytes];
    const damaged = Uint8Array.from(bytes);
    damaged[random(bytes.length)] ^= 1 << random(8);
    return [bytes, bytes.subarray(0, random(bytes.length)), damaged];
}

/** A viewer with tables sees other pieces, which the client can't. */
function agree(random, surfwatch, bytes) {
    const { stdout, stderr } = run(surfwatch, ['-a'], bytes);
    return stderr.includes(': measure') || shown(random, bytes) === String(stdout) + stderr;
}

function compare(surfsend, surfwatch, count, seed) {
    let passed = 0, failed = 0;
    for (let k = 0; k < Number(count) && failed < 5; k++) {
        const random = randomFrom(Number(seed) * 1000003 + k);
        const { words, script } = randomScript(random);
        const streams = variants(random, run(surfsend, words, script).stdout);
        const wrong = (k % 4 ? streams.slice(0, 1) : streams).findIndex(bytes =>
            !agree(random, surfwatch, bytes));
        if (wrong < 0) {
            passed++;
        } else {
            failed++;
            console.log(`FAILED: script ${k} of seed ${seed} on ${words.join('x')},`
                + ` ${['whole', 'cut', 'damaged'][wrong]}\n${script}`);
        }
    }
    console.log(`${passed} passed, ${failed} failed`);
    return failed ? 1 : 0;
}

const [surfsend, surfwatch, count = 2000, seed = 1] = process.argv.slice(2);
if (surfwatch) {
    process.exitCode = compare(surfsend, surfwatch, count, seed);
} else if (surfsend) {
    console.error('usage: programs.mjs SURFSEND SURFWATCH [COUNT [SEED]]');
    process.exitCode = 2;
} else {
    test('random scripts', { skip: 'SURFSEND and SURFWATCH are not given' });
}
