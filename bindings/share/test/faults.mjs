// What may go wrong with `share`, and what it does then: `SHARE=PROGRAM node --test faults.mjs`.
import assert from 'node:assert/strict';
import { execFileSync, spawnSync } from 'node:child_process';
import { existsSync, readFileSync, statSync, writeFileSync } from 'node:fs';
import { connect, createServer } from 'node:net';
import { join } from 'node:path';
import { after, test as testFor } from 'node:test';
import { Client } from '../../js/tikeburo.mjs';
import { contentsOf, follow } from './follow.mjs';
import { here, makeFolder, pause, removeFolder, Shared, until } from './shared.mjs';

const folder = makeFolder(), started = [];
const modeOf = path => statSync(path).mode & 0o777;
const keeper = [process.execPath, here('keeper.mjs')];
const test = (name, act) => testFor(name, { timeout: 30000 }, act);

after(() => {
    started.forEach(({ process }) => process.kill('SIGKILL'));
    removeFolder(folder);
});

/** Runs `share` to its end. */
function run(...words) {
    const options = { input: '', encoding: 'utf8', timeout: 10000 };
    const { status, stdout, stderr } = spawnSync(process.env.SHARE, words, options);
    return { status, stdout, stderr };
}

async function start(shared) {
    started.push(shared);
    return shared.start();
}

const startApart = (...words) => start(Shared.apart(['--no-wait', ...words]));

/** Waits until a client shows this, and returns the client. */
async function show(shared, text, client = new Client()) {
    const has = ({ screen }) => screen.rows.some((_, y) => screen.text(y).includes(text));
    await follow(client, shared.stream, has);
    return client;
}

// ---------------------------------------------------------------------- words and files

test('what it takes is said', () => {
    for (const word of ['--help', '-h']) {
        const { status, stdout } = run(word);
        assert.equal(status, 0);
        const options = ['--listen', '--port', '--token', '--url', '--no-wait', '--record'];
        for (const name of options) assert.match(stdout, new RegExp(name));
    }
});

test('an error names the option, the port, the file or the program', async () => {
    const taken = createServer().listen(0, '127.0.0.1');
    await until(() => taken.listening, 'a server');
    const { port } = taken.address(), none = join(folder, 'none', 'file');
    for (const [words, ...named] of [
        [[], 'PROGRAM'],
        [['--prot', '1', 'true'], '--prot'],
        [['--port', 'x', 'true'], '--port', 'x'],
        [['--port', port, 'true'], '--port', port],
        [['--listen', `127.0.0.1:${port}`, 'true'], '--listen', port],
        [['--listen', '192.0.2.1:0', 'true'], '--listen', '192.0.2.1'],
        [['--url', 'a.example', 'true'], '--url'],
        [['--token', none, 'true'], '--token', none],
        [['--record', none, 'true'], '--record', none],
        [['--', 'no-such-program'], 'no-such-program'],
    ]) {
        const { status, stderr } = run(...words.map(String));
        assert.equal(status, 2, stderr);
        for (const name of named) assert.ok(stderr.includes(name), `${name}: ${stderr}`);
    }
    taken.close();
});

test('a recording begins once the program runs, for its owner alone', () => {
    const [old, made] = ['old', 'made'].map(name => join(folder, name));
    writeFileSync(old, 'old');
    assert.equal(run('--record', old, '--', 'no-such-program').status, 2);
    assert.equal(readFileSync(old, 'utf8'), 'old');
    assert.equal(run('--record', made, '--', 'no-such-program').status, 2);
    assert.ok(!existsSync(made));
    for (const path of [old, made]) {
        assert.equal(run('--record', path, '--', 'sh', '-c', 'echo recorded').status, 0);
        assert.ok(readFileSync(path).includes('recorded'));
        assert.equal(modeOf(path), 0o600);
    }
});

test('a recording that has no room leaves the program running', () => {
    const { status, stderr } = run('--record', '/dev/full', '--', 'sh', '-c', 'echo a; exit 7');
    assert.equal(status, 7);
    assert.match(stderr, /--record \/dev\/full: No space left/);
});

test('a token in a file keeps the address, and viewers come back', async () => {
    const token = join(folder, 'token');
    const program = text => ['--', 'sh', '-c', `printf ${text}; sleep 100`];
    const first = await startApart('--token', token, ...program('first'));
    assert.equal(modeOf(token), 0o600);
    const client = await show(first, 'first'), shown = show(first, 'second', client);
    first.kill('SIGKILL');
    await first.ended;
    const second = await startApart('--token', token, '--port', first.port, ...program('second'));
    assert.equal(second.address, first.address);
    await shown;
    second.kill('SIGKILL');
});

test('viewers of a session that is gone learn it', async () => {
    const program = text => ['--', 'sh', '-c', `printf ${text}; sleep 100`];
    const first = await startApart(...program('first')), client = await show(first, 'first');
    first.kill('SIGKILL');
    await first.ended;
    const second = await startApart('--port', first.port, ...program('second'));
    assert.deepEqual(await follow(client, first.stream), { state: 'gone', exit: null });
    second.kill('SIGKILL');
});

test('the address of a proxy is printed, and its name is a host', async () => {
    const url = 'https://screens.example/a/';
    const words = ['--no-wait', '--listen', '127.0.0.1:0', '--url', url];
    const shared = Shared.apart([...words, 'sleep', '100']);
    started.push(shared);
    await until(() => shared.errors.includes('?pull'), 'an address');
    assert.match(shared.errors, /^https:\/\/screens\.example\/a\/[0-9a-f]{32}\/\?pull$/m);
});

// ---------------------------------------------------------------------- the program

test('the program ends, and viewers learn how', async () => {
    const shared = await startApart('--', 'sh', '-c', 'printf ready; read line; exit 5');
    const client = await show(shared, 'ready'), ends = follow(client, shared.stream);
    shared.press('\n');
    assert.deepEqual(await ends, { state: 'ended', exit: 5 });
    assert.deepEqual(await shared.ended, [5, null]);
    assert.equal(client.screen.title, 'sh');
});

test('without a window nothing hangs, and the terminal answers', async () => {
    const ask = String.raw`stty raw -echo; printf '\033[6n'; dd bs=1 count=6 2>/dev/null | cat -v`;
    const shared = await startApart('--', 'sh', '-c', `${ask}; sleep 100`);
    const { screen } = await show(shared, '^[[1;1R');
    assert.deepEqual([screen.width, screen.height], [80, 24]);
    shared.kill('SIGTERM');
    assert.deepEqual(await shared.ended, [143, null]);
});

for (const [signal, goesOn] of [['SIGINT', true], ['SIGQUIT', true], ['SIGHUP', false]]) {
    test(`${signal} reaches the program`, async () => {
        const shared = await startApart('--', ...keeper);
        await show(shared, 'ready');
        shared.kill(signal);
        const client = await show(shared, `got ${signal}`);
        if (goesOn) {
            shared.kill('SIGTERM');
            await show(shared, 'got SIGTERM', client).catch(() => {});
            assert.deepEqual(await shared.ended, [3, null]);
        } else {
            assert.deepEqual(await shared.ended, [137, null]); // it went on, and was killed
        }
    });
}

test('a program that closes its terminal can be stopped', async () => {
    const shared = await startApart('--', ...keeper);
    const client = await show(shared, 'ready');
    const [, id] = /ready (\d+)/.exec(client.screen.text(0));
    process.kill(Number(id), 'SIGUSR1');
    assert.deepEqual(await follow(client, shared.stream), { state: 'ended', exit: null });
    await pause(2500);
    assert.equal(shared.process.exitCode, null);
    shared.kill('SIGINT');
    assert.deepEqual(await shared.ended, [137, null]);
});

// ---------------------------------------------------------------------- the window

const MODES = String.raw`\e[?1049h\e[?25l\e[?1000h\e[?1006h\e[?2004h\e[?7l\e[3;5r\e[1;31m`;

/** Judges what a window is left with by all that was written to it. */
function judgeWindow(output) {
    const last = new Map();
    for (const [, number, letter] of output.matchAll(/\x1b\[\?(\d+)([hl])/g)) {
        last.set(number, letter);
    }
    const modes = ['1049', '25', '1000', '1006', '2004', '7'].map(number => last.get(number));
    assert.deepEqual(modes, ['l', 'h', 'l', 'l', 'l', 'h']);
    assert.equal([...output.matchAll(/\x1b\[([\d;]*)r/g)].at(-1)[1], ''); // the margins
    assert.match(output, /\x1b\[m[^m]*$/); // the pen
}

/** Starts `share` in a window, and notes the window's settings before and after it. */
async function startInWindow(own) {
    const [before, later] = ['before', 'later'].map(name => join(own, name));
    const shared = await start(Shared.inWindow(own, ['--no-wait', '--', ...keeper, MODES], {
        before: `stty -a >${before};`, after: `code=$?; stty -a >${later}; exit $code`,
    }));
    return { shared, settings: () => [before, later].map(path => readFileSync(path, 'utf8')) };
}

const childOf = id => Number(execFileSync('pgrep', ['-P', String(id)], { encoding: 'utf8' }));

for (const [how, signal, find, status] of [
    ['SIGTERM', 'SIGTERM', shared => childOf(shared.id), 3],
    ['a kill of the program', 'SIGKILL', shared => childOf(childOf(shared.id)), 137],
]) {
    test(`the window is put back after ${how}`, async () => {
        const own = makeFolder(), { shared, settings } = await startInWindow(own);
        await show(shared, 'ready');
        process.kill(find(shared), signal);
        assert.deepEqual(await shared.ended, [status, null]);
        judgeWindow(shared.output);
        const [before, later] = settings();
        assert.equal(later, before);
        removeFolder(own);
    });
}

// ---------------------------------------------------------------------- viewers

test('abandoned asks leave nothing', async () => {
    const shared = await startApart('--', 'sh', '-c', 'printf ready; sleep 100');
    const { screen } = await show(shared, 'ready');
    const { files } = shared;
    const ask = shared.head('GET', `stream/${screen.surface}/${screen.number}`);
    for (let round = 0; round < 5; round++) {
        const sockets = Array.from({ length: 200 }, () => connect(shared.port, '127.0.0.1'));
        sockets.forEach(socket => socket.on('error', () => {}).write(ask));
        await until(() => shared.files >= files + 150, 'connections');
        sockets.forEach(socket => socket.destroy());
        await until(() => shared.files <= files + 2, 'the end of these');
    }
    assert.ok(shared.threads <= 8, `${shared.threads} threads`);
});

test('a thousand idle connections lock no viewer out', async () => {
    const program = 'printf ready; read line; printf more; read line';
    const shared = await startApart('--', 'sh', '-c', program);
    const early = await show(shared, 'ready');
    const idle = Array.from({ length: 1000 }, () => connect(shared.port, '127.0.0.1'));
    idle.forEach(socket => socket.on('error', () => {}));
    await until(() => shared.files > 1000, 'a thousand connections', 20);
    const more = show(shared, 'more', early), late = await show(shared, 'ready');
    shared.press('\n');
    await more;
    await show(shared, 'more', late);
    assert.deepEqual(contentsOf(late.screen), contentsOf(early.screen));
    await until(() => shared.files < 100, 'their end, after ten seconds', 15);
});

test('who asks for numbers that nobody was given gets the screen', async () => {
    const shared = await startApart('--', 'sh', '-c', 'printf ready; sleep 100');
    const { screen } = await show(shared, 'ready');
    for (const name of [`1/${screen.number}`, `${screen.surface}/0`, `${screen.surface}/9999999`]) {
        const response = await fetch(`${shared.stream}/${name}`);
        const { value } = await response.body.getReader().read(), client = new Client();
        client.feed(value);
        assert.deepEqual(contentsOf(client.screen), contentsOf(screen));
    }
});

test('a program that writes without end takes no more memory', async () => {
    const shared = await start(Shared.apart(['--no-wait', '--', 'yes'], 'ignore'));
    const client = await show(shared, 'y');
    await follow(client, shared.stream, ({ answers }) => answers > 50);
    const status = readFileSync(`/proc/${shared.id}/status`, 'utf8');
    const [, kilobytes] = /VmRSS:\s+(\d+) kB/.exec(status);
    assert.ok(Number(kilobytes) < 50000, `${kilobytes} KB`);
    shared.kill('SIGTERM');
    assert.deepEqual(await shared.ended, [143, null]);
});

test('viewers don\'t make the program wait', async () => {
    const write = 'read line; begin=$(date +%s%N); head -c 400000 /dev/zero | tr "\\0" a; '
        + 'end=$(date +%s%N); printf "took %s." $(((end - begin) / 1000000)); read line';
    const shared = await startApart('--', 'sh', '-c', `printf ready; ${write}`);
    const clients = Array.from({ length: 200 }, () => new Client());
    await Promise.all(clients.map(client => show(shared, 'ready', client)));
    const shown = clients.map(client => show(shared, 'took', client));
    shared.press('\n');
    await Promise.all(shown);
    const { screen } = clients[0];
    const [, took] = /took (\d+)\./.exec(screen.rows.map((_, y) => screen.text(y)).join(''));
    console.log(`200 clients: the program takes ${took} ms for 400 KB`);
    assert.ok(Number(took) < 1000, `${took} ms`);
});
