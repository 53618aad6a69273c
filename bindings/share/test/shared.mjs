// `share` as it is used, in a window of `script` or without one. SHARE is the program.
import assert from 'node:assert/strict';
import { execFileSync, spawn } from 'node:child_process';
import { once } from 'node:events';
import { mkdtempSync, readdirSync, readFileSync, rmSync } from 'node:fs';
import { connect } from 'node:net';
import { tmpdir } from 'node:os';
import { join } from 'node:path';
import { fileURLToPath } from 'node:url';

export const here = name => fileURLToPath(new URL(name, import.meta.url));
export const pause = milliseconds => new Promise(done => setTimeout(done, milliseconds));
export const makeFolder = () => mkdtempSync(join(tmpdir(), 'share-'));
export const removeFolder = folder => rmSync(folder, { recursive: true, force: true });

export async function until(holds, what, seconds = 10) {
    for (const end = Date.now() + 1000 * seconds; !await holds(); await pause(20)) {
        assert.ok(Date.now() < end, `still not: ${what}`);
    }
}

const quote = word => `'${String(word).replaceAll("'", String.raw`'\''`)}'`;

/** `share` with these words. What is sent to it are its user's keys. */
export class Shared {
    output = '';
    errors = '';

    /** In a window of 80 columns and 24 rows, which this line of a shell's comes before. */
    static inWindow(folder, words, { before = '', after = '' } = {}) {
        const [tty, pid] = [join(folder, 'tty'), join(folder, 'pid')];
        const command = [process.env.SHARE, ...words].map(quote).join(' ');
        const run = after ? `${command}; ${after}` : `exec ${command}`;
        const line = `stty cols 80 rows 24; tty >${tty}; echo $$ >${pid}; ${before} ${run}`;
        return new Shared('script', ['-qefc', line, '/dev/null'], { tty, pid });
    }

    /** Without a window. */
    static apart(words, stdout) {
        return new Shared(process.env.SHARE, words, {}, stdout);
    }

    constructor(program, words, properties = {}, stdout = 'pipe') {
        Object.assign(this, properties);
        this.process = spawn(program, words, { stdio: ['pipe', stdout, 'pipe'] });
        this.process.stdout?.on('data', data => this.output += data);
        this.process.stderr.on('data', data => this.errors += data);
        this.process.stdin.on('error', () => {});
        this.ended = once(this.process, 'close');
    }

    /** Waits for the address. */
    async start() {
        const find = () => /(https?:\S+)\?pull/.exec(this.output + this.errors)?.[1];
        await until(find, 'an address');
        this.address = find();
        this.stream = `${this.address}stream`;
        this.port = Number(new URL(this.address).port);
        return this;
    }

    press(keys) {
        this.process.stdin.write(keys);
    }

    resize(width, height) {
        const tty = readFileSync(this.tty, 'utf8').trim();
        execFileSync('stty', ['-F', tty, 'cols', String(width), 'rows', String(height)]);
    }

    /** The number of the process that is `share`. */
    get id() {
        return this.pid ? Number(readFileSync(this.pid, 'utf8')) : this.process.pid;
    }

    get threads() {
        return readdirSync(`/proc/${this.id}/task`).length;
    }

    get files() {
        return readdirSync(`/proc/${this.id}/fd`).length;
    }

    kill(signal) {
        process.kill(this.id, signal);
    }

    /** The head of a request for a name below the token. */
    head(method, name, fields = '') {
        const { pathname, host } = new URL(this.address);
        return `${method} ${pathname}${name} HTTP/1.1\r\nhost: ${host}\r\n${fields}\r\n`;
    }

    /** The head that comes back for these bytes, or what there is of it after a while. */
    send(milliseconds, ...parts) {
        return new Promise(done => {
            const socket = connect(this.port, '127.0.0.1');
            let text = '';
            const end = () => {
                socket.destroy();
                done(text);
            };
            socket.on('error', end).on('close', end).setEncoding('latin1').on('data', data => {
                text += data;
                if (text.includes('\r\n\r\n')) end();
            });
            parts.forEach(part => socket.write(part));
            setTimeout(end, milliseconds).unref();
        });
    }
}
