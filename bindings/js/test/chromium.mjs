// A browser without a window, by its protocol for developer tools over a pipe.
import { spawn, spawnSync } from 'node:child_process';
import { mkdtempSync, rmSync } from 'node:fs';
import { tmpdir } from 'node:os';
import { join } from 'node:path';

const NAMES = ['chromium', 'chromium-browser', 'google-chrome'];

/** The program's name, where it is there. */
export const findChromium = () =>
    NAMES.find(name => spawnSync(name, ['--version'], { stdio: 'ignore' }).status === 0);

export class Chromium {
    #folder = mkdtempSync(join(tmpdir(), 'tikeburo-page-'));
    #calls = new Map();
    #events = new Map(); // what is called for an event, by its name
    #last = 0;

    constructor(program) {
        const words = ['--headless', '--remote-debugging-pipe', '--disable-gpu', '--no-first-run',
            '--hide-scrollbars', '--force-color-profile=srgb', '--disable-extensions',
            '--disable-background-networking', `--user-data-dir=${this.#folder}`];
        if (process.getuid() === 0) words.push('--no-sandbox');
        const stdio = ['ignore', 'ignore', 'ignore', 'pipe', 'pipe'];
        this.process = spawn(program, words, { stdio });
        let text = '';
        this.process.stdio[4].setEncoding('utf8').on('data', data => {
            const messages = (text + data).split('\0');
            text = messages.pop();
            messages.forEach(message => this.#take(JSON.parse(message)));
        });
    }

    #take({ id, result, error, method, params }) {
        if (id === undefined) return this.#events.get(method)?.(params);
        const { done, fail } = this.#calls.get(id);
        this.#calls.delete(id);
        return error ? fail(new Error(error.message)) : done(result);
    }

    send(method, params = {}, sessionId = undefined) {
        const id = ++this.#last;
        this.process.stdio[3].write(`${JSON.stringify({ id, method, params, sessionId })}\0`);
        return new Promise((done, fail) => this.#calls.set(id, { done, fail }));
    }

    on(method, listener) {
        this.#events.set(method, listener);
    }

    /** A new page, of this size in CSS pixels. */
    async open(address, width, height) {
        const { targetId } = await this.send('Target.createTarget', { url: 'about:blank' });
        const { sessionId } = await this.send('Target.attachToTarget', { targetId, flatten: true });
        const page = new Page(this, sessionId);
        await page.send('Page.enable');
        await page.send('Runtime.enable');
        await page.resize(width, height);
        await page.send('Page.navigate', { url: address });
        return page;
    }

    async close() {
        const ended = new Promise(done => this.process.once('exit', done));
        await this.send('Browser.close');
        await ended;
        rmSync(this.#folder, { recursive: true, force: true });
    }
}

class Page {
    constructor(browser, session) {
        Object.assign(this, { browser, session });
    }

    send(method, params) {
        return this.browser.send(method, params, this.session);
    }

    resize(width, height, deviceScaleFactor = 1) {
        return this.send('Emulation.setDeviceMetricsOverride',
            { width, height, deviceScaleFactor, mobile: false });
    }

    /** Sets features as `prefers-color-scheme`. */
    prefer(features) {
        const list = Object.entries(features).map(([name, value]) => ({ name, value }));
        return this.send('Emulation.setEmulatedMedia', { features: list });
    }

    /** The value of an expression, or of what it promises. */
    async evaluate(expression) {
        const options = { expression, awaitPromise: true, returnByValue: true, userGesture: true };
        const { result, exceptionDetails } = await this.send('Runtime.evaluate', options);
        const { exception } = exceptionDetails ?? {};
        if (exceptionDetails) throw new Error(exception?.description ?? 'no value');
        return result.value;
    }

    /** Waits until an expression holds. */
    async until(expression) {
        for (let left = 200; left > 0; left--) {
            if (await this.evaluate(`Boolean(${expression})`)) return;
            await new Promise(done => setTimeout(done, 50));
        }
        throw new Error(`still not: ${expression}`);
    }

    async click(x, y) {
        for (const type of ['mousePressed', 'mouseReleased']) {
            const event = { type, x, y, button: 'left', clickCount: 1 };
            await this.send('Input.dispatchMouseEvent', event);
        }
    }

    /** Presses a key that writes a character. */
    async press(key) {
        for (const type of ['keyDown', 'keyUp']) {
            await this.send('Input.dispatchKeyEvent', { type, key, text: key });
        }
    }

    /** Clicks what this expression finds. */
    async clickOn(expression) {
        const [x, y] = await this.evaluate(`(() => {
            const { left, top, width, height } = (${expression}).getBoundingClientRect();
            return [left + width / 2, top + height / 2];
        })()`);
        await this.click(x, y);
    }

    async screenshot() {
        const { data } = await this.send('Page.captureScreenshot', { format: 'png' });
        return Buffer.from(data, 'base64');
    }
}
