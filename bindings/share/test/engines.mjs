// `share` behind edges, for 200 viewers: two of Varnish behind a third one, nginx's cache, and TLS
// with HTTP/2 before an edge. The server is killed and replaced, and so is an edge. All viewers
// show the last screen in the end. `SHARE=PROGRAM node --test engines.mjs`.
import assert from 'node:assert/strict';
import { createHash } from 'node:crypto';
import { execFileSync } from 'node:child_process';
import { chmodSync, mkdirSync, readFileSync } from 'node:fs';
import { connect as connectTwo } from 'node:http2';
import { join } from 'node:path';
import test, { after } from 'node:test';
import { Client } from '../../js/tikeburo.mjs';
import { contentsOf, follow } from './follow.mjs';
import { findMissing, findPort, startNginx, startVarnish } from './edges.mjs';
import { here, makeFolder, pause, removeFolder, Shared, until } from './shared.mjs';

const folder = makeFolder(), SECRET = 'of-this-test', token = join(folder, 'token');
const at = name => join(folder, name);
const started = [], viewers = [], missing = findMissing('varnishd', 'nginx');
const skip = missing.length > 0 && `${missing.join(' and ')} isn't there`;

chmodSync(folder, 0o755); // engines that root starts run as somebody else
after(async () => {
    started.forEach(({ process }) => process.kill()); // workers end with their engine
    await pause(500);
    removeFolder(folder);
});

const keep = it => (started.push(it), it);

/** `share`, which runs the painter at the same address each time. */
async function startShare(port) {
    const words = ['--no-wait', '--token', token, '--port', port, '--url', 'https://a.example'];
    const shared = keep(Shared.apart([...words, '--', process.execPath, here('painter.mjs')]));
    await until(() => shared.errors.includes('?pull'), 'an address');
    return shared;
}

function makeCertificate() {
    mkdirSync(at('tls'));
    execFileSync('openssl', ['req', '-x509', '-newkey', 'ec', '-pkeyopt', 'ec_paramgen_curve:P-256',
        '-nodes', '-days', '1', '-subj', '/CN=localhost', '-addext', 'subjectAltName=DNS:localhost',
        '-keyout', at('tls/key.pem'), '-out', at('tls/cert.pem')], { stdio: 'ignore' });
}

/** A viewer's own part of the path, which the edge takes until this time. */
function sign(seconds) {
    const hash = createHash('md5').update(`${seconds} ${SECRET}`).digest('base64url');
    return `${seconds}/${hash}`;
}

/** What `fetch` does, over streams of one connection of HTTP/2. */
function makeFetch(port) {
    const ca = readFileSync(at('tls/cert.pem'));
    const session = connectTwo(`https://localhost:${port}`, { ca });
    session.on('error', () => {});
    started.push({ process: { kill: () => session.destroy() } });
    return (address, { signal }) => new Promise((done, fail) => {
        const stream = session.request({ ':path': new URL(address).pathname }, { signal });
        stream.on('error', fail).on('response', headers => done(
            new Response(ReadableStream.from(stream), {
                status: headers[':status'],
                headers: { 'exit-status': headers['exit-status'] ?? '' },
            })));
        stream.end();
    });
}

function addViewers(count, address, options = {}) {
    for (let n = 0; n < count; n++) {
        const client = new Client();
        const ended = follow(client, address, () => false, options);
        viewers.push({ client, ended, address });
    }
}

/** Waits until this holds of all viewers' screens. */
async function untilAll(holds, what, seconds) {
    const isLeft = ({ client: { screen, answers } }) => !answers || !holds(screen);
    await until(() => !viewers.some(isLeft), what, seconds).catch(error => {
        const left = viewers.filter(isLeft).map(({ address }) => new URL(address).port);
        throw new Error(`${error.message}: ${left.length} viewers at ${[...new Set(left)]}`);
    });
}

const showAll = (text, seconds) =>
    untilAll(screen => screen.text(0).includes(text), `${text} for all`, seconds);

test('200 viewers behind edges show the last screen', { skip, timeout: 120000 }, async () => {
    const port = await findPort();
    let shared = await startShare(port);
    const secret = readFileSync(token, 'utf8').trim();
    const middle = keep(await startVarnish(at('middle'), port));
    const edges = [];
    for (const name of ['one', 'two']) edges.push(keep(await startVarnish(at(name), middle.port)));
    const nginx = keep(await startNginx('nginx.conf', at('nginx'), port));
    makeCertificate();
    const values = { TOKEN: secret, SECRET };
    const tls = keep(await startNginx('tls.conf', at('tls'), edges[1].port, values));
    for (const edge of edges) addViewers(80, `http://127.0.0.1:${edge.port}/${secret}/stream`);
    addViewers(20, `http://127.0.0.1:${nginx.port}/${secret}/stream`);
    const fetchTwo = makeFetch(tls.port), later = Math.floor(Date.now() / 1000) + 600;
    addViewers(20, `https://localhost:${tls.port}/${sign(later)}/stream`, { fetch: fetchTwo });
    await showAll('size 80 24', 20);

    const statusOf = async path => (await fetchTwo(`https://localhost${path}`, {})).status;
    assert.equal(await statusOf(`/${sign(later)}/`), 200);
    const longer = sign(later).replace(/^\d+/, String(later + 1));
    assert.equal(await statusOf(`/${longer}/stream/0/0`), 403);
    assert.equal(await statusOf(`/${sign(1000000000)}/stream/0/0`), 404);
    assert.equal(await statusOf(`/${secret}/stream/0/0`), 404);

    shared.press('r');
    await showAll('frame', 20);
    shared.kill('SIGKILL');
    await shared.ended;
    shared = await startShare(port);
    await untilAll(screen => !screen.text(0).includes('frame'), 'the new source for all', 30);
    shared.press('r');
    edges[0].process.kill('SIGTERM');
    await edges[0].ended;
    edges[0] = keep(await startVarnish(at('again'), middle.port, edges[0].port));
    await showAll('frame 100', 30);

    const direct = new Client();
    const [own] = [`http://127.0.0.1:${port}/${secret}/stream`];
    await follow(direct, own, ({ screen }) => screen.text(0).includes('frame 100'));
    const last = JSON.stringify(contentsOf(direct.screen));
    shared.press('q');
    for (const { client, ended, address } of viewers) {
        assert.deepEqual(await ended, { state: 'ended', exit: 7 }, address);
        assert.equal(JSON.stringify(contentsOf(client.screen)), last, address);
    }
    assert.deepEqual(await shared.ended, [7, null]);
});
