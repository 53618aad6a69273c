// Varnish and nginx as edges before a server, by the configurations in engines/.
import { spawn, spawnSync } from 'node:child_process';
import { chmodSync, mkdirSync, readFileSync, writeFileSync } from 'node:fs';
import { connect, createServer } from 'node:net';
import { join } from 'node:path';
import { here, until } from './shared.mjs';

// Where an ordinary user's shell doesn't look.
const env = { ...process.env, PATH: `${process.env.PATH}:/usr/sbin:/usr/local/sbin` };

/** Which of these engines aren't there. */
export const findMissing = (...names) =>
    names.filter(name => spawnSync(name, ['-V'], { env, stdio: 'ignore' }).error);

/** A port that nobody listens to. */
export async function findPort() {
    const server = createServer();
    await new Promise(done => server.listen(0, '127.0.0.1', done));
    const { port } = server.address();
    await new Promise(done => server.close(done));
    return port;
}

const isOpen = port => new Promise(done => {
    const socket = connect(port, '127.0.0.1', () => done(true));
    socket.on('error', () => done(false)).on('connect', () => socket.destroy());
});

/** Writes a configuration with these values into a folder, and returns its path. */
function configure(name, folder, values) {
    mkdirSync(folder, { recursive: true });
    chmodSync(folder, 0o755); // an engine that root starts runs as somebody else
    let text = readFileSync(here(`../engines/${name}`), 'utf8');
    for (const [key, value] of Object.entries({ DIR: folder, WORKERS: 1, ...values })) {
        text = text.replaceAll(`@${key}@`, value);
    }
    writeFileSync(join(folder, name), text);
    return join(folder, name);
}

async function run(port, command, words) {
    const engine = spawn(command, words, { env, stdio: ['ignore', 'ignore', 'pipe'] });
    let errors = '';
    engine.stderr.on('data', data => errors += data);
    engine.on('exit', code => code && console.error(`${command}: ${errors}`));
    const ended = new Promise(done => engine.on('exit', done));
    await until(() => isOpen(port), `${command} on port ${port}`, 20);
    return { port, id: engine.pid, process: engine, ended };
}

/** An edge of Varnish before this port. */
export async function startVarnish(folder, next, port = undefined) {
    const own = port ?? await findPort();
    const path = configure('edge.vcl', folder, { NEXT: next });
    const words = ['-F', '-f', path, '-a', `127.0.0.1:${own}`, '-n', join(folder, 'n')];
    return run(own, 'varnishd', [...words, '-s', 'malloc,64m', '-j', 'none',
        '-p', 'http_gzip_support=off', '-p', 'thread_pool_max=12000',
        '-p', 'thread_queue_limit=12000']);
}

/** An edge of nginx before this port, by one of its configurations. */
export async function startNginx(name, folder, next, values = {}) {
    const port = values.PORT ?? await findPort();
    const path = configure(name, folder, { NEXT: next, PORT: port, ...values });
    return run(port, 'nginx', ['-c', path, '-e', join(folder, 'error.log')]);
}
