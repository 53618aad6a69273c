#!/usr/bin/env node
// Measures what viewers cost `share`: `SHARE=PROGRAM node measure.mjs VIEWERS UPDATES [ENGINE]`.
// A program makes UPDATES updates a second, and VIEWERS viewers follow them, directly or behind an
// engine, `varnish` or `nginx`; then it writes 400 KB. It prints what the viewers got, what each
// process took in processors and memory, and how long the program waited. It needs cc, and a file
// for each viewer (`ulimit -n`).
import { execFileSync, spawn } from 'node:child_process';
import { chmodSync, readFileSync } from 'node:fs';
import { join } from 'node:path';
import { Client } from '../../js/tikeburo.mjs';
import { startNginx, startVarnish } from './edges.mjs';
import { follow } from './follow.mjs';
import { here, makeFolder, pause, removeFolder, Shared, until } from './shared.mjs';

const SECONDS = 10, TICKS = 100; // of the system's clock, in each second
const [viewers, updates, engine] = process.argv.slice(2);
const folder = makeFolder(), program = join(folder, 'viewers');

const childrenOf = id => readFileSync(`/proc/${id}/task/${id}/children`, 'utf8').split(' ')
    .filter(Boolean).map(Number);

/** Seconds of a processor that a process and its children took, and its memory in megabytes. */
function usedBy(id) {
    const stat = readFileSync(`/proc/${id}/stat`, 'utf8');
    const fields = stat.slice(stat.lastIndexOf(')') + 2).split(' ').map(Number);
    const own = [(fields[11] + fields[12]) / TICKS, fields[21] * 4096 / 1e6];
    return childrenOf(id).map(usedBy).reduce(([a, b], [c, d]) => [a + c, b + d], own);
}

/** The processes that are measured: `share` without the program that runs in it. */
function usedByShare(id) {
    const [own, writer] = [usedBy(id), usedBy(childrenOf(id)[0])];
    return [own[0] - writer[0], own[1] - writer[1]];
}

const START = {
    varnish: startVarnish,
    nginx: (own, next) => startNginx('nginx.conf', own, next),
};

/** How long the program takes to write 400 KB now. */
async function timeWriting(shared) {
    const client = new Client(), { id } = shared;
    const took = follow(client, shared.stream, ({ screen }) => screen.title.startsWith('took'));
    await until(() => client.answers > 0, 'an answer');
    process.kill(childrenOf(id)[0], 'SIGUSR1');
    await took;
    return client.screen.title;
}

chmodSync(folder, 0o755); // an engine that root starts runs as somebody else
execFileSync('cc', ['-O2', here('viewers.c'), '-o', program]);
const words = ['--no-wait', '--', process.execPath, here('writer.mjs'), updates];
const shared = await Shared.apart(words, 'ignore').start();
const edge = engine && await START[engine](join(folder, engine), shared.port);
await pause(1000);
const { pathname } = new URL(shared.stream);
const child = spawn(program, [edge?.port ?? shared.port, pathname, viewers, SECONDS].map(String));
let line = '';
child.stdout.on('data', data => line += data);
const done = new Promise(close => child.on('close', close));
await pause(1000 * (Math.floor(viewers / 2000) + 3));
const measured = [['share', () => usedByShare(shared.id)], [engine, () => usedBy(edge.id)]]
    .slice(0, edge ? 2 : 1);
const before = measured.map(([, use]) => use()[0]), began = Date.now();
await pause(1000 * (SECONDS - 3));
for (const [k, [name, use]] of measured.entries()) {
    const [time, memory] = use(), processors = 1000 * (time - before[k]) / (Date.now() - began);
    console.log(`${name}: ${processors.toFixed(3)} processors, ${memory.toFixed(0)} MB`);
}
console.log(`share: ${shared.threads} threads, ${shared.files} files; 400 KB: `
    + await timeWriting(shared));
await done;
console.log(line.trim());
edge?.process.kill();
shared.kill('SIGKILL');
removeFolder(folder);
