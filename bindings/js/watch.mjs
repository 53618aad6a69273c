#!/usr/bin/env node
// watch.mjs [-a] [--cells N] [--rows N] [--bytes N] reads a stream of answers and prints what its
// viewer shows after the last one, or with -a after each, as `surfwatch` does. A stale answer is
// reported, and a fault ends it, each with status 2; a failed write ends it with 3.
import { readSync, writeSync } from 'node:fs';
import { parseArgs } from 'node:util';
import { Client } from './tikeburo.mjs';

const USAGE = 'usage: watch.mjs [-a] [--cells N] [--rows N] [--bytes N]';

/** The options, or nothing where they are others. */
function optionsOf(args) {
    const options = {
        all: { type: 'boolean', short: 'a' }, cells: { type: 'string' }, rows: { type: 'string' },
        bytes: { type: 'string' },
    };
    try {
        const { all, ...limits } = parseArgs({ args, options }).values;
        const numbers = Object.entries(limits).map(([name, word]) => [name, Number(word)]);
        const right = numbers.every(([name, number]) =>
            Number.isSafeInteger(number) && number >= (name === 'bytes' ? 1 : 0));
        return right ? { all, limits: Object.fromEntries(numbers) } : null;
    } catch {
        return null;
    }
}

function write(descriptor, text) {
    const bytes = Buffer.from(text);
    try {
        for (let at = 0; at < bytes.length;) at += writeSync(descriptor, bytes, at);
    } catch {
        process.exit(3);
    }
}

/** How many bytes of the input come next. */
function read(chunk) {
    try {
        return readSync(0, chunk);
    } catch {
        write(2, 'input: unreadable\n');
        return process.exit(2);
    }
}

/** Feeds the input to a client, to its end or to a fault. */
function feedInput(client) {
    const chunk = Buffer.alloc(65536);
    while (!client.fault) {
        const length = read(chunk);
        if (length === 0) return client.end();
        client.feed(chunk.subarray(0, length));
    }
    return client.fault;
}

/** Reports what is wrong with an answer. */
function report(fault) {
    write(2, `answer ${fault.answer}: ${fault.message}\n`);
}

/** The exit status. */
function watch({ all, limits }) {
    let shown = '', status = 0;
    const client = new Client({
        ...limits,
        onstale: fault => {
            status = 2;
            report(fault);
        },
        onanswer: ({ screen }) => {
            if (all) write(1, String(screen));
            else shown = String(screen);
        },
    });
    const fault = feedInput(client);
    write(1, shown);
    if (fault) {
        status = 2;
        report(fault);
    }
    return status;
}

const options = optionsOf(process.argv.slice(2));
if (options) {
    process.exitCode = watch(options);
} else {
    write(2, `${USAGE}\n`);
    process.exitCode = 2;
}
