// A program that writes this many updates a second, on lines that scroll, as a log does:
// `node writer.mjs UPDATES`. At SIGUSR1 it writes 400 KB, and then how long that took.
import { writeSync } from 'node:fs';

const ROW = 'abcdefghijklmnopqrstuvwxyz 0123456789 '.repeat(2), LINES = 400000 / 80;

/** Writes all of it, also where the terminal takes a part of it alone. */
function write(text) {
    const bytes = Buffer.from(text);
    for (let at = 0; at < bytes.length;) at += writeSync(1, bytes, at);
}

let count = 0;
setInterval(() => write(`\r\n${count++} ${ROW}`.slice(0, 78)), 1000 / Number(process.argv[2]));
process.on('SIGUSR1', () => {
    const block = `${'x'.repeat(78)}\r\n`.repeat(LINES), began = performance.now();
    write(block);
    const took = performance.now() - began;
    process.stderr.write(`\x1b]2;took ${took.toFixed(0)} ms\x07`);
});
