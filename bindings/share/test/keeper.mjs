// A program that names the signals that reach it, and goes on: `node keeper.mjs [MODES]`. It writes
// MODES first, in which the letter `e` after a backslash is ESC. At SIGTERM it ends with status 3,
// unless it is to stay (STAYS=1), and at SIGUSR1 it closes its terminal.
import { closeSync, writeSync } from 'node:fs';

const say = text => writeSync(1, `${text}\r\n`);

writeSync(1, (process.argv[2] ?? '').replaceAll('\\e', '\x1b'));
for (const signal of ['SIGHUP', 'SIGINT', 'SIGQUIT', 'SIGTERM']) {
    process.on(signal, () => {
        try {
            say(`got ${signal}`);
        } catch {
            // the terminal is closed
        }
        if (signal === 'SIGTERM' && !process.env.STAYS) process.exit(3);
    });
}
process.on('SIGUSR1', () => [0, 1, 2].forEach(file => closeSync(file)));
setInterval(() => {}, 1000);
say(`ready ${process.pid}`);
