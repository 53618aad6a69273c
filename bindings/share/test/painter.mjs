// Paints colours, wide texts and emoji on its terminal, and again in each size that it gets. Of the
// keys, `r` makes it count to 100, and `q` ends it.
const { stdin, stdout } = process;

function paint() {
    const [width, height] = stdout.getWindowSize();
    stdout.write([
        '\x1b[0m\x1b[2J\x1b[H',
        `\x1b]2;${width} by ${height}\x07`,
        `size ${width} ${height}\r\n`,
        '\x1b[1;31mbold red\x1b[0m \x1b[4:3;58;2;1;2;3mwave\x1b[0m ',
        '\x1b[38;5;200;7mpalette\x1b[0m\r\n',
        'か漢字 and ﾊﾝ, wide\r\n',
        '🙂👩‍🚀🇩🇪 e\u0301 ☂️|\r\n',
        '\x1b[48;2;10;20;30m\x1b[K\x1b[0m\r\n',
        '\x1b]8;;https://example.org/\x1b\\a link\x1b]8;;\x1b\\ \x1b(0lqk\x1b(B\r\n',
        `\x1b[7;${height}r\x1b[7H${Array.from({ length: 50 }, (_, n) => `line ${n}`).join('\r\n')}`,
        '\x1b[8H\x1b[2L\x1b[7;6H\x1b[4@in\x1b[10H\x1b[2P\x1b[r',
        `\x1b[${height - 1};${width - 3}Hwrapか`,
        '\x1b[2;5H\x1b[5 q',
    ].join(''));
}

async function count() {
    for (let n = 1; n <= 100; n++) {
        stdout.write(`\x1b[1;20H\x1b[3${n % 8}mframe ${n}\x1b[0m`);
        await new Promise(done => setTimeout(done, 10));
    }
}

stdin.setRawMode(true);
stdin.on('data', keys => {
    if (keys.includes('r')) count();
    if (keys.includes('q')) process.exit(7);
});
stdout.on('resize', paint);
paint();
