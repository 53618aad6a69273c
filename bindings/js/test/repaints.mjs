// What a screen's repaint has to be, for tests.
import assert from 'node:assert/strict';
import { encodeRepaint } from '../repaint.mjs';
import { Client } from '../tikeburo.mjs';
import { decode, sequence } from './encode.mjs';

/** All that a screen shows, to be compared. */
export function contentsOf(screen) {
    const { surface, number, width, height, cursor, pen, title } = screen;
    const rows = screen.rows.map(({ attribute }, y) => [attribute, ...screen.cells(y)]);
    return { surface, number, width, height, cursor, pen, title, rows };
}

/** Whether a new client comes to show this screen by its repaint. Returns the changes. */
export function judgeRepaint(screen) {
    const bytes = encodeRepaint(screen), client = new Client();
    client.feed(bytes);
    assert.equal(client.end(), null);
    assert.equal(client.answers, 1);
    assert.deepEqual(contentsOf(client.screen), contentsOf(screen));
    const answer = decode(bytes); // what another encoder makes of it has the shortest forms
    assert.deepEqual(sequence(answer), bytes);
    assert.deepEqual(answer.slice(0, 6), [2n, screen.surface, BigInt(screen.width),
        BigInt(screen.height), 0n, screen.number]);
    assert.deepEqual(encodeRepaint(client.screen), bytes);
    return answer[6];
}
