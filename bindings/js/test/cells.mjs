// Whether a page in a browser shows the cells that a screen has, for tests.
import assert from 'node:assert/strict';
import { styleOf } from '../tikeburo.mjs';
import { contrast, partsOf } from './contrast.mjs';
import { readPng } from './png.mjs';

export const ELEMENT = "document.querySelector('tikeburo-screen')";
export const ROOT = `${ELEMENT}.shadowRoot`;

/** Each row's class and its spans, as a browser has laid them out and styled them. */
const readRows = page => page.evaluate(`(() => {
    const grid = ${ROOT}.querySelector('[part=grid]'), left = grid.getBoundingClientRect().left;
    const cell = grid.getBoundingClientRect().width / ${ELEMENT}.screen.width;
    return [...grid.querySelectorAll('.row')].map(row => ({
        name: row.className,
        spans: [...row.firstChild.children].map(span => {
            const style = getComputedStyle(span), box = span.getBoundingClientRect();
            return {
                text: span.textContent, left: (box.left - left) / cell, columns: box.width / cell,
                weight: style.fontWeight, slant: style.fontStyle, front: style.color,
                back: style.backgroundColor, line: style.textDecorationLine,
                shape: style.textDecorationStyle, lines: style.backgroundImage.split('),').length,
                cut: style.overflow, bidi: style.unicodeBidi, href: span.href ?? null,
                blinks: style.animationName, name: span.localName,
            };
        }),
    }));
})()`);

const UNDERLINES = ['solid', 'solid', 'double', 'wavy', 'dotted', 'dashed'];
const rgb = color => (Array.isArray(color) ? `rgb(${color.slice(0, 3).join(', ')})` : null);

/** Whether one of a text's colours is the palette's, so that the text has to be readable. */
const isOwn = color => color === null || color < 16;

/** Whether a span's text can be read, and is exact where its own colour can be. */
function judgeText(span, [front, back], style, own) {
    const text = rgb(front), ground = span.back === 'rgba(0, 0, 0, 0)' ? own : span.back;
    const isJudged = isOwn(front) || isOwn(back);
    const isHidden = String(front) === String(back) && front !== null;
    if (isJudged && !isHidden) {
        const found = contrast(partsOf(span.front), partsOf(ground));
        assert.ok(found >= 2.99, `${span.front} on ${ground}`); // some are mixed by the browser
    }
    const isReadable = text && contrast(partsOf(text), partsOf(ground)) >= 3;
    if (text && style.intensity !== 2 && (isReadable || !isJudged)) assert.equal(span.front, text);
}

/** Whether a span looks as a cell's attributes say. */
function judgeLook(span, attributes, own) {
    const style = styleOf(attributes.style);
    assert.equal(span.weight, style.intensity === 1 ? '700' : '400');
    assert.equal(span.slant, style.italic ? 'italic' : 'normal');
    assert.equal(span.line, style.underline ? 'underline' : 'none');
    if (style.underline) assert.equal(span.shape, UNDERLINES[style.underline]);
    const { foreground: front, background: back } = attributes;
    const colors = style.reverse ? [back, front] : [front, back], [, ground] = colors.map(rgb);
    if (ground) assert.equal(span.back, ground);
    if (style.invisible) assert.equal(span.front, 'rgba(0, 0, 0, 0)');
    else if (!style.blink) judgeText(span, colors, style, own);
    assert.equal(span.blinks, style.blink ? 'blink' : 'none');
    const isOpened = attributes.link?.uri.trim().startsWith('https://e');
    assert.equal(span.href, isOpened ? new URL(attributes.link.uri).href : null);
    assert.equal(span.name, isOpened ? 'a' : 'span');
}

/** Whether each cell of the screen stands in the page, where it belongs. */
export async function judgeCells(page, screen) {
    const rows = await readRows(page);
    const own = await page.evaluate(`getComputedStyle(${ELEMENT}).backgroundColor`);
    assert.equal(rows.length, screen.height);
    rows.forEach(({ name, spans }, y) => {
        const { attribute } = screen.rows[y];
        assert.equal(name, ['row top', 'row bottom', 'row double', 'row'][attribute]);
        const scale = attribute < 3 ? 2 : 1, cells = [...screen.cells(y)];
        for (const span of spans) {
            const [x, { attributes }] = cells[0];
            judgeLook(span, attributes, own);
            assert.equal(span.cut, 'hidden');
            assert.equal(span.bidi, 'isolate');
            assert.ok(Math.abs(span.left / scale - x) < 0.05, `${span.left} for ${x}`);
            let text = '', end = x;
            while (text.length < span.text.length) {
                const [, cell] = cells.shift();
                text += cell.text;
                end += cell.columns;
            }
            assert.equal(text, span.text);
            const columns = Math.min(end, screen.width) - x;
            assert.ok(Math.abs(span.columns / scale - columns) < 0.05);
        }
        assert.equal(cells.length, 0);
    });
}

/** The middles of blanks with a true colour have it in a screenshot. Returns how many there are. */
export async function judgePixels(page, screen) {
    const pixel = readPng(await page.screenshot());
    const box = await page.evaluate(`(() => {
        const grid = ${ROOT}.querySelector('[part=grid]');
        return JSON.parse(JSON.stringify(grid.getBoundingClientRect()));
    })()`);
    let judged = 0;
    for (let y = 0; y < screen.height; y++) {
        if (screen.rows[y].attribute !== 3) continue;
        for (const [x, { text, attributes }] of screen.cells(y)) {
            const { background, style } = attributes, { cursor } = screen;
            const isCursor = cursor.y === y && Math.abs(cursor.x - x) < 2;
            if (text !== ' ' || !Array.isArray(background) || style || isCursor) continue;
            const left = box.left + (x + 0.5) * box.width / screen.width;
            const top = box.top + (y + 0.5) * box.height / screen.height;
            assert.deepEqual(pixel(Math.floor(left), Math.floor(top)), background.slice(0, 3));
            judged++;
        }
    }
    return judged;
}
