// A screen as a grid of rows and spans. Nothing of a stream becomes anything but text, a colour or
// a number here, and each cell is isolated and clipped.
import { addressOf, COLORS, NAMES, Palette, spansOf } from './look.mjs';

/** A look's colours as CSS properties. */
const lookCss = look => `color-scheme: ${look}; `
    + NAMES.map((name, k) => `--${name}: ${COLORS[look][k]};`).join(' ');

const DARK_CSS = lookCss('dark'), LIGHT_CSS = lookCss('light');

export const STYLES = `
:host { display: block; ${DARK_CSS} background: var(--back); color: var(--front);
    --line: color-mix(in srgb, currentColor 20%, transparent);
    font: 16px "DejaVu Sans Mono", "Noto Sans Mono", Menlo, Consolas, monospace;
    text-size-adjust: 100%; -webkit-text-size-adjust: 100%; }
@media (prefers-color-scheme: light) { :host(:not([look=dark])) { ${LIGHT_CSS} } }
:host([look=light]) { ${LIGHT_CSS} }
:host([hidden]), [hidden] { display: none !important; }
:host([fit=both]) { display: flex; flex-direction: column; }
:host([fit=both]) [part=view] { display: grid; place-content: safe center; flex: 1;
    min-height: 0; }
[part=view] { overflow: auto; }
[part=grid] { position: relative; margin: 0 auto; direction: ltr; text-align: left;
    font-variant-ligatures: none; }
.row { overflow: hidden; white-space: pre; contain: strict; }
.row > span { display: block; height: 100%; transform-origin: 0 0; }
.double > span { transform: scale(2, 1); }
.top > span { transform: scale(2, 2); }
.bottom > span { transform: translateY(-100%) scale(2, 2); }
.cell { display: inline-block; height: 100%; overflow: hidden; vertical-align: top;
    white-space: pre; color: inherit; unicode-bidi: isolate; text-underline-offset: 0.06em;
    text-decoration-thickness: 0.06em; text-decoration-skip-ink: none; }
.alone { text-align: center; }
a.cell { cursor: pointer; }
a.cell:hover { filter: brightness(1.25); }
.unopened { cursor: help; }
.super { font-size: 65%; line-height: 1.1em; }
.sub { font-size: 65%; line-height: 2.7em; }
.slow { animation: blink 1.2s steps(2, jump-none) infinite; }
.rapid { animation: blink 0.5s steps(2, jump-none) infinite; }
@keyframes blink { to { color: transparent; text-decoration-color: transparent; } }
.cursor { position: absolute; overflow: hidden; white-space: pre; pointer-events: none;
    user-select: none; box-sizing: border-box; text-align: center; }
.blinking { animation: vanish 1.2s steps(2, jump-none) infinite; }
@keyframes vanish { to { opacity: 0; } }
@media (prefers-reduced-motion: reduce) { .slow, .rapid, .blinking { animation: none; } }
[part=controls] { display: flex; gap: 10px; align-items: center; padding: 6px 10px;
    font: 13px system-ui, sans-serif; border-top: 1px solid var(--line); }
[part=time-line] { flex: 1; min-width: 40px; }
[part=time] { font-variant-numeric: tabular-nums; }
[part=play], [part=speed] { font: inherit; color: inherit; background: none; padding: 2px 8px;
    border: 1px solid var(--line); border-radius: 6px; }
[part=speed] option { background: var(--back); }
[part=status] { padding: 6px 10px; font: 13px system-ui, sans-serif; unicode-bidi: isolate;
    overflow-wrap: anywhere; }
[part=status].wrong { color: var(--color-9); }
`;

const ROW_CLASSES = ['row top', 'row bottom', 'row double', 'row'];
const LINE_HEIGHT = 1.25; // of the font's size
// Sizes of fonts, in CSS pixels. A screen that fits by no readable one is scrolled.
const READABLE = 11, GREATEST = 64;
const LONGEST_CELL = 256; // no hostile cell of a million marks is laid out

/** A row's element, and what it was drawn from: the screen's row, and what is shown of that. */
class DrawnRow {
    element = document.createElement('div');
    row = null;
    version = 0;
    key = '';

    constructor() {
        this.element.append(document.createElement('span'));
    }

    shows(row) {
        return this.row === row && this.version === row.version;
    }
}

export class Grid {
    element = document.createElement('div');
    #rows = []; // as they are drawn
    #width = 0;
    #colors = null; // as the page's CSS has them
    #palette = null;
    #cursor = document.createElement('div');
    #probe = document.createElement('span');
    #cell = 9.6; // CSS pixels
    #row = 20;
    #css = ''; // of the grid

    constructor() {
        this.element.setAttribute('part', 'grid');
        this.element.append(this.#cursor);
        this.#probe.textContent = 'x'.repeat(50);
        this.#probe.style.cssText = 'position:absolute;visibility:hidden;font-size:100px;'
            + 'line-height:1;pointer-events:none;user-select:none;contain:strict;width:0;height:0';
    }

    /** A font's size by which the screen fits its view, times `zoom`, but one that can be read. */
    fit({ width, height }, view, mode, zoom) {
        if (!width || !view.clientWidth) return;
        const wanted = parseFloat(getComputedStyle(view).fontSize), ratio = this.#ratio();
        const dots = globalThis.devicePixelRatio || 1;
        const snapped = length => Math.floor(length * dots) / dots; // so that no seams show
        const least = mode === 'both' ? READABLE : Math.max(1, Math.min(READABLE, wanted));
        let cell = mode === 'both' ? GREATEST * ratio : wanted * ratio;
        if (mode !== 'none') cell = Math.min(cell, view.clientWidth / width);
        if (mode === 'both') {
            cell = Math.min(cell, view.clientHeight / height / LINE_HEIGHT * ratio);
        }
        const smallest = -snapped(-least * ratio);
        this.#cell = Math.max(smallest, snapped(Math.max(smallest, cell) * zoom));
        const font = this.#cell / ratio;
        this.#row = Math.max(1, snapped(font * LINE_HEIGHT));
        const css = `width:${width * this.#cell}px;height:${height * this.#row}px;`
            + `font-size:${font}px;line-height:${this.#row}px`;
        if (css === this.#css) return;
        this.#css = this.element.style.cssText = css;
        this.#forget();
    }

    /** Has all rows drawn anew. */
    #forget() {
        for (const drawn of this.#rows) Object.assign(drawn, { row: null, key: '' });
    }

    /** A character's width, in font sizes. */
    #ratio() {
        this.#probe.style.contain = 'none';
        this.#probe.style.width = 'auto';
        this.element.append(this.#probe);
        const { width } = this.#probe.getBoundingClientRect();
        this.#probe.remove();
        return width / 5000 || 0.6;
    }

    /** Takes the colours that the page's CSS has now. */
    #readColors() {
        const style = getComputedStyle(this.element);
        const colors = NAMES.map(name => style.getPropertyValue(`--${name}`)).join(';');
        if (colors === this.#colors) return;
        this.#colors = colors;
        const parts = NAMES.map(name => [name, this.#parts(name)]);
        this.#palette = new Palette(Object.fromEntries(parts));
        this.#forget();
    }

    /** A colour as [red, green, blue], or nothing where it is no opaque colour of sRGB. */
    #parts(name) {
        this.element.append(this.#probe);
        this.#probe.style.color = `var(--${name})`;
        const { color } = getComputedStyle(this.#probe);
        this.#probe.remove();
        return /^rgb\((\d+), (\d+), (\d+)\)$/.exec(color)?.slice(1).map(Number) ?? null;
    }

    /** Draws the rows that changed. Those that were scrolled keep their elements. */
    draw(screen) {
        const { rows, width } = screen;
        this.#readColors();
        if (width !== this.#width) this.#forget();
        this.#width = width;
        const isShown = rows.length === this.#rows.length
            && rows.every((row, y) => this.#rows[y].row === row);
        if (!isShown) this.#arrange(rows);
        rows.forEach((row, y) => {
            if (!this.#rows[y].shows(row)) this.#drawRow(this.#rows[y], y, screen);
        });
        this.#drawCursor(screen);
    }

    /** Puts the elements where the rows are that they show now. */
    #arrange(rows) {
        const before = this.#rows;
        const next = rows.map((row, y) => (before[y]?.row === row ? before[y] : null));
        const others = new Set(before.filter((drawn, y) => drawn !== next[y]));
        const fill = take => rows.forEach((row, y) => {
            next[y] ??= take(row, y) ?? null;
            others.delete(next[y]);
        });
        const moved = new Map(); // by their rows, which may be one where they are blank
        for (const drawn of [...others].reverse()) {
            if (!moved.get(drawn.row)?.push(drawn)) moved.set(drawn.row, [drawn]);
        }
        fill(row => moved.get(row)?.pop());
        fill((_, y) => (others.has(before[y]) ? before[y] : null));
        const free = [...others];
        free.forEach(({ element }) => element.remove());
        const taken = free.values();
        fill(() => taken.next().value ?? new DrawnRow());
        this.#rows = next;
        let place = this.element.firstChild;
        for (const { element } of next) {
            if (element === place) place = place.nextSibling;
            else this.element.insertBefore(element, place);
        }
    }

    /** Draws a row unless it looks as it did. */
    #drawRow(drawn, y, screen) {
        const row = screen.rows[y], spans = spansOf(screen, y, this.#palette);
        const parts = spans.map(({ text, columns, css, classes, attributes }) =>
            [text, columns, css, classes, attributes.link?.uri]);
        const key = JSON.stringify([row.attribute, parts]), isSame = key === drawn.key;
        Object.assign(drawn, { row, version: row.version, key });
        if (isSame) return;
        drawn.element.className = ROW_CLASSES[row.attribute];
        drawn.element.style.height = `${this.#row}px`;
        drawn.element.firstChild.replaceChildren(...spans.map(span => this.#makeSpan(span)));
    }

    #makeSpan({ text, columns, attributes, css, classes, isPlain }) {
        const { link } = attributes, address = link && addressOf(link);
        const span = document.createElement(address ? 'a' : 'span');
        span.className = `cell${isPlain ? '' : ' alone'}${classes}`;
        span.style.cssText = `width:${columns * this.#cell}px;${css}`;
        if (classes) span.style.animationDelay = `${-performance.now() % 6000}ms`; // in step
        if (link) span.title = address ?? `not opened: ${link.uri}`;
        if (address) {
            const rel = 'noopener noreferrer nofollow';
            Object.assign(span, { href: address, rel, target: '_blank' });
        } else if (link) {
            span.className += ' unopened';
        }
        span.textContent = isPlain ? text : text.slice(0, LONGEST_CELL);
        return span;
    }

    /** The cursor lies over the cell that it is in; after the last column, over the last one. */
    #drawCursor(screen) {
        const { x, y, shape, color, visible } = screen.cursor, cursor = this.#cursor;
        cursor.hidden = !visible || !screen.height;
        if (cursor.hidden) return;
        const twice = screen.rows[y].attribute < 3 ? 2 : 1;
        const at = Math.min(x, screen.width - 1);
        const [column, cell] = [...screen.cells(y)].findLast(([begin]) => begin <= at);
        const columns = Math.min(cell.columns, screen.width - column);
        const ground = this.#palette.paint(color, 'cursor'), paint = ground.css;
        const text = this.#palette.textOn(ground, this.#palette.paint(null, 'back'));
        const kind = shape === 0 ? 'block' : ['block', 'underline', 'bar'][shape - 1 >> 1];
        const look = {
            block: `background:${paint};color:${text}`,
            underline: `border-bottom:2px solid ${paint}`,
            bar: `border-left:2px solid ${paint}`,
        }[kind];
        cursor.className = shape % 2 ? 'cursor blinking' : 'cursor';
        cursor.ariaHidden = 'true';
        cursor.textContent = kind === 'block' && twice === 1 ? cell.text : '';
        cursor.style.cssText = `left:${column * this.#cell * twice}px;top:${y * this.#row}px;`
            + `width:${columns * this.#cell * twice}px;height:${this.#row}px;${look}`;
    }

    /** The text that is selected, without blanks at its rows' ends. */
    selectedText(root) {
        const text = String(root.getSelection?.() ?? document.getSelection());
        return text.replace(/[ \u00a0]+$/gm, '');
    }
}
