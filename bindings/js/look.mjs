// How cells look: CSS for their attributes, and rows as spans.
import { styleOf } from './tikeburo.mjs';

// The element's colours are CSS properties, `--front` and so on: of text, ground and cursor, and
// the palette's first 16. Programs name these without knowing them, and combine any two. No 16
// colours have a contrast of 3 to 1 between each two: from black to white it is 21 to 1, less than
// three such steps. So the palettes are chosen for text on the ground, and in the dark look for
// usual text on red, blue and magenta, and `Palette` draws other texts with more contrast.
export const NAMES = ['front', 'back', 'cursor',
    ...Array.from({ length: 16 }, (_, n) => `color-${n}`)];
export const COLORS = {
    dark: ['#d8dee9', '#10141b', '#f2f4f8', '#1d2330', '#cf4650', '#78c28a', '#dcb862', '#3a6ad0',
        '#9a62cc', '#5bb8c0', '#c8ccd4', '#5c6478', '#ff8087', '#98e0a6', '#f6d585', '#8fb8ff',
        '#d6b0f5', '#86dbe2', '#ffffff'],
    light: ['#2a303c', '#fdfdfb', '#20242c', '#2a303c', '#c2333b', '#22803f', '#96690a', '#2a5fc4',
        '#8440b4', '#10767f', '#8b93a1', '#6b7385', '#e04850', '#35a055', '#b98516', '#4a80e8',
        '#a45cd6', '#2096a0', '#b4bbc7'],
};
const LEAST_CONTRAST = 3; // which WCAG 2.2 wants of large text and of signs
const STEPS = 32; // between a colour and white or black
// Blocks, shades and the arrows of status lines: areas of colour, which join others.
const AREA = /^[\u2580-\u259f\ue0b0-\ue0bf]$/;
const UNDERLINES = ['none', 'solid', 'double', 'wavy', 'dotted', 'dashed'];
const BLINKS = ['', ' slow', ' rapid'], ALIGNMENTS = ['', ' super', ' sub'];
const LINE = 'linear-gradient(currentColor,currentColor)';

/** The six levels of the palette's cube. */
const level = n => (n ? 55 + 40 * n : 0);

/** A colour's parts, where they are the same in each look; the palette's first 16 have none. */
function partsOf(color) {
    if (typeof color !== 'number') return color?.slice(0, 3) ?? null;
    if (color < 16) return null;
    if (color >= 232) return Array(3).fill(8 + 10 * (color - 232));
    const n = color - 16;
    return [Math.floor(n / 36), Math.floor(n / 6) % 6, n % 6].map(level);
}

const cssOf = parts => `rgb(${parts.join()})`;

/** As WCAG 2.2 defines it. */
function luminanceOf(parts) {
    const [red, green, blue] = parts.map(part => (part <= 10 ? part / 255 / 12.92
        : ((part / 255 + 0.055) / 1.055) ** 2.4));
    return 0.2126 * red + 0.7152 * green + 0.0722 * blue;
}

function contrastOf(one, other) {
    const [dark, light] = [luminanceOf(one), luminanceOf(other)].sort((a, b) => a - b);
    return (light + 0.05) / (dark + 0.05);
}

const mix = (from, to, part) => from.map((value, k) => Math.round(value + part * (to[k] - value)));

/** A text's colour with enough contrast: towards white or black, away from the ground if it can. */
function raise(front, back) {
    const isLight = luminanceOf(front) >= luminanceOf(back), ends = [255, 0].map(n => [n, n, n]);
    const end = (isLight ? ends : ends.reverse()).find(each =>
        contrastOf(each, back) >= LEAST_CONTRAST);
    let step = 0, raised = front;
    while (contrastOf(raised, back) < LEAST_CONTRAST) raised = mix(front, end, ++step / STEPS);
    return raised;
}

/** Lines above and through a text. They are drawn as backgrounds, since one style is for all. */
function cssLines({ overline, strike }) {
    const places = [overline && '0 0', strike && '0 55%'].filter(Boolean);
    if (!places.length) return '';
    return `background-image:${places.map(() => LINE).join()};background-repeat:no-repeat;`
        + `background-size:100% 1px;background-position:${places.join()};`;
}

/**
 * The colours that an element has now, as parts by their names, with null for what isn't known. A
 * text is drawn with enough contrast, so that it can be read, where one of its colours is the
 * element's: where a program gave both exactly, it knew them. A text in its ground's own colour is
 * hidden on purpose.
 */
export class Palette {
    #looks = new WeakMap();

    constructor(parts) {
        this.parts = parts;
    }

    /** A colour, or else the element's one of this name: as CSS, and its parts. */
    paint(color, name) {
        const parts = partsOf(color);
        if (parts) return { css: cssOf(parts), parts, isOwn: false };
        const own = color === null ? name : `color-${color}`;
        return { css: `var(--${own})`, parts: this.parts[own], isOwn: true };
    }

    /** The CSS of a text's colour on a ground. */
    textOn(back, front, isHalf = false) {
        const css = isHalf ? `color-mix(in srgb,${front.css} 60%,${back.css})` : front.css;
        const isJudged = (front.isOwn || back.isOwn) && front.css !== back.css;
        if (!isJudged || !front.parts || !back.parts) return css;
        const shown = isHalf ? mix(back.parts, front.parts, 0.6) : front.parts;
        const raised = raise(shown, back.parts);
        return raised === shown ? css : cssOf(raised);
    }

    #cssText({ foreground, background, underlineColor }, style, isArea) {
        const own = [this.paint(foreground, 'front'), this.paint(background, 'back')];
        const [front, back] = style.reverse ? own.reverse() : own;
        const shown = style.invisible ? 'transparent'
            : isArea ? front.css : this.textOn(back, front, style.intensity === 2);
        const line = underlineColor === null ? 'currentColor' : this.paint(underlineColor).css;
        return `color:${shown};`
            + (back.css === 'var(--back)' ? '' : `background-color:${back.css};`)
            + (style.intensity === 1 ? 'font-weight:bold;' : '')
            + (style.italic ? 'font-style:italic;' : '')
            + (style.underline ? `text-decoration:underline ${UNDERLINES[style.underline]} `
                + `${style.invisible ? 'transparent' : line};` : '')
            + cssLines(style);
    }

    /** The CSS of attributes, that of areas, and the classes, made once for each object. */
    lookOf(attributes) {
        if (!this.#looks.has(attributes)) {
            const style = styleOf(attributes.style), isSmall = style.alignment > 0;
            const classes = BLINKS[style.blink] + ALIGNMENTS[style.alignment];
            const [css, area] = [false, true].map(is => this.#cssText(attributes, style, is));
            this.#looks.set(attributes, { css, area, classes, isSmall });
        }
        return this.#looks.get(attributes);
    }
}

/** The address that a click on a link opens: `https` alone. */
export function addressOf(link) {
    try {
        const address = new URL(link.uri);
        return address.protocol === 'https:' ? address.href : null;
    } catch {
        return null;
    }
}

const isAlike = (span, attributes, look) => span.attributes === attributes
    || span.attributes.link === attributes.link && span.css === look.css
    && span.classes === look.classes;

/**
 * A row as spans of columns. Neighbours of ASCII that look alike are one; any other cell has a span
 * of its own, so that it takes the columns that it was measured, whatever the font has.
 */
export function spansOf(screen, y, palette) {
    const spans = [];
    for (const [x, { text, columns, attributes }] of screen.cells(y)) {
        const last = spans.at(-1), look = palette.lookOf(attributes), { classes } = look;
        const isPlain = columns === 1 && /^[ -~]$/.test(text) && !look.isSmall;
        if (isPlain && last?.isPlain && isAlike(last, attributes, look)) {
            last.text += text;
            last.columns++;
        } else {
            const shown = Math.min(columns, screen.width - x);
            const css = AREA.test(text) ? look.area : look.css;
            spans.push({ x, text, columns: shown, attributes, css, classes, isPlain });
        }
    }
    return spans;
}
