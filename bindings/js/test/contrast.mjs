// The contrast of two colours, `[red, green, blue]` each, as WCAG 2.2 defines it.

const linear = part => (part / 255 <= 0.04045 ? part / 255 / 12.92
    : ((part / 255 + 0.055) / 1.055) ** 2.4);
const luminance = ([red, green, blue]) =>
    0.2126 * linear(red) + 0.7152 * linear(green) + 0.0722 * linear(blue);

export function contrast(one, other) {
    const [first, second] = [one, other].map(color => luminance(color) + 0.05);
    return Math.max(first, second) / Math.min(first, second);
}

/** A colour of CSS, as `rgb(1, 2, 3)`, `color(srgb 0.1 0.2 0.3)` or `#010203`. */
export function partsOf(css) {
    if (css.startsWith('#')) return css.match(/[^#]{2}/g).map(hex => parseInt(hex, 16));
    const scale = css.startsWith('color(srgb') ? 255 : 1;
    return css.match(/\d+(\.\d+)?/g).slice(0, 3).map(part => scale * part);
}
