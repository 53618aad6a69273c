// The work of changes, as `encode` takes them: docs/VIEWER.md, "Limits".

/** The work of a change on a screen of this many columns and rows. */
export function workOf([kind, ...items], width, height) {
    switch (kind) {
        case 2: return width * (items[0].split('\n').length - 1);
        case 3: case 5: return width * height;
        case 4: return width;
        case 6: return String(items[0]) === '1,0' ? 0 : width;
        case 10: case 11: return items[1] + width * Math.min(items[1], items[2]);
        default: return 0;
    }
}

/** As many of the changes as an answer may have. */
export function allowed(changes, width, height) {
    let left = 64 + 4 * width * height;
    const end = changes.findIndex(change => {
        left -= workOf(change, width, height);
        return left < 0;
    });
    return end < 0 ? changes : changes.slice(0, end);
}
