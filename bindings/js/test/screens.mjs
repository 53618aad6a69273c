// Random answers with all that a screen can show, as `encode` takes them.

const PIECES = [
    ['a', 1], ['x', 1], ['Z', 1], [' ', 1], ['<', 1], ['&', 1], ['é', 1], ['─', 1], ['я', 1],
    ['か', 2], ['漢', 2], ['한', 2], ['👩\u200d👩\u200d👧', 2], ['🇩🇪', 2], ['e\u0301', 1], ['\u0301', 1],
    ['ש', 1], ['م', 1], ['\u202e', 1], ['\u2066', 1], ['\ufeff', 1], ['\u0080', 1], ['\u200d', 1],
    ['\n', 0], ['\r\n', 0], ['\r', 0], ['\x07', 1], ['\u00a0', 1], ['\u00ad', 1],
];
const ADDRESSES = ['https://example.com/a?b=c#d', 'http://example.com/', 'javascript:alert(1)',
    'data:text/html,<script>alert(1)</script>', '//example.com/', '', ' https://example.com/',
    'https://', 'blob:https://example.com/x', '"><img src=x onerror=alert(1)>'];

/** A text of such pieces. A CR never stands before an LF, which would be one piece with it. */
function randomText(random) {
    const pieces = Array.from({ length: random(14) }, () => random.pick(PIECES))
        .filter(([piece], k, all) => piece !== '\r' || !/^[\r\n]/.test(all[k + 1]?.[0]));
    const runs = [];
    for (const [piece, columns] of pieces) {
        const size = [...piece].length, [, lastSize, lastColumns] = runs.at(-1) ?? [];
        if (size === lastSize && columns === lastColumns) runs.at(-1)[0]++;
        else runs.push([1, size, columns]);
    }
    const text = pieces.map(([piece]) => piece).join('');
    const needed = runs.some(([, size, columns]) => columns === 2 || size > 1 && columns > 0);
    return needed ? [2, text, runs.flat()] : [2, text];
}

export function randomChanges(random, width, height) {
    const below = n => random(n);
    const color = () => [null, below(256), [below(256), below(256), below(256)],
        [below(256), below(256), below(256), below(256)]][below(4)];
    const style = () => below(3) | below(6) << 2 | below(3) << 5 | below(64) << 7 | below(3) << 15;
    const link = () => (below(6) ? null : [random.pick(ADDRESSES), false, []]);
    const pen = () => [1, [below(3) ? style() : 0, color(), color(), color(), link()]];
    const scroll = kind => {
        const first = below(height);
        return [kind, first, below(height - first + 1), below(4)];
    };
    const kinds = [
        () => randomText(random), () => randomText(random), () => randomText(random), pen, pen,
        () => [random.pick([4, 5]), color()], () => [6, [1, below(width + 1)], [1, below(height)]],
        () => [7, color()], () => [8, below(7)], () => [9, below(4) > 0],
        () => scroll(random.pick([10, 11])), () => [13, random.pick([0, 1, 2, 3, 3])],
        () => [12, `<i>${below(9)}</i>`],
    ];
    return Array.from({ length: 10 + below(60) }, () => random.pick(kinds)());
}
