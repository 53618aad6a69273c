// The page around one screen. Its address may have `?controls` for a player, `?pull` for a source
// that takes asks, and `?src=ADDRESS` for another source than `stream`.
import './element.mjs';

const byId = id => document.getElementById(id);
const shown = byId('screen'), words = new URLSearchParams(location.search);
const OTHER_LOOK = { dark: 'light', light: 'dark' };
const ZOOMS = [0.5, 0.75, 1, 1.25, 1.5, 2, 3, 4], KEPT = 'tikeburo-zoom';
const STEPS = { '+': 1, '=': 1, '-': -1, '0': 0 }; // keys; a step of 0 is to the first size
const STATES = {
    connecting: 'connecting', live: 'live', ready: 'a recording', ended: 'ended', gone: 'gone',
    lost: 'not connected',
};

function choose(look) {
    document.documentElement.dataset.look = look;
    shown.setAttribute('look', look);
    byId('look').textContent = OTHER_LOOK[look];
}

/** The system's look, which is chosen whenever it changes. */
function followSystem() {
    const system = matchMedia('(prefers-color-scheme: light)');
    const follow = () => choose(system.matches ? 'light' : 'dark');
    system.addEventListener('change', follow);
    follow();
}

/** What is kept for the session, where the browser lets a page keep anything. */
function openSession() {
    try {
        return sessionStorage;
    } catch {
        return {};
    }
}

const session = openSession();

function zoomTo(zoom) {
    shown.setAttribute('zoom', zoom);
    byId('zoom').textContent = `${100 * zoom} %`;
    byId('smaller').disabled = zoom === ZOOMS[0];
    byId('larger').disabled = zoom === ZOOMS.at(-1);
    session[KEPT] = zoom;
}

function zoomBy(step) {
    const at = step ? ZOOMS.indexOf(shown.zoom) + step : ZOOMS.indexOf(1);
    if (at in ZOOMS) zoomTo(ZOOMS[at]);
}

function zoomByKey(event) {
    const isField = event.composedPath()[0].matches?.('input, select, textarea');
    const isOther = event.ctrlKey || event.metaKey || event.altKey || !(event.key in STEPS);
    if (!isField && !isOther) zoomBy(STEPS[event.key]);
}

function showFacts() {
    const { width, height, number, title } = shown.screen;
    byId('title').textContent = document.title = title || 'screen';
    byId('facts').textContent = width ? `${width} × ${height} · number ${number}` : '';
}

byId('look').onclick = () => choose(OTHER_LOOK[document.documentElement.dataset.look]);
byId('smaller').onclick = () => zoomBy(-1);
byId('zoom').onclick = () => zoomBy(0);
byId('larger').onclick = () => zoomBy(1);
document.addEventListener('keydown', zoomByKey);
followSystem();
zoomTo(ZOOMS.find(zoom => zoom === Number(session[KEPT])) ?? 1);
shown.addEventListener('screen', showFacts);
shown.addEventListener('state', () => {
    byId('state').textContent = STATES[shown.state];
    byId('light').dataset.state = shown.state;
});
for (const name of ['controls', 'pull', 'loop', 'speed']) {
    if (words.has(name)) shown.setAttribute(name, words.get(name));
}
shown.setAttribute('fit', 'both');
shown.setAttribute('src', words.get('src') ?? 'stream');
