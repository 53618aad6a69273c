// <tikeburo-screen src="ADDRESS"> shows a surface's screen: README.md has its attributes.
import { Grid, STYLES } from './grid.mjs';
import { endOf, isPassing, pull, receive, respond, Stopped } from './pull.mjs';
import { Player, readRecording } from './recording.mjs';
import { Client, Fault } from './tikeburo.mjs';

const FIRST_WAIT = 500, LONGEST_WAIT = 15000; // milliseconds before a new connection
const LONGEST_FRAME = 1000; // milliseconds that are played in one; a page that sleeps plays none
const LARGEST = 16; // a zoom
const ENTRY = 0x82; // a recording's first byte

const pause = milliseconds => new Promise(done => setTimeout(done, milliseconds));
const nextFrame = () => new Promise(done => requestAnimationFrame(done));

const clock = milliseconds => {
    const seconds = Math.floor(milliseconds / 1000);
    return `${Math.floor(seconds / 60)}:${String(seconds % 60).padStart(2, '0')}`;
};

// What the faults of a stream mean, where they are no damage.
const MEANINGS = {
    truncated: 'what is sent ends too early', version: 'the program sends another form',
    limit: 'it is more than this page takes',
};
const DAMAGED = 'what the program sends is damaged', ENDED = 'the program has ended';
const GONE = 'the server has no such screen, or no longer';

const describe = fault => `answer ${fault.answer}: ${fault.message} (${fault.why})`;

/** What is wrong, in words. */
function explain(problem) {
    if (problem instanceof Stopped) return problem.message;
    if (problem instanceof Fault) {
        return `${describe(problem)}: ${MEANINGS[problem.kind] ?? DAMAGED}`;
    }
    return `this page can't show it (${problem.message})`;
}

function make(name, part, properties = {}) {
    const made = document.createElement(name);
    made.setAttribute('part', part);
    return Object.assign(made, properties);
}

const sheet = new CSSStyleSheet();
sheet.replaceSync(STYLES);

export class TikeburoScreen extends HTMLElement {
    static observedAttributes = ['src', 'pull', 'fit', 'controls', 'look', 'zoom'];
    #grid = new Grid();
    #view = make('div', 'view');
    #bar = make('div', 'controls', { hidden: true });
    #status = make('div', 'status', { role: 'status', hidden: true });
    #sizes = new ResizeObserver(() => this.#draw());
    #system = matchMedia('(prefers-color-scheme: light)');
    #systemChanged = () => this.#later();
    #client = new Client();
    #player = null;
    #connection = null; // an AbortController, while there is a source
    #frame = 0;
    #playing = false;
    #starts = false; // whether it starts once all attributes are set
    #note = ''; // what is wrong with the recording

    constructor() {
        super();
        const root = this.attachShadow({ mode: 'open' });
        root.adoptedStyleSheets = [sheet];
        root.append(this.#view, this.#bar, this.#status);
        this.#view.append(this.#grid.element);
        this.#makeBar();
        root.addEventListener('copy', event => this.#copy(event));
    }

    /** The screen that is shown. */
    get screen() {
        return this.client.screen;
    }

    get client() {
        return this.#player?.client ?? this.#client;
    }

    /** The player, where the source is a recording. */
    get player() {
        return this.#player;
    }

    get #limits() {
        const limit = name => Number(this.getAttribute(name)) || undefined;
        return { cells: limit('cells'), rows: limit('rows'), bytes: limit('bytes') };
    }

    connectedCallback() {
        this.#sizes.observe(this.#view);
        this.#system.addEventListener('change', this.#systemChanged);
        document.fonts?.ready.then(() => this.#draw());
        this.#startSoon();
    }

    disconnectedCallback() {
        this.#sizes.disconnect();
        this.#system.removeEventListener('change', this.#systemChanged);
        this.#stop();
    }

    attributeChangedCallback(name) {
        if (!this.isConnected) return;
        if (name === 'src' || name === 'pull') this.#startSoon();
        else this.#later();
    }

    #startSoon() {
        if (this.#starts) return;
        this.#starts = true;
        queueMicrotask(() => {
            this.#starts = false;
            if (this.isConnected) this.#start();
        });
    }

    #stop() {
        this.#connection?.abort();
        this.#connection = this.#player = null;
        this.pause();
    }

    #start() {
        this.#stop();
        const onanswer = () => this.#showAnswer(false);
        // Who asks isn't late: a stale answer came from a cache, and the next one fits.
        const onstale = this.hasAttribute('pull') ? null : () => this.#showAnswer(true);
        this.#client = new Client({ ...this.#limits, onanswer, onstale });
        if (!this.hasAttribute('src')) return;
        this.#connection = new AbortController();
        this.#connect(this.#client, this.#connection.signal);
    }

    // ------------------------------------------------------------------ sources

    #connect(client, signal) {
        const address = this.getAttribute('src');
        if (this.hasAttribute('pull')) this.#pull(client, address, signal);
        else this.#stream(client, address, signal);
    }

    /** Asks over and over. A page that isn't seen draws no frame, and so asks for none. */
    async #pull(client, address, signal) {
        const wait = async () => {
            await nextFrame();
            if (this.state === 'lost' && !signal.aborted) this.#say('connecting', this.message);
        };
        const onproblem = problem => this.#say('lost', explain(problem));
        this.#say('connecting', '');
        try {
            const end = await pull(client, address, { signal, wait, onproblem });
            if (!signal.aborted) this.#end(end);
        } catch (problem) {
            if (!signal.aborted) onproblem(problem);
        }
    }

    /** Shows a stream or a recording, over new connections where one is lost. */
    async #stream(client, address, signal) {
        let problem = '';
        for (let wait = FIRST_WAIT; !signal.aborted; wait = Math.min(2 * wait, LONGEST_WAIT)) {
            client.restart();
            this.#say('connecting', problem);
            try {
                const end = await this.#read(client, address, signal);
                if (!signal.aborted) this.#end(end);
                return;
            } catch (error) {
                if (signal.aborted) return;
                problem = explain(error);
                this.#say('lost', problem);
                if (!isPassing(error)) return;
            }
            if (client.answers) wait = FIRST_WAIT;
            await pause(wait);
        }
    }

    /** Shows a stream to its end, or plays it once all its bytes are there: then it has no end. */
    async #read(client, address, signal) {
        const response = await respond(fetch(address, { cache: 'no-store', signal })), kept = [];
        const end = endOf(response);
        if (end) return end;
        const reader = response.body.getReader();
        let plays = this.hasAttribute('controls');
        for (let bytes; (bytes = await receive(reader));) {
            if (!kept.length && bytes[0] === ENTRY) plays = true;
            if (plays) kept.push(bytes);
            else client.feed(bytes);
            if (client.fault) reader.cancel().catch(() => {}); // it may be lost already
        }
        if (plays) this.#open(new Uint8Array(await new Blob(kept).arrayBuffer()));
        else if (client.end()) throw client.fault;
        return plays ? null : { state: 'ended', exit: null };
    }

    #end(end) {
        const status = end?.exit ? `, with status ${end.exit}` : '';
        if (end) this.#say(end.state, end.state === 'gone' ? GONE : ENDED + status);
    }

    /** What leads on from another screen isn't shown: whoever joins late waits for a repaint. */
    #showAnswer(isStale) {
        this.#say('live', isStale ? 'waiting for a repaint' : '');
        this.#later();
    }

    // ------------------------------------------------------------------ the player

    /** Plays a recording. */
    #open(bytes) {
        const { entries, fault } = readRecording(bytes);
        this.#player = new Player(entries, this.#limits);
        this.#note = fault ? `the recording is cut or damaged at byte ${fault.at}` : '';
        this.#judge();
        this.play();
    }

    /** How large it is shown; 1 is as it fits. */
    get zoom() {
        const zoom = Number(this.getAttribute('zoom') ?? 1);
        return zoom > 0 && zoom <= LARGEST ? zoom : 1;
    }

    /** How fast it plays; 1 is as it was. */
    get speed() {
        return Number(this.getAttribute('speed') ?? 1) || 1;
    }

    play() {
        if (!this.#player || this.#playing) return;
        if (this.#player.isOver) this.#player.seek(0);
        this.#playing = true;
        this.#run(performance.now());
    }

    pause() {
        this.#playing = false;
        this.#later();
    }

    /** Shows what was there this many milliseconds from the beginning. */
    seek(milliseconds) {
        this.#player?.seek(milliseconds);
        this.#judge();
        this.#later();
    }

    async #run(before) {
        const now = await nextFrame();
        if (!this.#playing) return;
        const passed = Math.max(0, Math.min(now - before, LONGEST_FRAME));
        this.#player.advance(passed * this.speed);
        this.#judge();
        if (this.#player.isOver && this.hasAttribute('loop')) this.#player.seek(0);
        else if (this.#player.isOver) this.#playing = false;
        this.#draw();
        this.#run(now);
    }

    #judge() {
        const { fault } = this.client;
        if (this.#player) this.#say('ready', fault ? describe(fault) : this.#note);
    }

    #makeBar() {
        const button = make('button', 'play', { type: 'button' });
        const line = make('input', 'time-line', { type: 'range', min: 0, ariaLabel: 'time' });
        const time = make('span', 'time');
        const speed = make('select', 'speed', { ariaLabel: 'speed' });
        for (const n of [0.25, 0.5, 1, 2, 4, 8]) speed.add(new Option(`${n}×`, n));
        button.onclick = () => (this.#playing ? this.pause() : this.play());
        line.oninput = () => this.seek(Number(line.value));
        speed.onchange = () => this.setAttribute('speed', speed.value);
        this.#bar.append(button, line, time, speed);
    }

    #drawBar() {
        const [button, line, time, speed] = this.#bar.children, player = this.#player;
        this.#bar.hidden = !player || !this.hasAttribute('controls');
        if (this.#bar.hidden) return;
        button.textContent = this.#playing ? '❚❚' : '▶';
        button.ariaLabel = this.#playing ? 'pause' : 'play';
        line.max = player.duration;
        line.value = player.time;
        time.textContent = `${clock(player.time)} / ${clock(player.duration)}`;
        speed.value = this.speed;
    }

    // ------------------------------------------------------------------ drawing

    #later() {
        this.#frame ||= requestAnimationFrame(() => this.#draw());
    }

    #draw() {
        cancelAnimationFrame(this.#frame);
        this.#frame = 0;
        const mode = this.getAttribute('fit') ?? 'width';
        this.#grid.fit(this.screen, this.#view, mode, this.zoom);
        this.#grid.draw(this.screen);
        this.#drawBar();
        this.dispatchEvent(new CustomEvent('screen'));
    }

    #say(state, text) {
        this.#status.textContent = text;
        this.#status.hidden = !text;
        this.#status.classList.toggle('wrong', state !== 'ended' && state !== 'live');
        if (this.state === state && this.message === text) return;
        Object.assign(this, { state, message: text });
        this.dispatchEvent(new CustomEvent('state'));
    }

    /** What is copied has no blanks after its rows' texts. */
    #copy(event) {
        const text = this.#grid.selectedText(this.shadowRoot);
        if (!text) return;
        event.clipboardData.setData('text/plain', text);
        event.preventDefault();
    }
}

customElements.define('tikeburo-screen', TikeburoScreen);
