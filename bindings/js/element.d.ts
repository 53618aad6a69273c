import type { Player } from './recording.js';
import type { Client, Screen } from './tikeburo.js';

/**
 * `<tikeburo-screen>`, which is defined where this module is loaded. It sends the events `screen`,
 * after each drawing, and `state`, where `state` or `message` is another. The attributes `cells`,
 * `rows` and `bytes` limit an answer, as the options of a `Client` do.
 */
export class TikeburoScreen extends HTMLElement {
    readonly screen: Screen;
    readonly client: Client;
    /** Where the source is a recording. */
    readonly player: Player | null;
    /**
     * `ready` is said of a recording that is there; `ended`, where the program has ended; `gone`,
     * where the server has no such screen, or no longer; `lost` waits for a new connection, but
     * after a fault that this would bring again.
     */
    readonly state: 'connecting' | 'live' | 'ready' | 'ended' | 'gone' | 'lost' | undefined;
    /** In words: who has stopped, the program, the server or the connection, or what is wrong. */
    readonly message: string | undefined;
    /** How large it is shown, by the attribute of this name; 1 is as it fits. */
    readonly zoom: number;
    /** How fast it plays, by the attribute of this name; 1 is as it was. */
    readonly speed: number;

    play(): void;
    pause(): void;
    seek(milliseconds: number): void;
}

declare global {
    interface HTMLElementTagNameMap {
        'tikeburo-screen': TikeburoScreen;
    }
}
