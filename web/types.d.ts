// What the scripts of the page find beside themselves, for tsc: what a build puts there, and what browsers have that tsc doesn't know.

interface Step { title: string; text: string; name: string; source: string; against: string }
interface Help { name: string; parameters: string[]; text: string }

declare var CROBOTS: {
    robots: {name: string, level: number, source: string}[], steps: Step[], functions: Help[], editor: boolean,
    player: string, worker: string, module: string,
};
type Start = () => Promise<void>;
declare var CROBOTS_PAGE: () => {make: Start, embed: Start};
declare var CROBOTS_ENGINE: {address: string, worker: Worker | null};
declare var CROBOTS_DATABASE: Promise<IDBDatabase | null>;
declare var CROBOTS_HASH: (bytes: Uint8Array) => Promise<string>;
declare var player: any;
declare var showFilm: (film: any, heading: string, options: any) => void;
declare var canRecord: () => boolean;
declare var filmedSvg: () => string;
declare var filmedWebm: (isOver: () => boolean) => Promise<Blob>;
declare var CompressionStream: {new(format: string): any};
declare var DecompressionStream: {new(format: string): any};

interface Window { CodeMirror: any; player: any; showFilm: typeof showFilm; canRecord: typeof canRecord; filmedSvg: typeof filmedSvg; filmedWebm: typeof filmedWebm; ResizeObserver: typeof ResizeObserver; structuredClone: any }
interface Array<T> {
    findLast(is: (it: T, at: number) => unknown): T | undefined;
    findLastIndex(is: (it: T, at: number) => unknown): number;
}
// what an event comes from is an element of the page
interface EventTarget { id: any; value: any; files: any; tagName: any; classList: any; closest: any; getAttribute: any; result: any }
