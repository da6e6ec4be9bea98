// What the page asks of a worker.

/** After how many milliseconds the page says that a worker works. */
const SOON = 200;

/** What the promise of a request that was stopped is rejected with. */
export const STOPPED = "it was stopped";

const BROKEN = "the worker can't be loaded";

/**
 * A worker, as the page sees it. It works on one request at a time, in their order. A request may be about a file, and has a test that
 * says whether its answer is still wanted. If not, there is none, so that no older answer overtakes a newer choice of the user.
 */
export class Client {
    /**
     * `script` is the worker's. `onBusy` is called with what a request is about if it takes long, and with `null` when that ends. `onStep`
     * is called with how far the request is, if the worker says so.
     */
    constructor(script, onBusy, onStep) {
        this.script = script;
        this.onBusy = onBusy;
        this.onStep = onStep;
        this.busy = null;
        this.waiting = [];
        this.current = null;
        this.begin();
    }

    /** Starts the worker. */
    begin() {
        this.isBroken = false;
        this.worker = new Worker(new URL(this.script, import.meta.url), { type: "module" });
        this.worker.addEventListener("message", ({ data }) => this.hear(data));
        this.worker.addEventListener("error", () => {
            this.isBroken = true;
            this.take({ error: BROKEN });
        });
    }

    /** Ends what the worker does, with the worker. The next request starts in a new one. */
    stop() {
        if (this.current !== null) {
            this.worker.terminate();
            this.begin();
            this.take({ error: STOPPED });
        }
    }

    /** Ends what the worker does, and drops all that waits: only the last request counts. */
    stopAll() {
        this.waiting = [];
        this.stop();
    }

    /**
     * Asks for something about a file, or about none. The lists that came in pieces are members of the answer. The promise stays
     * open if the answer isn't wanted any more.
     */
    ask(file, isWanted, call, ...words) {
        return new Promise((resolve, reject) => {
            this.waiting.push({ file, isWanted, call, words, resolve, reject, lists: {} });
            this.sendNext();
        });
    }

    sendNext() {
        if (this.current !== null) {
            return;
        }
        this.waiting = this.waiting.filter(({ isWanted }) => isWanted());
        if (this.waiting.length === 0) {
            return;
        }
        this.current = this.waiting.shift();
        this.timer = setTimeout(() => this.setBusy(this.current.file?.name ?? "the module"), SOON);
        this.send(null);
    }

    /** Sends the current request, with the bytes of the file if the worker can't read them again. */
    send(bytes) {
        const { file, call, words } = this.current;
        if (this.isBroken) {
            this.take({ error: BROKEN });
            return;
        }
        this.worker.postMessage({ number: file?.number, path: file?.path, bytes, call, words });
    }

    setBusy(name) {
        if (this.busy !== name) {
            this.busy = name;
            this.onBusy(name);
        }
    }

    /** Takes a message of the worker: how far it is, some rows, or its answer. */
    hear(data) {
        if (data.step !== undefined) {
            this.onStep(data.step);
        } else if (data.list !== undefined) {
            this.takePiece(data);
        } else {
            this.take(data);
        }
    }

    /** Takes rows of a list of the answer to the current request. */
    takePiece({ list, rows }) {
        const { lists } = this.current;
        lists[list] ??= [];
        for (const row of rows) {
            lists[list].push(row);
        }
        this.worker.postMessage("go on");
    }

    /** Takes the answer of the worker to the current request. */
    take({ answer, error, isLost }) {
        if (this.current === null) {
            return;
        }
        if (isLost) {
            this.send(this.current.file.bytes);
            return;
        }
        clearTimeout(this.timer);
        this.setBusy(null);
        const { isWanted, resolve, reject, lists } = this.current;
        this.current = null;
        if (isWanted()) {
            if (error === undefined) {
                resolve(Object.keys(lists).length === 0 ? answer : { ...answer, lists });
            } else {
                reject(new Error(error));
            }
        }
        this.sendNext();
    }
}
