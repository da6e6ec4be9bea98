// How a worker answers the page: one request at a time. Long lists go in pieces, so that the page can do other things in between.

/** How many bytes of text the page gets at once, about. */
const PIECE = 5e5;

/** What goes on when the page has taken a piece. */
let goOn = null;

/** Gives lists of rows to the page, a piece at a time. As text they have so many bytes together. */
export async function post(lists, size) {
    const count = Object.values(lists).reduce((sum, rows) => sum + rows.length, 0);
    const most = Math.max(1, Math.floor((count * PIECE) / size));
    for (const [list, rows] of Object.entries(lists)) {
        for (let from = 0; from < rows.length; from += most) {
            const taken = new Promise((resolve) => {
                goOn = resolve;
            });
            self.postMessage({ list, rows: rows.slice(from, from + most) });
            await taken;
        }
    }
}

/** How many milliseconds are between two steps that are said, and when the last one was. */
const OFTEN = 100;

let lastStep = 0;

/** Says how far a request is, unless that was said a moment ago: `done` of `all`, and what these are. */
export function sayStep(what, done, all) {
    if (performance.now() - lastStep >= OFTEN) {
        lastStep = performance.now();
        self.postMessage({ step: { what, done, all } });
    }
}

/** Returns the buffers of an answer that needn't be copied. */
function buffersOf(answer) {
    if (ArrayBuffer.isView(answer)) {
        return [answer.buffer];
    }
    return answer === null || typeof answer !== "object" || answer instanceof Blob ? [] : Object.values(answer).flatMap(buffersOf);
}

/** Answers the page. `answer` is called with a request, and returns an object that has the answer as its member, in a promise. */
export function serve(answer) {
    self.addEventListener("message", async ({ data }) => {
        if (data === "go on") {
            goOn();
            return;
        }
        try {
            const said = await answer(data);
            self.postMessage(said, [...new Set(buffersOf(said.answer))]);
        } catch (error) {
            self.postMessage({ error: error.message });
        }
    });
}
