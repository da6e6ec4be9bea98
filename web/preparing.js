// What the page does about memory: it asks for it, shows it, and saves it.
import { STOPPED } from "./client.js";
import { save } from "./dom.js";
import { Memory } from "./memory.js";
import { MemoryView } from "./memoryview.js";
import { offersOf, requestOf } from "./offers.js";
import { nameOf, offersView, refusedView } from "./prepareview.js";
import { jsonLines, loadText, wholeImage } from "./saving.js";
import { hex } from "./text.js";

export class Preparing {
    /**
     * `page` has what the page can do: `files` that are open, `newChoice`, `display` of a view, `say`, `choose` of a container,
     * `showByte` of one, and `openExample`. `client` asks the worker.
     */
    constructor(client, page) {
        this.client = client;
        this.page = page;
        /** The memory that was made last, and its view. */
        this.last = null;
    }

    /** Shows the fragments that can be prepared. */
    showOffers() {
        this.page.newChoice();
        const { choose, openExample } = this.page;
        this.page.display(offersView(offersOf(this.page.files()), { prepare: (it) => this.prepare(it), choose, openExample }));
    }

    /** Prepares the fragment of a container. */
    prepareAt(file, place) {
        const offer = offersOf(this.page.files()).find((it) => it.file === file && it.place === place);
        if (offer !== undefined) {
            this.prepare(offer);
        }
    }

    /** Prepares a fragment, and shows its memory, or why there is none. */
    async prepare(offer, useStubs = false) {
        const isWanted = this.page.newChoice();
        this.client.stopAll();
        const { sources, fragments } = requestOf(offersOf(this.page.files()), offer);
        try {
            const answer = await this.client.ask({ name: `Preparing ${nameOf(offer)}` }, isWanted, "prepare", fragments, 0, useStubs);
            this.take(offer, answer, sources);
        } catch (error) {
            this.page.say(error.message === STOPPED ? `Preparing ${nameOf(offer)} was stopped.` : `${nameOf(offer)} can't be prepared: ${error.message}.`);
        }
    }

    take(offer, answer, sources) {
        const useStubs = () => this.prepare(offer, true);
        if (answer.refusal !== null) {
            this.page.display(refusedView(offer, answer, { useStubs, show: (name, offset) => this.showByte(sources, name, offset), back: () => this.showOffers() }));
            this.page.say(`${nameOf(offer)} isn't prepared: ${answer.refusal.number} ${answer.refusal.name}.`);
            return;
        }
        const memory = new Memory(answer, sources);
        const view = new MemoryView(memory, `Memory of ${nameOf(offer)}`, { choose: this.page.choose, useStubs, ...this.saves(memory, nameOf(offer)) });
        this.last = { label: `Memory of ${nameOf(offer)}`, view };
        this.page.display(view.element);
        this.page.say(`${nameOf(offer)} was prepared.`);
    }

    /** Shows the memory that was made last once more. */
    showLast() {
        this.page.newChoice();
        this.page.display(this.last.view.element);
    }

    /** Shows a byte of the container of a fragment by its name. */
    showByte(sources, name, offset) {
        const isSame = (it) => it.length === name.length && it.every((byte, i) => byte === name[i]);
        const found = sources.find((it) => isSame(it.name));
        if (found !== undefined) {
            this.page.showByte(found.file, found.place, found.place + offset);
        }
    }

    /** Returns what is saved of memory. */
    saves(memory, name) {
        const image = () => {
            const { first, image: bytes } = wholeImage(memory);
            save(`${name}-${hex(first, 8)}.bin`, new Blob([bytes]));
        };
        return {
            saveText: () => save(`${name}.txt`, new Blob(loadText(memory), { type: "text/plain" })),
            saveJson: () => save(`${name}.jsonl`, new Blob(jsonLines(memory), { type: "application/jsonl" })),
            saveImage: image,
            saveSection: ({ fragment, number, address, bytes }) => save(`${memory.nameOf(fragment)}-section${number}-${hex(address, 8)}.bin`, new Blob([bytes])),
        };
    }
}
