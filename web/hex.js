// Bytes in hexadecimal. Only the lines that are seen are in the document, so that a section of many megabytes costs no more than a short
// one. A byte can be marked, and the keyboard moves the mark.
import { Additions } from "./additions.js";
import { el } from "./dom.js";
import { hex } from "./text.js";

const LINE = 16;

/** How many pixels a line is high, as style.css has it, and how many lines are made above and below those that are seen. */
const HEIGHT = 20;

const BESIDE = 8;

/** Browsers have no elements that are much higher. Above this, a pixel of the scroll bar is several lines. */
const HIGHEST = 8000000;

/** How many additions to the same word are shown, and how many lines are printed. */
const MOST_ADDED = 8;

const MOST_PRINTED = 4096;

/** How far a key moves the mark, in bytes. A page is as many lines as are seen. */
const MOVES = { ArrowRight: 1, ArrowLeft: -1, ArrowDown: LINE, ArrowUp: -LINE };

export class HexLines {
    /** `textOf` gives the text of an addition, and `goOf` how to go to where it leads, or null. `onMark` is called with the marked offset. */
    constructor({ textOf, goOf = () => null, onMark = () => {} }) {
        this.textOf = textOf;
        this.goOf = goOf;
        this.onMark = onMark;
        this.lines = el("div", { class: "lines" });
        this.space = el("div", { class: "space" }, this.lines);
        this.element = el("div", { class: "hex", role: "region", tabindex: "0", "aria-label": "Bytes in hexadecimal", "aria-roledescription": "bytes, with arrow keys" }, this.space);
        this.element.hexLines = this;
        this.element.addEventListener("scroll", () => this.draw());
        this.element.addEventListener("keydown", (event) => this.press(event));
        this.element.addEventListener("click", ({ target }) => target.dataset.at !== undefined && this.markAt(Number(target.dataset.at)));
        new ResizeObserver(() => this.draw()).observe(this.element);
        this.show({ image: new Uint8Array(0), size: 0, first: 0, added: new Additions() });
    }

    /** Shows bytes: those of `image`, and zeros up to `size`. The first one has the number `first`. */
    show({ image, size, first, added }) {
        Object.assign(this, { image, size, first, added });
        this.mark = null;
        this.count = Math.ceil(size / LINE);
        this.height = Math.min(this.count * HEIGHT, HIGHEST);
        this.space.style.height = `${this.height}px`;
        this.element.hidden = size === 0;
        this.drawn = null;
        this.element.scrollTop = 0;
        this.draw();
    }

    /** Marks the byte at an offset, and shows it. */
    markAt(offset) {
        this.mark = offset;
        this.drawn = null;
        this.reveal(Math.floor(offset / LINE));
        this.draw();
        this.onMark(offset);
    }

    /** How many lines are seen. */
    seen() {
        return Math.max(1, Math.floor(this.element.clientHeight / HEIGHT) - 1);
    }

    /** Returns the first line that is seen. */
    top() {
        const most = this.height - this.element.clientHeight;
        const { scrollTop } = this.element;
        return this.height < HIGHEST || most <= 0 ? Math.floor(scrollTop / HEIGHT) : Math.round((scrollTop / most) * Math.max(0, this.count - this.seen()));
    }

    /** Scrolls so that a line is seen, with a few before it if it wasn't. */
    reveal(line) {
        const top = this.top();
        if (line >= top && line < top + this.seen()) {
            return;
        }
        const isNear = line >= top - 1 && line <= top + this.seen();
        const wanted = Math.max(0, !isNear ? line - 4 : line < top ? line : line - this.seen() + 1);
        const most = this.height - this.element.clientHeight;
        this.element.scrollTop = this.height < HIGHEST ? wanted * HEIGHT : (wanted / Math.max(1, this.count - this.seen())) * most;
    }

    /** Makes the lines that are seen, unless they are there. */
    draw() {
        const top = this.top();
        const from = Math.max(0, top - BESIDE);
        const to = Math.min(this.count, top + this.seen() + 2 + BESIDE);
        if (this.drawn !== `${from} ${to}`) {
            this.drawn = `${from} ${to}`;
            this.fill(from, to);
        }
        const above = this.height < HIGHEST ? from * HEIGHT : Math.max(0, this.element.scrollTop - (top - from) * HEIGHT);
        this.lines.style.transform = `translateY(${above}px)`;
    }

    fill(from, to) {
        this.lines.replaceChildren(...Array.from({ length: Math.max(0, to - from) }, (_, i) => this.line((from + i) * LINE)));
    }

    /** Makes all lines that are printed, or only those again that are seen. */
    print(isPrinting) {
        this.drawn = null;
        if (isPrinting) {
            const from = Math.min(this.top(), Math.max(0, this.count - MOST_PRINTED));
            this.fill(from, Math.min(this.count, from + MOST_PRINTED));
            this.lines.style.transform = "none";
        } else {
            this.draw();
        }
    }

    /** Returns bytes: those of the image, and zeros after these. */
    bytesAt(from, to) {
        const bytes = new Uint8Array(to - from);
        bytes.set(this.image.subarray(from, to));
        return bytes;
    }

    line(at) {
        const bytes = this.bytesAt(at, Math.min(at + LINE, this.size));
        const cells = el("span", { class: "cells" });
        for (let i = 0; i < LINE; i += 1) {
            const isThere = i < bytes.length;
            cells.append(isThere ? el("span", { class: this.kindAt(at + i), "data-at": String(at + i) }, hex(bytes[i], 2)) : "  ", i % 4 === 3 ? "  " : " ");
        }
        const text = String.fromCharCode(...bytes).replace(/[^ -~]/g, ".");
        const address = el("span", { class: "at" }, `${hex(this.first + at, 8)}  `);
        return el("div", { class: "line" }, address, cells, el("span", { class: "text" }, text.padEnd(LINE)), this.additionsOf(at, at + bytes.length));
    }

    /** Returns what is added to the words that begin in a line, or null. */
    additionsOf(from, to) {
        const words = new Map();
        for (const it of this.added.between(from, to, LINE * MOST_ADDED)) {
            words.set(it.offset, [...(words.get(it.offset) ?? []), it]);
        }
        if (words.size === 0) {
            return null;
        }
        const parts = [...words].map(([offset, all]) => this.wordText(offset, all));
        return el("span", { class: "added", title: parts.map((it) => it.textContent).join("\n") }, ...parts);
    }

    wordText(offset, all) {
        const shown = el("span", {}, hex(this.first + offset, 8));
        for (const it of all.slice(0, MOST_ADDED)) {
            const go = this.goOf(it);
            // The keyboard reaches the same place from what is said of the marked byte.
            shown.append(" + ", go === null ? this.textOf(it) : el("span", { class: "link", onclick: go }, this.textOf(it)));
        }
        shown.append(all.length > MOST_ADDED ? " + …" : "");
        return shown;
    }

    kindAt(offset) {
        const word = this.added.wordOf(offset);
        const kinds = [offset === this.mark ? "mark" : "", word !== null ? "relocated" : offset >= this.image.length ? "zero" : ""];
        return kinds.filter((it) => it !== "").join(" ") || null;
    }

    press(event) {
        const step = event.key === "PageDown" ? LINE * this.seen() : event.key === "PageUp" ? -LINE * this.seen() : MOVES[event.key];
        const end = event.key === "Home" ? 0 : event.key === "End" ? this.size - 1 : null;
        if (event.target !== this.element || event.ctrlKey || event.metaKey || event.altKey || (step === undefined && end === null) || this.size === 0) {
            return;
        }
        event.preventDefault();
        const there = end ?? (this.mark === null ? this.top() * LINE : this.mark + step);
        if (there >= 0 && there < this.size) {
            this.markAt(there);
        }
    }
}

for (const [event, isPrinting] of [["beforeprint", true], ["afterprint", false]]) {
    window.addEventListener(event, () => document.querySelectorAll(".hex").forEach((it) => it.hexLines.print(isPrinting)));
}
