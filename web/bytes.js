// A view of bytes: which ones are shown, ways to go to a place or to find some bytes, and what is known of the byte that is marked.
import { Additions } from "./additions.js";
import { button, el } from "./dom.js";
import { HexLines } from "./hex.js";
import { counted, hex } from "./text.js";

/** An offset as people write it. */
const OFFSET = /^\s*(?:0x|\$)?([0-9a-f]{1,12})\s*$/i;

/** Bytes as people write them: in hexadecimal, or a text in quotes. */
const DIGITS = /^(?:0x|\$)?((?:[0-9a-f]{2})+)$/i;

const QUOTED = /^"(.+)"$/;

const NONE = { image: new Uint8Array(0), size: 0, first: 0, added: new Additions(), isCut: false };

/** Returns the bytes that a text means, or null. */
export function bytesOf(typed) {
    const quoted = QUOTED.exec(typed.trim());
    if (quoted !== null) {
        return Uint8Array.from(quoted[1], (it) => it.charCodeAt(0));
    }
    const digits = DIGITS.exec(typed.replace(/\s/g, ""));
    return digits === null ? null : Uint8Array.from(digits[1].match(/../g), (it) => parseInt(it, 16));
}

/** Returns where some bytes are in others from an offset on, or -1. */
export function findBytes(bytes, wanted, from) {
    for (let at = bytes.indexOf(wanted[0], from); at >= 0; at = bytes.indexOf(wanted[0], at + 1)) {
        if (wanted.every((it, i) => bytes[at + i] === it)) {
            return at;
        }
    }
    return -1;
}

/** A view of bytes of several sources. */
export class BytesView {
    /**
     * `sources` returns the sources: each has a label, and `load` gives its bytes, in a promise: the `image`, the `size` with the zeros after
     * it, the number of the `first` byte, and what is `added` to its words, of which some may be missing if it `isCut`. The image is
     * null if it can't be shown. `textOf` and `goOf` are those of the lines. Of the marked byte `longOf` is said of an addition, and `explain`
     * returns what else is said. All four are also given what the bytes are `of`, as the source has it. If bytes are at addresses, `sourceAt` returns which source has one, or
     * null.
     */
    constructor({ sources, textOf = () => "", longOf = textOf, goOf = () => null, explain = () => [], sourceAt = null, first = 0 }) {
        this.sources = sources;
        this.sourceAt = sourceAt;
        this.place = sourceAt === null ? "offset" : "address";
        this.longOf = (it) => longOf(it, this.of);
        this.goOf = (it) => goOf(it, this.of);
        this.explain = (offset) => explain(offset, this.of);
        this.lines = new HexLines({ textOf: (it) => textOf(it, this.of), goOf: this.goOf, onMark: (offset) => this.tell(offset) });
        this.select = el("select", { "aria-label": "Bytes of" });
        this.select.addEventListener("change", () => this.open(Number(this.select.value), null));
        this.goal = field(`Go to an ${this.place} in hexadecimal`, sourceAt === null ? "Offset" : "Address", 10);
        this.wanted = field("Find bytes: hexadecimal digits, or a text in quotes", "4E800020 or \"text\"", 18);
        this.note = el("p", { class: "hint", role: "status" });
        this.warning = el("p", { class: "warning", role: "alert", hidden: true });
        this.told = el("div", { class: "told", role: "status" });
        this.words = [button("Previous word", () => this.step("last"), { title: "The relocated word before the mark" }), button("Next word", () => this.step("next"), { title: "The next relocated word" })];
        const tools = el("div", { class: "tools" }, el("label", {}, "Bytes of ", this.select), form("Go to ", this.goal, "Go", () => this.goTo(this.goal.value)), form("Find ", this.wanted, "Find next", () => this.find(this.wanted.value)), ...this.words);
        this.element = el("section", { class: "bytes" }, tools, this.warning, this.note, this.lines.element, this.told);
        this.open(first, null);
    }

    /** Shows the place that the user typed. */
    goTo(typed) {
        const found = OFFSET.exec(typed);
        if (found === null) {
            this.warn(typed.trim() === "" ? `Type an ${this.place} in hexadecimal, such as 1A0.` : `“${typed}” isn't an ${this.place} in hexadecimal, such as 1A0.`);
            return;
        }
        const at = parseInt(found[1], 16);
        const source = this.sourceAt?.(at) ?? null;
        if (source !== null && source !== Number(this.select.value)) {
            this.open(source, at);
        } else {
            this.markAt(at);
        }
    }

    /** Finds the next bytes after the mark that the user typed, from the beginning on if there are none. */
    find(typed) {
        const wanted = bytesOf(typed);
        if (wanted === null) {
            this.warn("Type bytes as hexadecimal digits, two for each, or a text in quotes.");
            return;
        }
        const { image, mark } = this.lines;
        const after = findBytes(image, wanted, mark === null ? 0 : mark + 1);
        const found = after < 0 ? findBytes(image, wanted, 0) : after;
        this.warn(found < 0 ? "These bytes aren't here." : "");
        if (found >= 0) {
            this.lines.markAt(found);
        }
    }

    /** Marks the next or the last word that is relocated. */
    step(way) {
        const { added, mark } = this.lines;
        const from = mark === null ? -1 : (added.wordOf(mark) ?? mark);
        const found = added[way](from);
        if (found !== null) {
            this.lines.markAt(found);
        }
    }

    /** Says why a place isn't shown. */
    warn(words) {
        this.warning.textContent = words;
        this.warning.hidden = words === "";
    }

    /** Lists the sources: there may be more of them than before. */
    listSources() {
        const sources = this.sources();
        for (let i = this.select.length; i < sources.length; i += 1) {
            this.select.append(el("option", { value: String(i) }, sources[i].label));
        }
        return sources;
    }

    /** Shows a source, and marks the byte with a number, which counts as those of the source do. */
    async open(number, at) {
        const source = this.listSources()[number];
        this.select.value = String(number);
        this.warn("");
        const opening = {};
        this.opening = opening;
        this.of = source?.of;
        const promised = source === undefined ? NONE : source.load();
        if (promised instanceof Promise) {
            this.show(NONE, null);
            this.note.textContent = "";
            this.element.setAttribute("aria-busy", "true");
        }
        const shown = promised instanceof Promise ? await promised : promised;
        if (this.opening === opening) {
            this.show(shown, at);
        }
    }

    /** Shows bytes, or says why there are none. */
    show(shown, at) {
        this.element.removeAttribute("aria-busy");
        const { image, isCut } = shown;
        this.lines.show({ ...shown, image: image ?? NONE.image });
        this.told.replaceChildren();
        this.words.forEach((it) => {
            it.hidden = shown.added.words === 0;
        });
        this.note.textContent = image === null ? "The bytes aren't all there, can't be expanded, or are too many to be shown." : this.hint(isCut);
        if (at !== null) {
            this.markAt(at);
        }
    }

    /** Marks the byte with a number, or says why it isn't here. */
    markAt(at) {
        const { first, size } = this.lines;
        this.warn(this.outside(at));
        if (size > 0) {
            this.lines.markAt(Math.min(Math.max(at - first, 0), size - 1));
        }
    }

    /** Returns why a byte isn't shown. The text is empty if it is. */
    outside(at) {
        const { first, size } = this.lines;
        const last = first + size - 1;
        if (size === 0 || (at >= first && at <= last)) {
            return "";
        }
        const where = at < first ? `before the first byte, which is at ${hex(first, 8)}` : `past the end: the last byte is at ${hex(last, 8)}`;
        return `${hex(at, 8)} is ${where}.`;
    }

    /** Says what is known of the marked byte. */
    tell(offset) {
        const { first, image, added } = this.lines;
        const word = added.wordOf(offset);
        const parts = [`${hex(first + offset, 8)}: byte ${hex(image[offset] ?? 0, 2)}.`];
        if (word !== null) {
            parts.push(` The word at ${hex(first + word, 8)} is relocated:`);
            for (const it of added.between(word, word + 1, 8)) {
                const go = this.goOf(it);
                parts.push(" + ", go === null ? this.longOf(it) : button(this.longOf(it), go, { class: "link" }));
            }
            parts.push(".");
        }
        this.told.replaceChildren(...parts, ...this.explain(offset));
    }

    /** Returns what is said of the bytes. */
    hint(isCut) {
        return this.lines.size === 0 ? "There are no bytes." : [this.zeros(), this.relocated(isCut)].filter((it) => it !== "").join(" ");
    }

    /** Returns what is said of the words that are relocated. */
    relocated(isCut) {
        const { words } = this.lines.added;
        if (words === 0) {
            return "";
        }
        const cut = isCut ? " There are more additions, which aren't shown." : "";
        return `${counted(words, "word")} ${words === 1 ? "is" : "are"} relocated. What is added is at the end of a line, after the word's ${this.place}.${cut}`;
    }

    /** Returns what is said of the bytes that the file doesn't have. */
    zeros() {
        const { size, image } = this.lines;
        const count = size - image.length;
        if (count === 0) {
            return "";
        }
        if (image.length === 0) {
            return `The file has no bytes of this section. Its ${counted(count, "byte")} begin as zeros.`;
        }
        return `The last ${counted(count, "byte")}, from ${hex(image.length, 8)} on, aren't in the file. They begin as zeros.`;
    }
}

function field(label, placeholder, size) {
    return el("input", { type: "text", "aria-label": label, title: label, placeholder, size: String(size), spellcheck: "false", autocomplete: "off" });
}

/** Returns a field with its button. */
function form(label, input, action, submit) {
    const made = el("form", { class: "tools" }, el("label", {}, label, input), el("button", { type: "submit" }, action));
    made.addEventListener("submit", (event) => {
        event.preventDefault();
        submit();
    });
    return made;
}
