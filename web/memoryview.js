// The views of prepared memory.
import { BytesView } from "./bytes.js";
import { closureTree } from "./closure.js";
import { coded } from "./codes.js";
import { button, el, head, hint } from "./dom.js";
import { missingPart } from "./missing.js";
import { PEF_TARGET_ABSOLUTE } from "./pef.js";
import { SearchView } from "./search.js";
import { DataTable } from "./table.js";
import { Tabs } from "./tabs.js";
import * as text from "./text.js";
import { CLASSES, KINDS, SHARES } from "./words.js";

/** How many words are listed. */
const MOST_LISTED = 20000;

/** What an entry point is, by its kind. */
const ENTRY_WORDS = { init: "initialization routine", main: "main entry point", term: "termination routine" };

/** `actions` has what can be done: `choose` shows a container, `useStubs` prepares again, and the others save something. */
export class MemoryView {
    constructor(memory, title, actions) {
        this.memory = memory;
        this.actions = actions;
        const stubs = memory.fragments.filter(({ isStub }) => isStub);
        const tabs = [
            ["Closure", "Fragments", () => this.closure()],
            ["Sections", `Sections ${memory.sections.length}`, () => this.sections()],
            ["Words", `Words ${memory.sections.reduce((sum, it) => sum + it.additions.words, 0).toLocaleString("en")}`, () => this.words()],
            ["Imports", `Imports ${count(memory, "imports")}`, () => this.imports()],
            ["Exports", `Exports ${count(memory, "exports")}`, () => this.exports(memory.fragments)],
            stubs.length === 0 ? null : ["Stubs", `Stubs ${stubs.length}`, () => this.exports(stubs)],
            ["Search", "Search", () => new SearchView(memory, (address) => this.goTo(address)).element],
            ["Bytes", "Bytes", () => this.bytes()],
        ];
        this.tabs = new Tabs("Views of the memory", tabs.filter((it) => it !== null).map(([key, label, draw]) => ({ key, label, draw })));
        const saves = [button("Save as text", actions.saveText, { title: "The lines that pef load prints" }), button("Save JSON", actions.saveJson, { id: "saveMemoryJson" }), button("Save the memory", actions.saveImage, { title: "All bytes from the first address to the last" })];
        this.element = el("article", { class: "memory" }, head(title, saves), ...this.tabs.elements);
        this.tabs.start();
    }

    /** Shows the byte at an address. */
    goTo(address) {
        const section = this.memory.sectionAt(address);
        if (section !== null) {
            this.showBytes(this.memory.sections.indexOf(section), address);
        }
    }

    showBytes(number, address) {
        this.tabs.show("Bytes");
        this.bytesView.open(number, address);
        this.bytesView.lines.element.focus();
    }

    /** Shows what there is of a fragment: its first section, or its exports. */
    showFragment(fragment) {
        const number = this.memory.sections.findIndex((it) => it.fragment === fragment);
        if (number >= 0) {
            this.showBytes(number, null);
        } else {
            this.tabs.show("Exports");
        }
    }

    /** Returns a column with an address that leads to its byte. `addressOf` gives null if there is none. */
    address(title, addressOf, wordsOf = (it) => text.hex(addressOf(it), 8)) {
        const isThere = (it) => addressOf(it) !== null && this.memory.sectionAt(addressOf(it)) !== null;
        return { title, text: wordsOf, value: addressOf, class: "number", go: (it) => (isThere(it) ? () => this.goTo(addressOf(it)) : null) };
    }

    fragment() {
        return { title: "Fragment", text: ({ fragment }) => this.memory.nameOf(fragment) };
    }

    closure() {
        const { memory, actions } = this;
        const entries = new DataTable({
            caption: "Entry points",
            columns: [{ title: "What", text: ({ kind }) => ENTRY_WORDS[kind] }, this.fragment(), this.address("Address", ({ address }) => address)],
            rows: memory.entries(),
        });
        return [
            el("h3", {}, "Who needs whom"), closureTree(memory, (it) => this.showFragment(it)), ...missingPart(memory, actions.useStubs).filter((it) => it !== null),
            el("h3", {}, "Fragments, each after those that it needs"), this.fragments(), el("h3", {}, "Entry points"), entries.element,
        ];
    }

    fragments() {
        const { memory, actions } = this;
        const rows = memory.fragments.map((it, fragment) => ({ ...it, fragment }));
        const first = (fragment) => memory.sections.find((it) => it.fragment === fragment)?.address ?? null;
        const columns = [
            { title: "#", text: ({ fragment }) => String(fragment), value: ({ fragment }) => fragment, class: "number" },
            this.fragment(),
            { title: "From", text: ({ offer }) => (offer === null ? "a stub" : `${offer.file.name}, ${text.at(offer.place)}`), go: ({ offer }) => (offer === null ? null : () => actions.choose(offer.file, offer.place)) },
            { title: "Sections", text: ({ sections }) => String(sections.length), value: ({ sections }) => sections.length, class: "number" },
            this.address("First section at", ({ fragment }) => first(fragment), ({ fragment }) => (first(fragment) === null ? "–" : text.hex(first(fragment), 8))),
            { title: "Initialized as", text: ({ fragment }) => String(memory.order.indexOf(fragment) + 1), value: ({ fragment }) => memory.order.indexOf(fragment), class: "number" },
        ];
        return new DataTable({ caption: "Fragments", columns, rows }).element;
    }

    sections() {
        const columns = [
            this.fragment(),
            { title: "#", text: ({ number }) => String(number), value: ({ number }) => number, class: "number" },
            this.address("Address", ({ address }) => address),
            { title: "Size", text: ({ size }) => String(size), value: ({ size }) => size, class: "number" },
            { title: "Kind", text: ({ kind }) => coded(KINDS, kind), value: ({ kind }) => kind, class: "words" },
            { title: "Share", text: ({ share }) => coded(SHARES, share), value: ({ share }) => share },
            { title: "Relocated words", text: ({ additions }) => String(additions.words), value: ({ additions }) => additions.words, class: "number" },
            { title: "Bytes", text: ({ size }) => (size === 0 ? "–" : "save"), go: (it) => (it.size === 0 ? null : () => this.actions.saveSection(it)) },
        ];
        return new DataTable({ caption: "Sections in memory", columns, rows: this.memory.sections, empty: "No section is in memory." }).element;
    }

    words() {
        const { memory } = this;
        const rows = [];
        for (const section of memory.sections) {
            rows.push(...section.additions.rows(MOST_LISTED - rows.length).map((it) => ({ ...it, section, fragment: section.fragment })));
        }
        const lead = (it) => memory.addressOf(it.fragment, it);
        const columns = [
            this.fragment(),
            { title: "Section", text: ({ section }) => String(section.number), value: ({ section }) => section.number, class: "number" },
            this.address("Word at", ({ section, offset }) => section.address + offset),
            { title: "Has now", text: ({ section, offset }) => wordAt(section, offset), class: "number" },
            { title: "Adds the address of", text: (it) => memory.addedText(it.fragment, it) },
            this.address("That is", lead, (it) => (lead(it) === null ? this.leadText(it) : text.hex(lead(it), 8))),
        ];
        const all = memory.sections.reduce((sum, { additions }) => sum + additions.length, 0);
        const isCut = rows.length < all || memory.fragments.some(({ hasMoreAdditions }) => hasMoreAdditions);
        const table = new DataTable({ caption: "Words that are relocated", columns, rows }).element;
        return isCut ? [hint(`Only the first ${rows.length.toLocaleString("en")} are listed.`), table] : [table];
    }

    /** Returns the words for what an addition leads to that isn't in memory. */
    leadText({ fragment, number }) {
        const target = this.memory.fragments[fragment].imports[number]?.target;
        return target === undefined ? "–" : this.memory.targetText(target);
    }

    imports() {
        const { memory } = this;
        const rows = memory.fragments.flatMap((it, fragment) => it.imports.map((found, number) => ({ ...found, fragment, number })));
        const columns = [
            this.fragment(),
            { title: "#", text: ({ number }) => String(number), value: ({ number }) => number, class: "number" },
            { title: "Name", text: text.nameOf },
            { title: "Library", text: (it) => memory.libraryText(it.fragment, it) },
            { title: "Class", text: (it) => coded(CLASSES, it.symbol_class), value: (it) => it.symbol_class },
            { title: "Weak", text: (it) => (it.weak ? "weak" : "") },
            this.address("Address", ({ target }) => target.address),
            { title: "Leads to", text: ({ target }) => this.meaning(target) },
        ];
        return new DataTable({ caption: "Imports", columns, rows }).element;
    }

    /** Returns the words for a target: of a number also the symbol that it stands for. */
    meaning(target) {
        const symbol = target.kind === PEF_TARGET_ABSOLUTE ? this.memory.numberText(target.address) : null;
        return `${this.memory.targetText(target)}${symbol === null ? "" : `: ${symbol}`}`;
    }

    exports(fragments) {
        const { memory } = this;
        const rows = fragments.flatMap((it) => it.exports.map((found) => ({ ...found, fragment: memory.fragments.indexOf(it) })));
        const columns = [
            this.fragment(),
            { title: "Name", text: text.nameOf },
            { title: "Class", text: (it) => coded(CLASSES, it.symbol_class), value: (it) => it.symbol_class },
            this.address("Address", ({ target }) => target.address),
            { title: "Is", text: ({ target, isReexport }) => `${memory.targetText(target)}${isReexport ? ", passed on" : ""}` },
        ];
        return new DataTable({ caption: "Exports", columns, rows, empty: "No fragment exports anything." }).element;
    }

    bytes() {
        const { memory } = this;
        const sources = memory.sections.map((it) => ({
            of: it,
            label: `${memory.nameOf(it.fragment)}, section ${it.number} at ${text.hex(it.address, 8)}, ${text.counted(it.size, "byte")}`,
            load: () => ({ image: it.bytes, size: it.size, first: it.address, added: it.additions, isCut: memory.fragments[it.fragment].hasMoreAdditions }),
        }));
        this.bytesView = new BytesView({
            sources: () => sources,
            textOf: (it, section) => memory.shortText(section.fragment, it),
            longOf: (it, section) => this.addedText(section, it),
            goOf: (it, section) => this.goOf(section, it),
            explain: (offset, section) => this.explain(section, offset),
            sourceAt: (address) => (memory.sectionAt(address) === null ? null : memory.sections.indexOf(memory.sectionAt(address))),
            first: Math.max(0, memory.sections.findIndex(({ fragment }) => fragment === memory.root)),
        });
        return this.bytesView.element;
    }

    /** Returns the words for an addition, with where it leads. */
    addedText({ fragment }, it) {
        const address = this.memory.addressOf(fragment, it);
        return `${this.memory.addedText(fragment, it)} (${address === null ? this.leadText({ ...it, fragment }) : text.hex(address, 8)})`;
    }

    goOf({ fragment }, it) {
        const address = this.memory.addressOf(fragment, it);
        return address === null || this.memory.sectionAt(address) === null ? null : () => this.goTo(address);
    }

    /** Returns what else is said of a byte: where it is, and where the number leads that begins at its word. */
    explain(section, offset) {
        const { memory } = this;
        const start = section.additions.wordOf(offset) ?? offset - (offset % 4);
        const parts = [el("br"), `It is in ${memory.placeText(section, section.address + offset)}.`];
        if (start + 4 <= section.size) {
            const number = new DataView(section.bytes.buffer, section.bytes.byteOffset + start).getUint32(0);
            const there = memory.sectionAt(number);
            const symbol = memory.numberText(number);
            const word = ` The word at ${text.hex(section.address + start, 8)} has ${text.hex(number, 8)}`;
            parts.push(word, there === null ? (symbol === null ? "." : `, which is ${symbol}.`) : ", which is ");
            if (there !== null) {
                parts.push(button(memory.placeText(there, number), () => this.goTo(number), { class: "link" }), ".");
            }
        }
        return parts;
    }
}

function count({ fragments }, table) {
    return fragments.reduce((sum, it) => sum + it[table].length, 0).toLocaleString("en");
}

/** Returns the word at an offset of a section, in hexadecimal. */
function wordAt({ bytes }, offset) {
    return text.hex(new DataView(bytes.buffer, bytes.byteOffset + offset).getUint32(0), 8);
}
