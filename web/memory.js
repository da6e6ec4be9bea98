// Prepared memory, as the page has it: fragments with their sections, and what is at an address.
import { Additions } from "./additions.js";
import { PEF_FIXUP_SECTION, PEF_TARGET_ABSOLUTE, PEF_TARGET_IN_SECTION, PEF_TARGET_MISSING } from "./pef.js";
import * as text from "./text.js";

/** The tables of a fragment, as the worker names their lists. */
const TABLES = ["imports", "exports", "libraries"];

/** The entry points of a fragment. */
export const ENTRIES = ["init", "main", "term"];

export class Memory {
    /** `answer` is the worker's, and `sources` are the offers that it was given. The first one is the root. */
    constructor({ fragments, order, missing, stubs, lists }, sources) {
        this.fragments = fragments.map((it, i) => ({ ...it, ...Object.fromEntries(TABLES.map((table) => [table, lists?.[`${i} ${table}`] ?? []])), offer: it.source === null ? null : sources[it.source] }));
        this.order = order;
        this.missing = missing;
        this.stubs = stubs;
        /** The fragment that was prepared is the last one in closure order. */
        this.root = this.fragments.length - 1;
        this.sections = this.fragments.flatMap((it, fragment) => it.sections.map((section, number) => ({ ...section, fragment, number, additions: additionsTo(it, number) })));
        this.sectionsByKey = new Map(this.sections.map((it) => [`${it.fragment} ${it.number}`, it]));
        this.byAddress = this.sections.filter(({ size }) => size > 0).sort((a, b) => a.address - b.address);
        this.symbols = this.symbolsByPlace();
    }

    nameOf(fragment) {
        return text.nameOf(this.fragments[fragment]);
    }

    /** Returns the section that has an address, or null. */
    sectionAt(address) {
        return this.byAddress.findLast((it) => it.address <= address && address - it.address < it.size) ?? null;
    }

    section(fragment, number) {
        return this.sectionsByKey.get(`${fragment} ${number}`) ?? null;
    }

    // Symbols.

    /** Returns the exports that are in each section, in the order of their offsets, and those that are numbers. */
    symbolsByPlace() {
        const symbols = { inSection: new Map(), numbers: new Map() };
        this.fragments.forEach((it, fragment) => {
            for (const found of it.exports) {
                const { kind, address, section, offset, fragment: to } = found.target;
                if (kind === PEF_TARGET_ABSOLUTE && !symbols.numbers.has(address)) {
                    symbols.numbers.set(address, { ...found, fragment });
                }
                if (kind === PEF_TARGET_IN_SECTION && to === fragment) {
                    const key = `${to} ${section}`;
                    symbols.inSection.set(key, symbols.inSection.get(key) ?? []);
                    symbols.inSection.get(key).push({ offset, ...text.only(found) });
                }
            }
        });
        symbols.inSection.forEach((all) => all.sort((a, b) => a.offset - b.offset));
        return symbols;
    }

    /** Returns the words for an address in a section: the fragment, the section, the offset there, and the nearest export before it. */
    placeText(section, address) {
        const offset = address - section.address;
        const nearest = (this.symbols.inSection.get(`${section.fragment} ${section.number}`) ?? []).findLast((it) => it.offset <= offset);
        const after = nearest === undefined || nearest.offset === offset ? "" : ` + ${text.hex(offset - nearest.offset, 1)}`;
        const symbol = nearest === undefined ? "" : `, ${text.nameOf(nearest)}${after}`;
        return `${this.nameOf(section.fragment)}, section ${section.number} + ${text.hex(offset, 1)}${symbol}`;
    }

    /** Returns the words for a number that isn't an address in memory and that a fragment exports, or null. */
    numberText(number) {
        const found = this.symbols.numbers.get(number);
        return found === undefined ? null : `${text.nameOf(found)} of ${this.nameOf(found.fragment)}`;
    }

    // What is added to words.

    /** Returns where an addition leads in memory, as an address, or null. */
    addressOf(fragment, { kind, number }) {
        if (kind === PEF_FIXUP_SECTION) {
            return this.section(fragment, number)?.address ?? null;
        }
        const target = this.fragments[fragment].imports[number]?.target;
        return target?.kind === PEF_TARGET_IN_SECTION ? target.address : null;
    }

    /** Returns the words for an addition. */
    addedText(fragment, { kind, number }) {
        if (kind === PEF_FIXUP_SECTION) {
            return `section ${number}`;
        }
        const found = this.fragments[fragment].imports[number];
        return found === undefined ? `import ${number}` : `import ${number} ${text.shortened(text.nameOf(found))} of ${this.libraryText(fragment, found)}`;
    }

    /** Returns a word for an addition: the name of the import, or the section. */
    shortText(fragment, it) {
        const found = it.kind === PEF_FIXUP_SECTION ? undefined : this.fragments[fragment].imports[it.number];
        return found === undefined ? this.addedText(fragment, it) : text.shortened(text.nameOf(found));
    }

    libraryText(fragment, { library }) {
        const found = this.fragments[fragment].libraries[library];
        return found === undefined ? `library ${library}` : text.shortened(text.nameOf(found));
    }

    /** Returns the words for what a symbol means. */
    targetText({ kind, fragment, section, offset, address }) {
        if (kind === PEF_TARGET_MISSING) {
            return "missing, so 0";
        }
        if (kind === PEF_TARGET_ABSOLUTE) {
            return `the number ${text.hex(address, 8)}`;
        }
        return fragment === null ? text.hex(address, 8) : `${this.nameOf(fragment)}, section ${section} + ${text.hex(offset, 1)}`;
    }

    // Entry points.

    /** Returns the entry points in the order in which `pef load` prints them: each fragment's, by what it is for. */
    entries() {
        const of = (kind, fragments) => fragments.filter((i) => this.fragments[i].entries[`has_${kind}`]).map((fragment) => ({ kind, fragment, address: this.fragments[fragment].entries[kind] }));
        return [...of("init", this.order), ...of("main", [this.root]), ...of("term", [...this.order].reverse())];
    }
}

/** Returns the additions to the words of a section. A container may have several relocation headers for one. */
function additionsTo({ relocations }, number) {
    const lists = relocations.filter(({ section }) => section === number).map(({ numbers }) => numbers);
    const all = new Float64Array(lists.reduce((sum, { length }) => sum + length, 0));
    let at = 0;
    for (const it of lists) {
        all.set(it, at);
        at += it.length;
    }
    return new Additions(all);
}
