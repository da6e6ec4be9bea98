// What the page has of a file and of a container: parts of the report that the module gives, and ways to ask for more.
import { Additions } from "./additions.js";
import { PEF_KIND_PACKED, PEF_LOCATOR_DATA_FORK } from "./pef.js";

/** The tables of a container, by the names of their lists. */
const TABLES = ["sections", "libraries", "imports", "relocations", "exports"];

/** The last of the errors of a container's header and its sections. */
const LAST_OF_PARTS = 10;

/** The largest image that the page expands. */
const MOST_EXPANDED = 0x10000000;

/** The verdicts on a container, the worst one first. */
export const VERDICTS = ["cut", "damaged", "unlikely", "stub", "m68k", "whole"];

/** How many additions are listed, and how many are shown beside the bytes of a section. */
const MOST_LISTED = 20000;

const MOST_BESIDE = 100000;

/** Returns the bytes of a file from an offset on, as a source of a view of bytes. */
export function fileSource({ bytes, offset }) {
    const label = offset === 0 ? "the file" : "the file from the container on";
    return { label, load: () => ({ image: bytes, size: bytes.length, first: offset, added: new Additions(), isCut: false }) };
}

/** A file that the user gave. */
export class OpenFile {
    constructor(number, path) {
        this.number = number;
        this.path = path;
        this.name = path.slice(path.lastIndexOf("/") + 1);
        /** Why it can't be read, if so. */
        this.why = null;
        /** The script that it was linked from on the page, or null. */
        this.script = null;
        this.isClosed = false;
        /** How many errors and notes were found so far, and whether there may be more. */
        this.count = { errors: 0, notes: 0, isCut: false };
        /** What was counted of each container, those that were counted so far: its errors and notes, and its verdict. */
        this.counted = [];
        this.format = null;
        /** The file that has its resource fork, and the file whose resource fork this one has. */
        this.companion = null;
        this.owner = null;
        this.places = new Float64Array(0);
    }

    /** Takes what the worker says of the file. */
    take({ bytes, report, forks, resources, hasMoreResources, places, rests }) {
        this.bytes = bytes;
        this.report = report;
        this.format = report.format;
        this.fragments = report.fragments;
        this.findings = [...report.errors.map((it) => ({ ...it, kind: "error" })), ...report.notes.map((it) => ({ ...it, kind: "note" }))];
        this.forks = forks;
        this.resources = resources;
        this.hasMoreResources = hasMoreResources;
        this.places = places;
        this.rests = rests;
        this.count.errors = report.errors.length;
        this.count.notes = report.notes.length;
        /** The fragments by the offsets of their containers, the first of each. */
        this.fragmentAt = new Map([...this.fragments].reverse().map((it) => [it.offset, it]));
        /** The first error of each fragment, by its row. */
        this.errorAt = new Map([...report.errors].reverse().filter(({ part }) => part === "fragment").map((it) => [it.row, it]));
    }

    /** Takes what was counted of the next containers. */
    takeCount(found) {
        for (const it of found) {
            this.counted.push(it);
            this.count.errors += it.errors;
            this.count.notes += it.notes;
            this.count.isCut ||= it.isCut;
        }
    }

    /** Says that the other containers can't be counted. */
    giveUpCounting() {
        const lacking = { errors: 0, notes: 0, isCut: true, state: null };
        this.takeCount(Array.from({ length: this.places.length - this.counted.length }, () => lacking));
    }

    isCounted() {
        return this.counted.length >= this.places.length;
    }

    /** Returns the verdict of the file: the worst of those of its containers that were counted, or null if there is none. */
    verdict() {
        return VERDICTS.find((it) => this.counted.some(({ state }) => state === it)) ?? null;
    }

    hasResourceFork() {
        return this.why === null && this.report.forks.some(({ kind }) => kind === "resource");
    }

    /** Takes the file that has the resource fork of this one. Its fragments name containers of this file. */
    takeCompanion(companion) {
        this.companion = companion;
        companion.owner = this;
        // The data fork is here.
        const findings = companion.findings.filter(({ name }) => name !== "DataForkElsewhere");
        companion.count.notes -= companion.findings.length - findings.length;
        companion.findings = findings;
        for (const fragment of companion.fragments) {
            const found = companion.containerOf(fragment);
            if (found?.file === this && !this.fragmentAt.has(found.place)) {
                this.fragmentAt.set(found.place, fragment);
            }
        }
    }

    /** Returns a blob with bytes of the file. Several share what the browser keeps of them. */
    part(from, length) {
        this.blob ??= new Blob([this.bytes]);
        return this.blob.slice(from, from + length);
    }

    /** Returns the file and the place of the container that a fragment of this file names, or null. */
    containerOf({ offset, where, place }) {
        if (this.containerAt(offset) >= 0) {
            return { file: this, place: offset };
        }
        const isInOwner = this.owner !== null && where === PEF_LOCATOR_DATA_FORK && this.owner.containerAt(place) >= 0;
        return isInOwner ? { file: this.owner, place } : null;
    }

    /** Returns the place that is shown first: that of the only container, or null for the file. */
    mainPlace() {
        return this.places.length === 1 ? this.places[0] : null;
    }

    /** Returns the number of the container at a place, or -1. */
    containerAt(place) {
        let low = 0;
        let high = this.places.length;
        while (low < high) {
            const middle = (low + high) >> 1;
            if (this.places[middle] < place) {
                low = middle + 1;
            } else {
                high = middle;
            }
        }
        return this.places[low] === place ? low : -1;
    }
}

/** The beginning of a container, with ways to ask for more of it. `ask` asks the worker. */
export class Container {
    constructor(file, k, { container, lists, asked, rest }, ask) {
        const { offset, header, loader, entries } = container;
        Object.assign(this, { offset, header, loader, entries, sections: [], libraries: [], imports: [], relocations: [], exports: [], errors: [], notes: [] }, lists);
        /** What the report says of the container besides. */
        this.others = container;
        this.k = k;
        this.file = file;
        this.ask = ask;
        /** How many rows of each table were asked for. */
        this.asked = asked;
        /** How many bytes the container can have. */
        this.rest = rest;
        this.bytes = file.bytes.subarray(offset, offset + rest);
        /** The tables that may have further rows. */
        this.more = new Set(TABLES.filter((it) => this[it].length >= asked));
        /** Whether there may be more errors or notes. */
        this.isCut = this.errors.length + this.notes.length >= asked;
    }

    /** Reads further rows of a table. */
    async readMore(table) {
        const answer = await this.ask("rows", this.k, table, this[table].length, this.asked);
        if (answer === null || !answer.more) {
            this.more.delete(table);
        }
        for (const row of answer?.lists?.rows ?? []) {
            this[table].push(row);
        }
    }

    /** Returns the first instructions of the relocation programs. */
    instructions() {
        return this.ask("instructions", this.k, this.relocations.map(({ halfwords }) => halfwords));
    }

    /** Returns the first additions of the relocation programs, as rows of a table. */
    async additions() {
        const { numbers, cut } = await this.askAdditions(this.relocations.map((_, i) => i), MOST_LISTED);
        const rows = Array.from({ length: numbers.length / 4 }, (_, i) => {
            const [relocation, offset, kind, number] = numbers.subarray(4 * i, 4 * i + 4);
            return { section: this.relocations[relocation].section, offset, kind, number };
        });
        return { rows, cut };
    }

    /** Returns the first additions to the words of a section. */
    async additionsTo(section) {
        const wanted = [...this.relocations.keys()].filter((i) => this.relocations[i].section === section);
        const { numbers, cut } = await this.askAdditions(wanted, MOST_BESIDE);
        return { added: new Additions(numbers.filter((_, i) => i % 4 !== 0)), cut };
    }

    /** Returns the first additions of some programs, four numbers each. */
    async askAdditions(wanted, most) {
        return (await this.ask("additions", this.k, wanted, most)) ?? { numbers: new Float64Array(0), cut: false };
    }

    /** Returns the bytes of the container alone, as `pef extract` writes them: a note says where it ends, unless its parts are damaged. */
    ownBytes() {
        const isDamaged = this.errors.some(({ number }) => number <= LAST_OF_PARTS);
        const after = this.notes.find(({ name }) => name === "TrailingBytes");
        return isDamaged || after === undefined ? this.bytes : this.bytes.subarray(0, after.offset - this.offset);
    }

    /** Returns how many bytes a section has in memory: those of its image, and zeros after them. */
    sizeOf(i, image) {
        const isInMemory = this.header !== null && i < this.header.instantiated;
        return isInMemory ? Math.max(this.sections[i].total, image.length) : image.length;
    }

    /** Returns the image of a section: its bytes, expanded if they are packed, or null if they aren't there or can't be expanded. */
    async image({ raw, packed, unpacked, kind }) {
        if (raw + packed > this.offset + this.rest) {
            return null;
        }
        if (kind !== PEF_KIND_PACKED) {
            return this.file.bytes.subarray(raw, raw + packed);
        }
        return unpacked <= MOST_EXPANDED ? this.ask("image", raw, packed, unpacked) : null;
    }
}
