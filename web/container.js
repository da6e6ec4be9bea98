// The views of a container.
import { BytesView } from "./bytes.js";
import { coded, libraryOptions } from "./codes.js";
import { el, head, hint, later, terms } from "./dom.js";
import { fileSource } from "./files.js";
import { findingColumns } from "./findings.js";
import { mapOf } from "./map.js";
import { PEF_FIXUP_SECTION, PEF_KIND_PACKED } from "./pef.js";
import { DataTable } from "./table.js";
import { Tabs } from "./tabs.js";
import * as text from "./text.js";
import { CLASSES, KINDS, SHARES } from "./words.js";

/** The tables of rows, by their tabs. */
const TABLES = { Sections: "sections", Libraries: "libraries", Imports: "imports", Exports: "exports", Relocations: "relocations" };

/** The tab that has the row of a part. */
const TABS = { section: "Sections", packed: "Sections", library: "Libraries", import: "Imports", relocation: "Relocations", program: "Relocations", export: "Exports" };

/** What the overview shows of a header in its own way. */
const HEADER = [
    "architecture", "format_version", "current", "current_text", "olddef", "olddef_text", "oldimp", "oldimp_text", "date", "date_text",
    "sections", "instantiated", "reserved",
];

/**
 * The tabs of a container. `helps` has what errors and notes mean, by their numbers. `tools` are the buttons beside the title.
 * `certificates` promises the view of its certificates, if it was linked on the page.
 */
export class ContainerView {
    constructor(container, title, { helps, tools, certificates }) {
        this.container = container;
        this.helps = helps;
        this.tables = new Map();
        const draw = {
            Overview: () => this.overview(),
            Findings: () => this.findings(),
            Sections: () => this.table("Sections", this.sections()),
            Libraries: () => this.table("Libraries", this.libraries()),
            Imports: () => this.table("Imports", this.imports()),
            Exports: () => this.table("Exports", this.exports()),
            Relocations: () => this.relocations(),
            ...(certificates === null ? {} : { Certificates: () => later(certificates()) }),
            Bytes: () => this.bytes(),
        };
        this.tabs = new Tabs("Views of the container", Object.entries(draw).map(([key, it]) => ({ key, label: this.label(key), draw: it })));
        this.element = el("article", {}, head(title, tools), verdict(container), ...this.tabs.elements);
        this.tabs.start();
    }

    /** Returns the label of a tab: how many rows it has, with `+` if there may be more. */
    label(key) {
        const { container } = this;
        if (key === "Findings") {
            return `Errors and notes ${listed(container.errors.length + container.notes.length, container.isCut)}`;
        }
        const rows = container[TABLES[key]];
        return rows === undefined ? key : `${key} ${listed(rows.length, container.more.has(TABLES[key]))}`;
    }

    show(key) {
        this.tabs.show(key);
    }

    /** Shows the bytes of the file at an offset. */
    goTo(offset) {
        this.showBytes(0, offset);
    }

    /** Shows the bytes of a section, at an offset if one is given. */
    showSection(i, offset = null) {
        this.showBytes(i + 1, offset);
    }

    showBytes(source, offset) {
        this.show("Bytes");
        this.bytesView.open(source, offset);
        this.bytesView.lines.element.focus();
    }

    /** Shows a row of a table. */
    goToRow(key, row) {
        this.show(key);
        this.tables.get(key).reveal(row);
    }

    table(key, made) {
        this.tables.set(key, made);
        return made.element;
    }

    overview() {
        const { header, loader, entries, offset } = this.container;
        const parts = [];
        if (header !== null) {
            parts.push(
                terms([
                    ["Begins at", text.at(offset)],
                    ["Architecture", text.shownName(header.architecture)],
                    ["Format version", String(header.format_version)],
                    ["Date", text.date(header.date, header.date_text)],
                    versionTerm("Current version", header, "current"),
                    versionTerm("Oldest definition", header, "olddef"),
                    versionTerm("Oldest implementation", header, "oldimp"),
                    ["Sections", `${header.sections}, of which ${header.instantiated} get memory`],
                    ...text.others(header, HEADER),
                    ...text.others(this.container.others, ["offset"]),
                ]),
            );
        }
        if (loader !== null) {
            const shown = (entry) => (entry === null ? "none" : `section ${entry.section}, offset ${text.hex(entry.value, 8)}`);
            parts.push(terms([["Main entry point", shown(entries.main)], ["Initialization routine", shown(entries.init)], ["Termination routine", shown(entries.term)]]));
        } else {
            parts.push(el("p", { class: "hint" }, "There is no loader section that can be read."));
        }
        parts.push(el("h3", {}, "Map"), mapOf(this.container, (at) => this.goTo(at)));
        return parts;
    }

    findings() {
        const { errors, notes, isCut } = this.container;
        const rows = [...errors.map((it) => ({ ...it, kind: "error" })), ...notes.map((it) => ({ ...it, kind: "note" }))];
        const columns = findingColumns(this.helps, { show: (offset) => this.goTo(offset), rowOf: (it) => this.rowOf(it) });
        const table = this.table("Findings", new DataTable({ caption: "Errors and notes", columns, rows, empty: "No errors and no notes." }));
        return isCut ? [hint("There are more errors or notes. The saved JSON has all of them."), table] : [table];
    }

    /** Returns how to go to the row that a finding is about, if it was read. */
    rowOf({ part, row }) {
        const key = TABS[part];
        return key !== undefined && row < this.container[TABLES[key]].length ? () => this.goToRow(key, row) : null;
    }

    offset() {
        return { title: "Offset", text: (it) => text.at(it.offset), value: (it) => it.offset, class: "number", go: (it) => () => this.goTo(it.offset) };
    }

    /** Returns the table of a tab, which reads further rows if there are more. */
    rows(key, caption, columns) {
        const { container } = this;
        const list = TABLES[key];
        const read = async () => {
            await container.readMore(list);
            this.tabs.relabel(key, this.label(key));
        };
        return new DataTable({ caption, columns, rows: container[list], more: { has: () => container.more.has(list), read } });
    }

    sections() {
        return this.rows("Sections", "Sections", [
            number("#"),
            { title: "Name", text: text.nameOf },
            { title: "Kind", text: (it) => coded(KINDS, it.kind), value: (it) => it.kind, class: "words" },
            { title: "Share", text: (it) => coded(SHARES, it.share), value: (it) => it.share },
            plain("Total", (it) => it.total),
            plain("Unpacked", (it) => it.unpacked),
            plain("Packed", (it) => it.packed),
            plain("Align", (it) => it.align),
            { title: "Default address", text: (it) => text.hex(it.default, 8), value: (it) => it.default, class: "number" },
            { title: "Raw bytes at", text: (it) => text.at(it.raw), value: (it) => it.raw, class: "number", go: (it) => () => this.goTo(it.raw) },
            { title: "Bytes", text: () => "show", go: (it, i) => () => this.showSection(i) },
            this.offset(),
        ]);
    }

    libraries() {
        return this.rows("Libraries", "Imported libraries", [
            number("#"),
            { title: "Name", text: text.nameOf },
            { title: "Current version", ...text.versionColumn("current") },
            { title: "Oldest implementation", ...text.versionColumn("oldimp") },
            { title: "Options", text: (it) => libraryOptions(it.options) },
            plain("First import", (it) => it.first),
            plain("Imports", (it) => it.count),
            this.offset(),
        ]);
    }

    imports() {
        return this.rows("Imports", "Imported symbols", [
            number("#"),
            { title: "Name", text: text.nameOf },
            { title: "Library", text: (it) => this.libraryName(it.library), go: (it) => this.rowOf({ part: "library", row: it.library ?? Infinity }) },
            { title: "Class", text: (it) => coded(CLASSES, it.class), value: (it) => it.class },
            { title: "Weak", text: (it) => (it.weak ? "weak" : "") },
            this.offset(),
        ]);
    }

    libraryName(library) {
        if (library === null) {
            return "none";
        }
        const found = this.container.libraries[library];
        return found === undefined || found.name === null ? `library ${library}` : text.nameOf(found);
    }

    exports() {
        return this.rows("Exports", "Exported symbols", [
            number("#"),
            { title: "Name", text: text.nameOf },
            { title: "Class", text: (it) => coded(CLASSES, it.class), value: (it) => it.class },
            { title: "Section", text: (it) => ({ "-2": "absolute", "-3": "reexport" })[it.section] ?? String(it.section), value: (it) => it.section, class: "number" },
            { title: "Value", text: (it) => text.hex(it.value, 8), value: (it) => it.value, class: "number" },
            this.offset(),
        ]);
    }

    relocations() {
        const headers = this.rows("Relocations", "Relocation headers", [
            number("#"),
            this.sectionOf(),
            plain("Halfwords", (it) => it.halfwords),
            plain("First", (it) => it.first),
            this.offset(),
        ]);
        return [
            el("h3", {}, "Relocation headers"),
            this.table("Relocations", headers),
            el("h3", {}, "Instructions"),
            later(this.instructions()),
            el("h3", {}, "Words that are relocated"),
            later(this.words()),
        ];
    }

    /** Returns the column of the section that a relocation is for. */
    sectionOf() {
        const go = ({ section }) => (section < this.container.sections.length ? () => this.showSection(section) : null);
        return { title: "Section", text: (it) => String(it.section), value: (it) => it.section, class: "number", go };
    }

    /** Returns the table of the instructions of the programs, each up to the first bytes that aren't one. */
    async instructions() {
        const { cut, hasLong, lists } = (await this.container.instructions()) ?? { cut: false, hasLong: false };
        const rows = lists?.rows ?? [];
        const columns = [
            { title: "Header", text: (it) => String(it.header), value: (it) => it.header, class: "number" },
            { title: "Code", text: (it) => it.code, class: "number" },
            { title: "Kind", text: (it) => it.kind },
            { title: "Numbers", text: (it) => it.numbers.join(" "), class: "number" },
            this.offset(),
        ];
        const parts = [new DataTable({ caption: "Instructions", columns, rows }).element];
        if (hasLong) {
            parts.push(hint("The instructions of the longest programs are only in the saved JSON."));
        }
        return cut ? [...parts, firstOnes(rows)] : parts;
    }

    /** Returns the table of the words that the programs relocate, with what is added. */
    async words() {
        const { rows, cut } = await this.container.additions();
        const columns = [
            { title: "Section", text: (it) => String(it.section), value: (it) => it.section, class: "number" },
            { title: "Word at", text: (it) => text.hex(it.offset, 8), value: (it) => it.offset, class: "number", go: (it) => (it.section < this.container.sections.length ? () => this.showSection(it.section, it.offset) : null) },
            { title: "Adds the address of", text: (it) => this.addedText(it) },
        ];
        const table = new DataTable({ caption: "Words that are relocated", columns, rows }).element;
        return cut ? [table, firstOnes(rows)] : [table];
    }

    addedText({ kind, number }) {
        const found = this.container.imports[number];
        return kind === PEF_FIXUP_SECTION ? `section ${number}` : `import ${number} ${found === undefined ? "" : text.nameOf(found)}`;
    }

    bytes() {
        this.bytesView = new BytesView({ sources: () => this.sources(), textOf: (it) => text.shortened(this.addedText(it)) });
        return this.bytesView.element;
    }

    /** Returns what the bytes are shown of: the file from the container on, and each section. */
    sources() {
        const { container } = this;
        const image = (section) => (section.kind === PEF_KIND_PACKED ? ", expanded" : "");
        return [fileSource(container), ...container.sections.map((it, i) => ({ label: `section ${i}${image(it)}`, load: () => this.imageOf(i) }))];
    }

    /** Returns the image of a section, how many bytes it has in memory, and what is added to its words. */
    async imageOf(i) {
        const [image, { added, cut }] = await Promise.all([this.container.image(this.container.sections[i]), this.container.additionsTo(i)]);
        return { image, size: image === null ? 0 : this.container.sizeOf(i, image), first: 0, added, isCut: cut };
    }
}

/** Returns the view of a container that isn't inspected, because the ones before take what a file may. */
export function uninspectedView({ offset, bytes }, title, tools) {
    const why = "This container isn't inspected: those before it in the file pass a limit.";
    return el("article", {}, head(title, tools), hint(why), new BytesView({ sources: () => [fileSource({ offset, bytes })] }).element);
}

function versionTerm(title, header, field) {
    const { text: words, hint: raw } = text.versionColumn(field);
    return [title, el("span", { title: raw(header) }, words(header))];
}

function firstOnes(rows) {
    return hint(`Only the first ${rows.length.toLocaleString("en")} are listed.`);
}

function listed(count, hasMore) {
    return `${count.toLocaleString("en")}${hasMore ? "+" : ""}`;
}

function number(title) {
    return { title, text: (it, i) => String(i), value: (it, i) => i, class: "number" };
}

function plain(title, value) {
    return { title, text: (it) => String(value(it)), value, class: "number" };
}

/** The parts of a container whose damage its verdict tells. */
const VERDICT_PARTS = ["sections", "imports", "exports", "relocations"];

/** Returns the verdict on a container, and how many errors and notes there are, if that is known. */
function verdict({ errors, notes, isCut, others }) {
    const found = others.verdict;
    const badge = (kind, rows) => el("span", { class: `badge ${rows.length === 0 ? "none" : kind}` }, rows.length === 0 ? `no ${kind}s` : text.counted(rows.length, kind));
    const comma = () => el("span", { class: "hidden" }, ", ");
    const isSound = errors.length + notes.length === 0;
    const state = found === null ? [] : [el("span", { class: `badge ${found.state === "whole" ? "sound" : found.state}` }, found.state), comma()];
    const counts = isSound ? [el("span", { class: "badge sound" }, "no errors, no notes")] : [badge("error", errors), comma(), badge("note", notes), isCut ? " of those that were read" : null];
    return el("div", {}, el("p", { class: "verdict" }, ...state, ...counts), verdictHint(found));
}

/** Returns what a verdict says besides its word, or null. */
function verdictHint(found) {
    if (found === null || (found.state === "whole" && !found.as_text)) {
        return null;
    }
    const damaged = VERDICT_PARTS.filter((it) => found[it] === "damaged");
    const whole = VERDICT_PARTS.filter((it) => found[it] === "whole");
    const said = [
        found.state === "cut" ? `It needs ${text.counted(found.needs, "byte")} and has ${found.has.toLocaleString("en")}.` : "",
        damaged.length === 0 ? "" : `Damaged: ${damaged.join(", ")}.`,
        whole.length === 0 ? "" : `Whole: ${whole.join(", ")}.`,
        found.as_text ? "It seems to have been transferred as text: transfer it again, as binary." : "",
    ];
    return hint(said.filter((it) => it !== "").join(" "));
}
