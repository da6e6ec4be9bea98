// A map of a container: which bytes of the file are which part, with the errors marked.
import { button, el } from "./dom.js";
import { Stop } from "./rove.js";
import { DataTable } from "./table.js";
import { at, counted } from "./text.js";

/** How many errors and notes are marked in a part, and how many parts a bar has. */
const MOST_MARKS = 50;

const MOST_PARTS = 120;

const CONTAINER_HEADER = 40;

const SECTION_HEADER = 28;

/** The kind of a loader section. */
const LOADER = 4;

/** The notes on bytes of no part. */
const UNOWNED = ["UnownedBytes", "TrailingBytes"];

/** Returns the parts of a container in the order of their beginnings, with the bytes between them. */
export function partsOf(container) {
    const { header, sections, notes, offset } = container;
    const end = offset + container.rest;
    const found = header === null ? [] : [{ ...part("container header", "header", offset, CONTAINER_HEADER), label: "header" }];
    sections.forEach((section, i) => {
        found.push({ ...part(`section header ${i}`, "header", section.offset, SECTION_HEADER), label: `head ${i}` });
        if (section.packed > 0 && section.raw < end) {
            const kind = isLoader(section, container) ? "loader" : "section";
            const length = Math.min(section.packed, end - section.raw);
            found.push(part(kind === "loader" ? `section ${i}, loader` : `section ${i}`, kind, section.raw, length));
        }
    });
    for (const note of notes.filter(({ name }) => UNOWNED.includes(name))) {
        found.push(part("bytes of no part", "gap", note.offset, note.length));
    }
    found.sort((a, b) => a.from - b.from || b.to - a.to);
    return withGaps(found, container, end);
}

function isLoader({ raw, kind }, { loader }) {
    return loader !== null && kind === LOADER && raw === loader.offset;
}

/** Adds the bytes between the parts: the names of the sections follow their headers, and others align the next part. */
function withGaps(parts, container, end) {
    const { sections, offset } = container;
    const headersEnd = offset + CONTAINER_HEADER + SECTION_HEADER * sections.length;
    const hasNames = sections.some(({ name }) => name !== null);
    // The notes on bytes of no part may be among those that weren't read, and so may the last section headers.
    const isWhole = !container.isCut && !container.more.has("sections");
    const all = [];
    let reached = offset;
    const addGap = (to) => {
        if (reached < to) {
            const isNames = isWhole && hasNames && reached === headersEnd;
            const name = isWhole ? "alignment" : "other bytes";
            all.push(isNames ? part("section names", "header", reached, to - reached) : part(name, "gap", reached, to - reached));
        }
    };
    for (const it of parts) {
        addGap(it.from);
        all.push(it);
        reached = Math.max(reached, it.to);
    }
    addGap(end);
    return all;
}

/** Returns the parts of a loader section. */
export function loaderParts(container) {
    const { loader, sections, relocations, offset } = container;
    if (loader === null) {
        return [];
    }
    const section = sections.find((it) => isLoader(it, container));
    const length = Math.min(section?.packed ?? Infinity, offset + container.rest - loader.offset);
    const importsAt = 56 + 24 * loader.libraries;
    const relocationsAt = importsAt + 4 * loader.imports;
    const { programs } = loader;
    const programsEnd = Math.max(programs, ...relocations.slice(0, 1000).map((it) => programs + it.first + 2 * it.halfwords));
    const slots = 4 * 2 ** Math.min(loader.power, 30);
    const exportsAt = loader.hash + slots + 4 * loader.exports;
    const all = [
        ["loader header", 0, 56],
        ["libraries", 56, importsAt],
        ["imports", importsAt, relocationsAt],
        ["relocation headers", relocationsAt, relocationsAt + 12 * loader.relocations],
        ["relocation programs", programs, programsEnd],
        ["strings", loader.strings, Math.max(loader.strings, loader.hash)],
        ["export hash slots", loader.hash, loader.hash + slots],
        ["export keys", loader.hash + slots, exportsAt],
        ["exports", exportsAt, exportsAt + 10 * loader.exports],
    ];
    const found = all.map(([name, from, to]) => part(name, "loader", loader.offset + from, Math.max(0, Math.min(to, length) - from)));
    return found.filter((it) => it.to > it.from).sort((a, b) => a.from - b.from);
}

function part(name, kind, from, length) {
    return { name, kind, from, to: from + length };
}

/** Returns the map. `go` is called with the offset of a part that is chosen. */
export function mapOf(container, go) {
    const parts = partsOf(container);
    const inside = loaderParts(container);
    const findings = { error: offsetsOf(container.errors), note: offsetsOf(container.notes) };
    const count = (kind) => ({ text: (it) => String(countIn(it, findings[kind]) || ""), value: (it) => countIn(it, findings[kind]), class: "number" });
    const columns = [
        { title: "From", text: (it) => at(it.from), value: (it) => it.from, class: "number", go: (it) => () => go(it.from) },
        { title: "To", text: (it) => at(it.to), value: (it) => it.to, class: "number" },
        { title: "Bytes", text: (it) => String(it.to - it.from), value: (it) => it.to - it.from, class: "number" },
        { title: "Part", text: (it) => it.name },
        { title: "Errors", ...count("error") },
        { title: "Notes", ...count("note") },
    ];
    const table = new DataTable({ caption: "Parts of the container", columns, rows: [...parts, ...inside] });
    const bars = [bar("The container", parts, findings, go), inside.length === 0 ? null : bar("The loader section", inside, findings, go)];
    const drawn = el("div", { role: "group", "aria-label": "Map of the container" }, ...bars);
    new Stop(drawn, "button.part").rest();
    return el("div", { class: "map" }, drawn, legend(), table.element);
}

/** Returns the offsets of errors or of notes in rising order. */
function offsetsOf(rows) {
    return rows.filter((it) => it.offset !== null).map((it) => it.offset).sort((a, b) => a - b);
}

/** Returns what the colors and the marks of the bars mean. */
function legend() {
    const parts = { header: "headers", section: "sections", loader: "loader section", gap: "bytes of no part, or that align" };
    const items = Object.entries(parts).map(([kind, label]) => el("li", {}, el("span", { class: `key part ${kind}`, "aria-hidden": "true" }), label));
    const marks = Object.entries({ error: "an error", note: "a note" }).map(([kind, label]) => el("li", {}, el("span", { class: `key at-${kind}`, "aria-hidden": "true" }), label));
    return el("ul", { class: "legend" }, ...items, ...marks);
}

/** Returns how many of some offsets, which are in rising order, are in a part. */
function countIn(part, offsets) {
    return before(offsets, part.to) - before(offsets, part.from);
}

/** Returns how many of some numbers in rising order are below a limit. */
function before(numbers, limit) {
    let low = 0;
    let high = numbers.length;
    while (low < high) {
        const middle = (low + high) >> 1;
        if (numbers[middle] < limit) {
            low = middle + 1;
        } else {
            high = middle;
        }
    }
    return low;
}

/** Returns a bar of parts. Each is as wide as its bytes, but no narrower than can be seen. */
function bar(label, parts, findings, go) {
    const blocks = parts.slice(0, MOST_PARTS).map((it) => block(it, findings, go));
    const rest = parts.length > blocks.length ? ` (the first ${blocks.length} parts)` : "";
    return el("figure", { class: "bar" }, el("figcaption", {}, `${label}${rest}`), el("div", { class: "blocks" }, ...blocks));
}

/** Returns a part of a bar, with marks at its errors and notes. */
function block(part, findings, go) {
    const length = part.to - part.from;
    const counts = Object.entries(findings).map(([kind, offsets]) => [kind, countIn(part, offsets)]).filter(([, count]) => count > 0);
    const name = [`${part.name}, ${at(part.from)} to ${at(part.to)}`, ...counts.map(([kind, count]) => counted(count, kind))].join(", ");
    const label = el("span", { class: "label" }, part.label ?? part.name, el("small", {}, counted(length, "byte")));
    const made = button(label, () => go(part.from), { class: `part ${part.kind}`, title: name, "aria-label": name, tabindex: "-1" });
    made.style.flexGrow = String(length);
    for (const [kind, count] of counts) {
        const first = before(findings[kind], part.from);
        for (const offset of findings[kind].slice(first, first + Math.min(count, MOST_MARKS))) {
            const mark = el("span", { class: `at-${kind}` });
            mark.style.left = `${(100 * (offset - part.from)) / Math.max(length, 1)}%`;
            made.append(mark);
        }
    }
    return made;
}
