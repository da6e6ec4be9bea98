// The view of a file: what is known of it beside its containers.
import { BytesView } from "./bytes.js";
import { button, el, head, terms } from "./dom.js";
import { fileSource } from "./files.js";
import { findingColumns } from "./findings.js";
import { DataTable } from "./table.js";
import * as text from "./text.js";
import { FORMATS, LOCATORS, USAGES } from "./words.js";

/** What the view shows of a report in its own way. */
const SHOWN = ["file", "file_bytes", "data", "data_bytes", "size", "format"];

/** Returns the view of a file that can't be read. */
export function unreadableView({ path, name, why }) {
    return el("article", {}, el("h2", {}, name), el("p", { class: "verdict damaged" }, `${path} can't be read: ${why}.`));
}

/**
 * Returns the view of a file. `choose` is called with a file and the place of a container or null, and `prepare` to choose a fragment.
 * `helps` has what errors mean.
 */
export function fileView(file, { choose, prepare, helps }) {
    const bytes = new BytesView({ sources: () => [fileSource({ bytes: file.bytes, offset: 0 })] });
    const tools = file.places.length === 0 && (file.companion?.places.length ?? 0) === 0 ? [] : [button("Prepare", prepare, { class: "main", title: "Show the memory that a fragment becomes" })];
    const parts = [head(file.name, tools), terms(factsOf(file, choose))];
    const add = (title, table) => parts.push(el("h3", {}, title), table.element);
    if (file.findings.length > 0) {
        add("Errors and notes of the file", findingsTable(file, bytes, helps));
    }
    const containers = containersTable(file, choose);
    add("Containers", containers);
    const inside = partsOf(file);
    if (inside.length > 1 || inside.some((it) => it.error !== 0)) {
        add("Parts of the file", forksTable(inside, helps));
    }
    for (const it of [file, file.companion].filter((it) => it !== null)) {
        const where = it === file ? "" : " of the resource fork";
        if (it.fragments.length > 0) {
            add(`Fragments${where}`, fragmentsTable(it, choose, helps));
        }
        if (it.resources.length > 0) {
            add(`Resources${where}`, resourcesTable(it, helps));
        }
        if (it.hasMoreResources) {
            parts.push(el("p", { class: "hint" }, "There may be more resources."));
        }
    }
    parts.push(el("h3", {}, "Bytes"), bytes.element);
    const shown = el("article", {}, ...parts);
    shown.addEventListener("counted", ({ detail }) => detail === file && containers.refresh());
    return shown;
}

/** Returns the terms that say what a file is. */
function factsOf(file, choose) {
    const link = (to) => button(to.path, () => choose(to, null), { class: "link" });
    const facts = [
        ["Bytes", file.bytes.length.toLocaleString("en")],
        ["Format", FORMATS[file.format] ?? String(file.format)],
        ["Containers", file.places.length.toLocaleString("en")],
    ];
    if (file.path !== file.name) {
        facts.push(["Path", file.path]);
    }
    if (file.companion !== null) {
        facts.push(["Resource fork", link(file.companion)]);
    }
    if (file.owner !== null) {
        facts.push(["Resource fork of", link(file.owner)]);
    }
    return [...facts, ...text.others(file.report, SHOWN)];
}

/** Returns the table of the errors and notes that aren't those of a container. */
function findingsTable(file, bytes, helps) {
    const show = (offset) => {
        bytes.open(0, offset);
        bytes.lines.element.focus();
    };
    return new DataTable({ caption: "Errors and notes of the file", columns: findingColumns(helps, { show }), rows: file.findings });
}

function errorText(number, helps) {
    return number === 0 ? "" : `${number} ${helps[number]?.name ?? ""}`;
}

function numeric(heading, value, shown = (it) => String(value(it))) {
    return { title: heading, text: (it) => (value(it) === null ? "–" : shown(it)), value, class: "number" };
}

function containersTable(file, choose) {
    const fragment = (place) => file.fragmentAt.get(place);
    const counted = (i) => file.counted[i];
    const columns = [
        { title: "#", text: (it, i) => String(i), value: (it, i) => i, class: "number" },
        { title: "Offset", text: (it) => text.at(it), value: (it) => it, class: "number", go: (it) => () => choose(file, it) },
        { title: "Fragment", text: (it) => (fragment(it) === undefined ? "" : text.nameOf(fragment(it))) },
        { title: "Verdict", text: (it, i) => counted(i)?.state ?? "–", value: (it, i) => counted(i)?.state ?? null, badge: (it, i) => stateClass(counted(i)?.state) },
        { title: "Errors", ...countColumn(counted, "errors") },
        { title: "Notes", ...countColumn(counted, "notes") },
    ];
    return new DataTable({ caption: "Containers in the file", columns, rows: file.places, empty: "No container is in the file." });
}

/** Returns what a column shows of the containers that were counted: nothing if one isn't inspected. */
function countColumn(counted, kind) {
    const value = (it, i) => (counted(i) === undefined || counted(i).state === null ? null : counted(i)[kind]);
    return { text: (it, i) => (counted(i) === undefined ? "…" : String(value(it, i) ?? "–")), value, class: "number" };
}

/** Returns the kind of the badge of a verdict. */
function stateClass(state) {
    return state === "whole" ? "sound" : (state ?? "empty");
}

/** Returns the parts that a file has, or their errors. Names and comments without a character are left out. */
function partsOf(file) {
    return file.forks.filter((it) => it.length !== 0 || it.kind.endsWith("fork"));
}

function forksTable(rows, helps) {
    const columns = [
        { title: "Part", text: (it) => it.kind },
        numeric("Offset", (it) => (it.length === null ? null : it.offset), (it) => text.at(it.offset)),
        numeric("Bytes", (it) => it.length),
        { title: "Text", text: (it) => text.shownName(it.text) },
        { title: "Error", text: (it) => errorText(it.error, helps) },
    ];
    return new DataTable({ caption: "Parts of the file", columns, rows });
}

function fragmentsTable(file, choose, helps) {
    const container = (it) => {
        const found = file.containerOf(it);
        return found === null ? null : () => choose(found.file, found.place);
    };
    const place = (it) => file.containerOf(it)?.place ?? it.offset;
    const columns = [
        { title: "Name", text: text.nameOf },
        { title: "Usage", text: (it) => USAGES[it.usage] ?? String(it.usage), value: (it) => it.usage },
        { title: "Architecture", text: (it) => text.shownName(it.architecture) },
        { title: "Version", ...text.versionColumn("current") },
        { title: "Oldest definition", ...text.versionColumn("olddef") },
        { title: "Where", text: (it) => LOCATORS[it.where] ?? String(it.where), value: (it) => it.where },
        { ...numeric("Container at", place, (it) => text.at(place(it))), go: container },
        numeric("Length", (it) => it.length),
        { title: "Error", text: (it) => errorText(file.errorAt.get(it.row)?.number ?? 0, helps) },
    ];
    return new DataTable({ caption: `Fragments that ${file.name} names`, columns, rows: file.fragments });
}

function resourcesTable(file, helps) {
    const columns = [
        { title: "Type", text: (it) => text.shownName(it.type) },
        numeric("Id", (it) => it.id),
        { title: "Name", text: text.nameOf },
        numeric("Offset", (it) => (it.length === null ? null : it.offset), (it) => text.at(it.offset)),
        numeric("Bytes", (it) => it.length),
        { title: "Error", text: (it) => errorText(it.error, helps) },
    ];
    return new DataTable({ caption: `Resources of ${file.name}`, columns, rows: file.resources });
}
