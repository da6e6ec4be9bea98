// What a preparation lacks, what stubs are in its place, and why there is no memory.
import { button, el, hint } from "./dom.js";
import { refusedLine } from "./saving.js";
import { DataTable } from "./table.js";
import * as text from "./text.js";

/** How many symbols of a library are named in its row. */
const NAMED = 6;

/** The parts of a container in which an error may be, by their numbers in the library. `#` is the number of the row. */
const PARTS = [
    "", "the container header", "section header #", "the loader header", "library #", "import #", "the main entry point", "the initialization routine",
    "the termination routine", "relocation header #", "export #", "the packed data of section #", "the program of relocation header #",
];

/** Returns the table of the libraries that are missing. `useStubs` prepares again, with stubs of them. */
export function missingPart({ missing, stubs }, useStubs) {
    if (missing.length === 0) {
        return [];
    }
    const columns = [
        { title: "Library", text: text.nameOf },
        { title: "Needed by", text: (it) => it.importers.map(text.nameOf).join(", ") || "–", class: "words" },
        { title: "Symbols", text: (it) => String(symbolsOf(it).length), value: (it) => symbolsOf(it).length, class: "number" },
        { title: "Such as", text: (it) => named(symbolsOf(it)), class: "words" },
        { title: "Without it", text: (it) => (it.isWeak ? "its imports are 0" : "no memory") },
        { title: "Found", text: foundText, class: "words" },
    ];
    const table = new DataTable({ caption: "Libraries that are missing", columns, rows: missing });
    const lacking = missing.filter(({ found }) => found === null);
    const isDone = lacking.every(({ key }) => stubs.made.includes(key));
    const offer = lacking.length === 0 ? null : isDone ? hint("Stubs are in their place: each symbol is a number of its own.") : el("p", {}, button("Use stubs", useStubs, { id: "stubs", class: "main" }), " Each symbol becomes a number of its own, so that the memory can be seen.");
    return [el("h3", {}, "What is missing"), offer, stubs.error === null ? null : el("p", { class: "warning" }, `There is no stub of ${text.shownName(stubs.error.library)}: ${stubs.error.number} ${stubs.error.name}. ${stubs.error.help}`), table.element];
}

function symbolsOf({ importers }) {
    return [...new Set(importers.flatMap(({ symbols }) => symbols.map(text.nameOf)))];
}

function named(symbols) {
    return `${symbols.slice(0, NAMED).map(text.shortened).join(", ")}${symbols.length > NAMED ? ", …" : ""}`;
}

function foundText({ found, current, oldimp }) {
    const version = (it) => text.hex(it, 8);
    return found === null ? "no" : `version ${version(found.current)}, for clients since ${version(found.olddef)}. Linked with ${version(current)}, accepts ${version(oldimp)}`;
}

/** Returns what is said if there is no memory. `show` shows the byte of a fragment's container at an offset. */
export function refusalPart({ refusal }, show) {
    const line = el("p", { class: "verdict damaged", role: "alert" }, refusedLine(refusal));
    return [line, el("p", {}, refusal.help), ...placePart(refusal, show)];
}

function placePart({ place, names }, show) {
    if (place === null) {
        return [];
    }
    const fragment = text.shownName(new TextDecoder("macintosh").decode(names.fragment));
    const label = `${PARTS[place.part].replace("#", place.row)} of ${fragment}, at byte ${text.at(place.offset)} of its container`;
    return [el("p", {}, "Where: ", button(label, () => show(names.fragment, place.offset), { class: "link", id: "place" }))];
}
