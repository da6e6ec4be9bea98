// Errors and notes as they are shown, of a file and of a container.
import * as text from "./text.js";

const ROWLESS = ["header", "loader", "main", "init", "term"];

/** The members of an error or a note that have columns of their own, or words. */
const SHOWN = ["kind", "number", "name", "part", "row", "field", "offset", "word", "length", "sections", "containers"];

/**
 * Returns the columns of a table of errors and notes, each with its `kind`. `show` is called with an offset of the file, and `rowOf`
 * gives how to go to the row that one is about, or null.
 */
export function findingColumns(helps, { show, rowOf = () => null }) {
    const at = (it) => (it.offset === null ? "–" : text.at(it.offset));
    const go = (it) => (it.offset === null ? null : () => show(it.offset));
    return [
        { title: "Kind", text: (it) => it.kind, badge: (it) => it.kind },
        { title: "Number", text: (it) => String(it.number), value: (it) => it.number, class: "number" },
        { title: "Name", text: (it) => it.name },
        { title: "Part", text: partText, go: rowOf, class: "words" },
        { title: "Offset", text: at, value: (it) => it.offset, class: "number", go },
        { title: "Meaning", text: (it) => `${helps[it.number]?.help ?? ""}${detailText(it)}`, class: "wide" },
    ];
}

function partText({ part, row }) {
    if (part === null) {
        return "–";
    }
    if (part === "packed") {
        return `packed data of section ${row}`;
    }
    if (part === "program") {
        return `program of relocation header ${row}`;
    }
    return ROWLESS.includes(part) || row === null ? part : `${part} ${row}`;
}

function detailText(finding) {
    const { word, length, sections, containers } = finding;
    const said = [
        word === undefined ? "" : ` The word is at ${text.hex(word, 8)}.`,
        length === undefined ? "" : ` ${length.toLocaleString("en")} bytes.`,
        sections === undefined ? "" : ` ${text.counted(sections, "section")} may be instantiated.`,
        containers === undefined ? "" : ` ${text.counted(containers, "container")}.`,
    ];
    return said.join("") + text.others(finding, SHOWN).map(([name, value]) => ` ${name}: ${value}.`).join("");
}
