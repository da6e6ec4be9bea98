// A search in prepared memory: for an address, a name, or bytes.
import { bytesOf, findBytes } from "./bytes.js";
import { el } from "./dom.js";
import { DataTable } from "./table.js";
import * as text from "./text.js";

/** How many places are found at most. */
const MOST = 1000;

const ADDRESS = /^\s*(?:0x|\$)?([0-9a-f]{1,8})\s*$/i;

/** What can be searched for, each with an example and how it is found. */
const KINDS = {
    name: { label: "a name", example: "Draw", find: names },
    address: { label: "an address", example: "00010020", find: addresses },
    bytes: { label: "bytes", example: "4E800020 or \"text\"", find: bytes },
};

export class SearchView {
    /** `go` is called with an address. */
    constructor(memory, go) {
        this.memory = memory;
        this.go = go;
        this.kind = el("select", { "aria-label": "Search for" }, ...Object.entries(KINDS).map(([value, { label }]) => el("option", { value }, label)));
        this.wanted = el("input", { type: "search", "aria-label": "What is searched for", size: "24", spellcheck: "false", autocomplete: "off" });
        this.said = el("p", { class: "hint", role: "status" });
        this.found = el("div");
        const form = el("form", { class: "tools" }, el("label", {}, "Search for ", this.kind), this.wanted, el("button", { type: "submit" }, "Search"));
        form.addEventListener("submit", (event) => {
            event.preventDefault();
            this.search();
        });
        this.kind.addEventListener("change", () => this.hintKind());
        this.hintKind();
        this.element = el("section", { class: "search" }, form, this.said, this.found);
    }

    hintKind() {
        this.wanted.placeholder = KINDS[this.kind.value].example;
    }

    search() {
        const rows = KINDS[this.kind.value].find(this.memory, this.wanted.value);
        this.found.replaceChildren();
        if (typeof rows === "string") {
            this.said.textContent = rows;
            return;
        }
        this.said.textContent = rows.length === 0 ? "Nothing was found." : rows.length === MOST ? `The first ${MOST.toLocaleString("en")} places.` : `${text.counted(rows.length, "place")}.`;
        if (rows.length > 0) {
            this.found.append(this.table(rows));
        }
    }

    table(rows) {
        const columns = [
            { title: "Address", text: (it) => text.hex(it.address, 8), value: (it) => it.address, class: "number", go: (it) => (this.memory.sectionAt(it.address) === null ? null : () => this.go(it.address)) },
            { title: "What", text: (it) => it.what },
            { title: "Where", text: (it) => it.where },
        ];
        return new DataTable({ caption: "Places that were found", columns, rows }).element;
    }
}

/** Finds exports and imports whose names have a text in them. */
function names(memory, typed) {
    const wanted = typed.trim().toLowerCase();
    if (wanted === "") {
        return "Type a part of a name.";
    }
    const rows = [];
    memory.fragments.forEach((fragment, i) => {
        for (const [table, word] of [["exports", "export"], ["imports", "import"]]) {
            for (const it of fragment[table]) {
                if (rows.length < MOST && text.nameOf(it).toLowerCase().includes(wanted)) {
                    rows.push({ address: it.target.address, what: `${word} ${text.nameOf(it)} of ${memory.nameOf(i)}`, where: memory.targetText(it.target) });
                }
            }
        }
    });
    return rows;
}

/** Finds what is at an address, or what number it is. */
function addresses(memory, typed) {
    const found = ADDRESS.exec(typed);
    if (found === null) {
        return "Type an address in hexadecimal, such as 00010020.";
    }
    const address = parseInt(found[1], 16);
    const section = memory.sectionAt(address);
    const symbol = memory.numberText(address);
    const place = section === null ? [] : [{ address, what: "byte", where: memory.placeText(section, address) }];
    const number = symbol === null ? [] : [{ address, what: "number", where: symbol }];
    const wanted = Uint8Array.of(address >>> 24, address >>> 16, address >>> 8, address);
    const words = section === null && symbol === null ? [] : places(memory, wanted, "a word that has it");
    return [...place, ...number, ...words];
}

function bytes(memory, typed) {
    const wanted = bytesOf(typed);
    return wanted === null ? "Type bytes as hexadecimal digits, two for each, or a text in quotes." : places(memory, wanted, "bytes");
}

/** Finds bytes in all sections. */
function places(memory, wanted, what) {
    const rows = [];
    for (const section of memory.byAddress) {
        let at = findBytes(section.bytes, wanted, 0);
        while (at >= 0 && rows.length < MOST) {
            rows.push({ address: section.address + at, what, where: memory.placeText(section, section.address + at) });
            at = findBytes(section.bytes, wanted, at + 1);
        }
    }
    return rows;
}
