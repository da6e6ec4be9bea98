// What is saved of prepared memory: the lines that `pef load` prints, the bytes, and objects of JSON.
import { SCRIPT_WORDS } from "./words.js";
import { PEF_FIXUP_SECTION, PEF_TARGET_MISSING } from "./pef.js";
import { hex, macBytes, printed } from "./text.js";

const LINE = 16;

const GROUP = 4;

/** Returns the lines of a section's bytes, with the address of the first byte of each. */
function byteLines({ address, bytes }) {
    return Array.from({ length: Math.ceil(bytes.length / LINE) }, (_, i) => {
        const line = Array.from(bytes.subarray(i * LINE, (i + 1) * LINE), (it) => hex(it, 2)).join("");
        return `${hex(address + i * LINE, 8)} ${line.match(new RegExp(`.{1,${2 * GROUP}}`, "g")).join(" ")}\n`;
    });
}

/** Returns the text that `pef load` prints, in parts. */
export function loadText(memory) {
    const { fragments } = memory;
    const parts = fragments.flatMap((it) => [
        `fragment ${printed(it.raw)}\n`,
        ...it.sections.flatMap((section, number) => [`section ${number} at ${hex(section.address, 8)} size ${section.size}\n`, ...byteLines(section)]),
    ]);
    const entries = memory.entries().map(({ kind, fragment, address }) => `${kind}${kind === "main" ? "" : ` ${printed(fragments[fragment].raw)}`} ${hex(address, 8)}\n`);
    return [...parts, ...entries];
}

/** The names that belong to an error, by its number. Those of the others are the fragment's alone. */
const NAMES = { 61: ["fragment", "library"], 62: ["fragment", "library", "symbol"], 63: ["fragment", "library"], 64: ["fragment", "library"], 65: ["fragment", "symbol"], 99: [] };

/** Returns the line that `pef load` prints for an error. */
export function refusedLine({ number, name, names }) {
    const words = { fragment: "in", library: "library", symbol: "symbol" };
    return `refused ${number} ${name}${(NAMES[number] ?? ["fragment"]).map((it) => ` ${words[it]} ${printed(names[it])}`).join("")}`;
}

/** Returns the bytes from the first address that has one to the last, with zeros between the sections. */
export function wholeImage({ byAddress }) {
    const first = byAddress[0]?.address ?? 0;
    const end = Math.max(first, ...byAddress.map((it) => it.address + it.size));
    const image = new Uint8Array(end - first);
    for (const { address, bytes } of byAddress) {
        image.set(bytes, address - first);
    }
    return { first, image };
}

/** Returns the objects of fragments and of stubs that `pef prepare --json` prints, each on a line. */
export function jsonLines(memory) {
    const stubs = memory.stubs.made.flatMap((key) => memory.fragments.filter((it) => it.isStub && it.key === key));
    const objects = [...memory.fragments.map(fragmentObject), ...stubs.map(stubObject)];
    return objects.map((it) => `${JSON.stringify(it).replace(/[\x7F-\uFFFF]/g, (character) => `\\u${hex(character.charCodeAt(0), 4).toLowerCase()}`)}\n`);
}

function fragmentObject(fragment) {
    const path = fragment.offer?.file.path ?? null;
    const { entries } = fragment;
    const entry = (kind) => (entries[`has_${kind}`] ? entries[kind] : null);
    return {
        ...named("fragment", fragment),
        source: path,
        source_bytes: path === null ? null : printed(new TextEncoder().encode(path)),
        is_stub: fragment.isStub,
        sections: fragment.sections.map(({ kind, share, address, size }, number) => ({ number, ...coded("kind", kind), ...coded("share", share), address, size })),
        imports: fragment.imports.map((it) => importObject(fragment, it)),
        exports: fragment.exports.map(symbolObject),
        relocations: fragment.relocations.map(({ section, numbers }) => ({ section, words: wordsOf(numbers) })),
        entries: { main: entry("main"), init: entry("init"), term: entry("term") },
    };
}

function importObject({ libraries }, { library, symbol_class, weak, target, ...name }) {
    const from = libraries[library];
    return { ...named("name", name), ...(from === undefined ? { library: null } : named("library", from)), ...coded("class", symbol_class), weak, address: addressOf(target) };
}

function stubObject({ name, exports }) {
    return { ...named("stub", { name }), symbols: exports.map(symbolObject) };
}

function symbolObject({ symbol_class, target, ...name }) {
    return { ...named("name", name), ...coded("class", symbol_class), address: addressOf(target) };
}

function addressOf({ kind, address }) {
    return kind === PEF_TARGET_MISSING ? null : address;
}

/** Returns the member with a name, and that with its bytes if some are above 7F. */
function named(member, { name, name_length: length }) {
    const bytes = macBytes(name);
    const isPlain = bytes.every((it) => it < 0x80);
    return {
        [member]: name,
        ...(isPlain ? {} : { [`${member}_hex`]: Array.from(bytes, (it) => hex(it, 2)).join("") }),
        ...(length === undefined ? {} : { [`${member}_length`]: length }),
    };
}

/** Returns the members for a code and its word. */
function coded(member, code) {
    return { [member]: code, [`${member}_text`]: SCRIPT_WORDS[member][code] ?? null };
}

function wordsOf(numbers) {
    return Array.from({ length: numbers.length / 3 }, (_, i) => {
        const [offset, kind, number] = numbers.subarray(3 * i, 3 * i + 3);
        return { offset, kind: kind === PEF_FIXUP_SECTION ? "section" : "import", number };
    });
}
