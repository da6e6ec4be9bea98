// A preparation: which of the fragments that the page has are taken, what is missing, and all that is shown of the memory.
import { keyOf } from "./context.js";
import { PEF_NOWHERE, PEF_OK, PEF_TARGET_IN_SECTION, STRUCTS } from "./pef.js";
import { sayStep } from "./serve.js";

/** How many rows of a table of a fragment are read, and how many additions to its words. */
const MOST_ROWS = 65536;

const MOST_ADDITIONS = 1000000;

/** How many additions a program is thought to make. If it makes more, they are read anew. */
const FEW_ADDITIONS = 4096;

/** How many symbols are named that a missing library should have. */
const MOST_SYMBOLS = 1000;

/** Adds the root, and of the other fragments those that it needs. Of several with a name it is the first one whose versions fit. */
export async function gather(context, fragments, root) {
    await add(context, fragments[root]);
    const left = othersByName(fragments, fragments[root]);
    const first = new Map();
    for (let isDone = false; !isDone; ) {
        isDone = true;
        const { answer, rows } = context.missing(fragments[root].name);
        if (answer !== PEF_OK) {
            await addAll(context, left);
            return;
        }
        for (const { name, is_found: isFound } of rows) {
            const key = keyOf(context.library.bytesOf(name));
            const next = left.get(key)?.shift();
            if (next !== undefined) {
                first.set(key, first.get(key) ?? next);
                await replace(context, next, isFound);
                isDone = false;
            } else if (isFound && first.has(key)) {
                // None fits, so that the error is about the first one.
                await replace(context, first.get(key), true);
                first.delete(key);
            }
        }
    }
}

/** Returns lists of the fragments that have another name than the root, by their names. */
function othersByName(fragments, root) {
    const lists = new Map();
    for (const it of fragments.filter(({ name }) => keyOf(name) !== keyOf(root.name))) {
        const key = keyOf(it.name);
        lists.set(key, [...(lists.get(key) ?? []), it]);
    }
    return lists;
}

/** Adds a fragment, with the bytes of its container. */
async function add(context, fragment) {
    context.add({ ...fragment, bytes: new Uint8Array(await fragment.blob.arrayBuffer()) });
}

/** Adds a fragment, in the place of another one with its name if there is one. */
async function replace(context, fragment, isThere) {
    if (isThere) {
        context.remove(fragment.name);
    }
    await add(context, fragment);
}

/** Adds the first fragment of each name that isn't there. A fragment that can't be read is reported when it is prepared. */
async function addAll(context, left) {
    for (const [key, [first]] of left) {
        if (first !== undefined && !context.added.has(key)) {
            await add(context, first);
        }
    }
}

/** Returns the libraries that are missing for a fragment: their names and versions, and what imports which of their symbols. */
export function missingLibraries(context, root) {
    const { library } = context;
    return context.missing(root).rows.map((it) => {
        const key = keyOf(library.bytesOf(it.name));
        const found = it.is_found ? { current: it.found_version, olddef: it.found_old_def_version } : null;
        return { ...library.name(it.name), key, current: it.current_version, oldimp: it.old_imp_version, isWeak: it.is_weak, found, importers: importersOf(context, key) };
    });
}

/** Returns the fragments that import from a library, each with the symbols. */
function importersOf(context, key) {
    const importers = [];
    for (const { bytes, fragment } of context.added.values()) {
        const symbols = [];
        for (const it of tableOf(context, "pef_library", "pef_libraries", bytes)) {
            if (keyOf(context.library.bytesOf(it.name)) === key) {
                symbols.push(...importsFrom(context, bytes, it));
            }
        }
        if (symbols.length > 0) {
            importers.push({ ...textOf(fragment.name), symbols });
        }
    }
    return importers;
}

function importsFrom(context, bytes, { first_import: first, import_count: count }) {
    const { calls, library } = context;
    const most = Math.min(count, MOST_SYMBOLS);
    return library.table("pef_import", most, (from, ...places) => calls.pef_imports(...bytes, first + from, ...places)).rows.map((it) => library.name(it.name));
}

/** Returns the first rows of a table of a container. */
function tableOf({ calls, library }, struct, call, bytes) {
    return library.table(struct, MOST_ROWS, (...places) => calls[call](...bytes, ...places)).rows;
}

/** Returns the text of a name. */
function textOf(name) {
    return { name: new TextDecoder("macintosh").decode(name) };
}

/** Adds stubs of all libraries that are lacking. Returns what their names are, and the error if there can be no stub of one. */
export function addStubs(context) {
    const made = [];
    for (const name of context.lacking()) {
        const answer = context.addStub(name);
        if (answer !== PEF_OK) {
            return { made, error: { library: textOf(name).name, number: answer, ...context.library.error(answer) } };
        }
        made.push(keyOf(name));
    }
    return { made, error: null };
}

/** Returns an error of a preparation as `pef load` says it, with what it means, and where it is. */
export function refusalOf({ library }, { answer, names, place }) {
    const { name, help } = library.error(answer);
    return { number: answer, name, help, names, place: place.part === PEF_NOWHERE ? null : place };
}

/** Returns what was prepared: the fragments in closure order, and in which order they are initialized, by their numbers in that list. */
export function preparedOf(context, connection) {
    const numbers = context.fragments("pef_fragments", connection);
    const at = new Map(numbers.map((it, i) => [it, i]));
    const fragments = numbers.map((it, i) => {
        sayStep("fragments", i, numbers.length);
        return fragmentOf(context, connection, it, at);
    });
    const byName = new Map(fragments.map((it, i) => [it.key, i]));
    for (const it of fragments) {
        it.libraries.forEach((library) => Object.assign(library, { fragment: byName.get(library.key) ?? null }));
    }
    return { fragments, order: context.fragments("pef_init_order", connection).map((it) => at.get(it)) };
}

/** Returns a fragment. `at` has the numbers of the fragments in the list, by those that the context has. */
function fragmentOf(context, connection, number, at) {
    const { library } = context;
    const raw = library.bytesOf(context.read("pef_bytes", "pef_fragment_name", number)).slice();
    const { bytes, fragment } = context.added.get(keyOf(raw));
    return {
        ...textOf(raw), raw, key: keyOf(raw), source: fragment.source ?? null, isStub: fragment.isStub === true,
        sections: sectionsOf(context, connection, number),
        ...relocationsOf(context, bytes),
        entries: context.read("pef_entries", "pef_fragment_entries", connection, number),
        libraries: tableOf(context, "pef_library", "pef_libraries", bytes).map((it) => ({ ...library.name(it.name), key: keyOf(library.bytesOf(it.name)), options: it.options, current: it.current_version, oldimp: it.old_imp_version })),
        imports: importsOf(context, connection, number, bytes, at),
        exports: exportsOf(context, connection, number, at),
    };
}

function sectionsOf(context, connection, fragment) {
    return Array.from({ length: context.number("pef_fragment_sections", fragment) }, (_, i) => {
        const { address, size, kind, share } = context.read("pef_fragment_section", "pef_fragment_section", connection, fragment, i);
        return { address, size, kind, share, bytes: context.bytes(fragment, i, size) };
    });
}

/** Returns a target with the number of its fragment in the list. It has none if it isn't in a section. */
function targetOf({ kind, fragment, section, offset, address }, at) {
    return { kind, fragment: kind === PEF_TARGET_IN_SECTION ? (at.get(fragment) ?? null) : null, section, offset, address };
}

function importsOf(context, connection, fragment, bytes, at) {
    const { library } = context;
    return tableOf(context, "pef_import", "pef_imports", bytes).map((it, i) => {
        const target = context.read("pef_target", "pef_import_target", connection, fragment, i);
        return { ...library.name(it.name), library: it.library, symbol_class: it.symbol_class, weak: it.weak, target: targetOf(target, at) };
    });
}

function exportsOf(context, connection, fragment, at) {
    const { library } = context;
    const count = Math.min(context.number("pef_fragment_exports", connection, fragment), MOST_ROWS);
    return Array.from({ length: count }, (_, i) => {
        const it = context.read("pef_fragment_export", "pef_fragment_export", connection, fragment, i);
        return { ...library.name(it.name), symbol_class: it.symbol_class, isReexport: it.is_reexport, target: targetOf(it.target, at) };
    });
}

/** Returns the relocation headers, each with its section and its additions, three numbers each, and whether there may be more additions. */
function relocationsOf(context, bytes) {
    let left = MOST_ADDITIONS;
    const relocations = tableOf(context, "pef_relocation", "pef_relocations", bytes).map(({ section }, header) => {
        const list = [];
        left -= left === 0 ? 0 : addFixups(context, bytes, header, left, list);
        return { section, numbers: Float64Array.from(list) };
    });
    return { relocations, hasMoreAdditions: left === 0 };
}

/** Adds up to `most` additions of a program to a list. Returns how many they are. Each call runs the program, so they are read at once. */
function addFixups({ calls, library }, bytes, header, most, list) {
    const { size } = STRUCTS.pef_fixup;
    let room = Math.min(most, FEW_ADDITIONS);
    for (;;) {
        const buffer = library.allocate(room * size);
        try {
            const answer = calls.pef_fixups(...bytes, header, 0, buffer, room, library.count);
            const count = answer === PEF_OK ? library.number(library.count) : 0;
            if (count < room || room === most) {
                putFixups(new DataView(calls.memory.buffer, buffer), count, list);
                return count;
            }
        } finally {
            library.free(buffer);
        }
        room = Math.min(most, 16 * room);
    }
}

/** Adds the members of fixups to a list. There may be a million. */
function putFixups(view, count, list) {
    const { size, members } = STRUCTS.pef_fixup;
    for (let at = 0; at < count * size; at += size) {
        list.push(Number(view.getBigUint64(at + members.offset.at, true)), view.getUint32(at + members.kind.at, true), Number(view.getBigUint64(at + members.number.at, true)));
    }
}
