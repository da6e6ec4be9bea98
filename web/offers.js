// The fragments that files offer to be prepared, each with the name that it goes by.
import { PEF_USAGE_APPLICATION } from "./pef.js";
import { macBytes } from "./text.js";

/** The architecture that the library loads, as a table of fragments has it. */
const POWER_PC = "pwpc";

/** Returns the offers of all files: the fragments that are named in them, and the containers that no table of fragments names. */
export function offersOf(files) {
    const readable = [...files].filter(({ why }) => why === null);
    const named = readable.flatMap(namedIn);
    const taken = new Set(named.map(({ file, place }) => `${file.number} ${place}`));
    return readable.flatMap((file) => {
        const own = named.filter((it) => it.file === file);
        const others = [...file.places].filter((place) => !taken.has(`${file.number} ${place}`));
        return [...own, ...others.map((place) => unnamed(file, place))];
    });
}

/** Returns the offers that a file's table of fragments makes. Their containers are in this file, or in that with its data fork. */
function namedIn(table) {
    return table.fragments.filter(({ architecture }) => architecture === POWER_PC).flatMap((fragment) => {
        const found = table.containerOf(fragment);
        if (found === null) {
            return [];
        }
        const length = fragment.size > 0 ? fragment.size : restAt(found.file, found.place);
        const name = fragment.name_hex === undefined ? macBytes(fragment.name ?? "") : Uint8Array.from(fragment.name_hex.match(/../g) ?? [], (it) => parseInt(it, 16));
        return [{ ...found, length, name, fragment }];
    });
}

/** Returns the offer of a container that has the name of its file. If there are several in the file, it has its number, too. */
function unnamed(file, place) {
    const stem = file.name.replace(/(?<=.)\.[^.]*$/, "");
    const name = file.places.length === 1 ? stem : `${stem}#${file.containerAt(place)}`;
    return { file, place, length: restAt(file, place), name: macBytes(name), fragment: null };
}

function restAt(file, place) {
    return file.rests[file.containerAt(place)];
}

/** Returns what the worker is asked to prepare: the root first, and the offers that may be its libraries. */
export function requestOf(offers, root) {
    const isRoot = ({ file, place }) => file === root.file && place === root.place;
    const libraries = offers.filter((it) => !isRoot(it) && it.fragment?.usage !== PEF_USAGE_APPLICATION);
    const sources = [root, ...libraries];
    return { sources, fragments: sources.map(({ file, place, length, name }, source) => ({ name, blob: file.part(place, length), source })) };
}
