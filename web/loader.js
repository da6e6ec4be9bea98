// The worker for memory and scripts: it prepares fragments, links scripts and makes their certificates. It has a module of its own, so that it can be stopped while
// files are read.
import { Context } from "./context.js";
import { Library, LowMemory } from "./library.js";
import { PEF_OK, PEF_OUT_OF_MEMORY, PEF_ROOM_TOO_SMALL, STRUCTS } from "./pef.js";
import { addStubs, gather, missingLibraries, preparedOf, refusalOf } from "./preparation.js";
import { post, serve } from "./serve.js";

/** About how long a row of a table is as text. */
const ROW = 100;

/** How many bytes a container is thought to have that is linked, or the lines of certificates. If there are more, they are made once more. */
const MADE_ROOM = 1 << 20;

const LINE_FEED = 0x0A;

/** The first letter of the first line of a certificate, `section`, and of no other line. */
const FIRST_LETTER = 0x73;

const EMPTY = { imports: [], exports: [], libraries: [] };

let library = null;

/** Takes the tables of fragments out of them, as lists that go to the page in pieces. */
async function postTables(fragments) {
    const lists = {};
    fragments.forEach((it, i) => {
        for (const table of Object.keys(EMPTY)) {
            lists[`${i} ${table}`] = it[table];
            delete it[table];
        }
    });
    await post(lists, ROW * Object.values(lists).reduce((sum, rows) => sum + rows.length, 1));
}

/** Prepares in a context. */
async function prepareIn(context, fragments, root, useStubs) {
    const { name } = fragments[root];
    await gather(context, fragments, root);
    const missing = missingLibraries(context, name);
    const stubs = useStubs ? addStubs(context) : { made: [], error: null };
    const found = context.prepare(name);
    const known = { missing, stubs, refusal: null, fragments: [], order: [] };
    if (found.answer !== PEF_OK) {
        return { ...known, refusal: refusalOf(context, found) };
    }
    const prepared = preparedOf(context, found.connection);
    await postTables(prepared.fragments);
    return { ...known, ...prepared };
}

/** Returns the first error of a script, or null: what it is, and where its word begins, in bytes. */
function scriptError(script) {
    const place = library.allocate(STRUCTS.pef_place.size);
    try {
        const answer = library.calls.pef_script_place(...script, place, library.count);
        if (answer === PEF_OK) {
            return null;
        }
        if (answer === PEF_OUT_OF_MEMORY) {
            throw new LowMemory();
        }
        const { row, field, offset } = library.read("pef_place", place);
        return { number: answer, ...library.error(answer), line: row, word: field, offset, earlier: library.number(library.count) };
    } finally {
        library.free(place);
    }
}

/** Has a call make bytes of a script. Returns them, or null and the first error. */
function made(call, script, most = MADE_ROOM) {
    const buffer = library.allocate(most);
    const line = library.allocate(8);
    try {
        const answer = library.calls[call](...script, buffer, most, library.count, line);
        if (answer === PEF_ROOM_TOO_SMALL) {
            return made(call, script, library.number(library.count));
        }
        if (answer === PEF_OK) {
            return { bytes: library.bytes(buffer, library.number(library.count)).slice(), error: null };
        }
        const error = scriptError(script) ?? { number: answer, ...library.error(answer), line: 0, word: 0, offset: 0, earlier: 0 };
        return { bytes: null, error };
    } finally {
        library.free(buffer);
        library.free(line);
    }
}

/** Returns the offset at which each certificate begins in the lines of all. */
function certificatePlaces(lines) {
    const places = [];
    for (let at = 0; at < lines.length; at = lines.indexOf(LINE_FEED, at) + 1) {
        if (lines[at] === FIRST_LETTER) {
            places.push(at);
        }
    }
    return places;
}

/** Calls something with the address and the length of a text in the memory. */
function withText(text, act) {
    const bytes = new TextEncoder().encode(text);
    const address = library.copy(bytes);
    try {
        return act([address, bytes.length]);
    } finally {
        library.free(address);
    }
}

/** What the page may ask for. */
const calls = {
    /** Prepares a fragment of some, by its number. Each has a name, a blob with its bytes, and a number that says where it comes from. */
    async prepare(fragments, root, useStubs) {
        const context = new Context(library);
        try {
            return await prepareIn(context, fragments, root, useStubs);
        } finally {
            context.free();
        }
    },

    /** Returns the first error of a script, or null. */
    check(script) {
        return withText(script, (it) => scriptError(it));
    },

    /** Links a script. Returns its container, or its first error. */
    link(script) {
        return withText(script, (it) => {
            const { bytes, error } = made("pef_link", it);
            return { container: bytes, error };
        });
    },

    /** Makes the certificates of a script. Returns the lines that `pef distances` prints and where each certificate begins, or the first error. */
    certify(script) {
        return withText(script, (it) => {
            const { bytes, error } = made("pef_distances", it);
            return { lines: bytes, places: bytes === null ? [] : certificatePlaces(bytes), error };
        });
    },
};

serve(async ({ call, words }) => {
    library ??= await Library.load("pef.wasm");
    return { answer: await calls[call](...words) };
});
