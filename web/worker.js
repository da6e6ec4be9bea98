// The worker for files. It has a module of its own, so that the page answers while the module works.
import { LowMemory } from "./library.js";
import { Reader } from "./module.js";
import { PEF_OUT_OF_MEMORY } from "./pef.js";
import { post, sayStep, serve } from "./serve.js";

/** The errors and notes have numbers up to this one. */
const LAST_NUMBER = 255;

/** How many rows of each table are read at first, and at most. */
const FEW_ROWS = 1024;

const MOST_ROWS = 65536;

/** About how many bytes of text are read at once. */
const MOST_TEXT = 24e6;

/** What is taken for the length of a text that isn't known. */
const SOME_TEXT = 5e5;

/** How many instructions are listed, and about how long one is as text. Those of a program with more halfwords aren't listed. */
const MOST_INSTRUCTIONS = 20000;

const INSTRUCTION = 80;

const LONG_PROGRAM = 500000;

/** For how many milliseconds programs are read. A damaged file can have many that take long and give nothing. */
const MOST_TIME = 5000;

/** For how many milliseconds errors and notes are counted at once. */
const SHORT = 200;

const MOST_RESOURCES = 65536;

const TABLES = ["sections", "libraries", "imports", "relocations", "exports"];

const LISTS = [...TABLES, "errors", "notes"];

const TEXT = new TextDecoder();

let reader = null;

/** The files that were opened, by their numbers, each with its path, what the reader knows of its containers, and what was counted. */
const files = new Map();

/** The number of the file that the reader has. */
let opened = null;

/** Returns rows of a text that may begin with a comma. */
function rowsOf(text) {
    return JSON.parse(`[${text.startsWith(",") ? text.slice(1) : text}]`);
}

/** Returns whether a table of an excerpt, or its errors and notes together, may have more rows. */
function isFull(container, most) {
    return TABLES.some((it) => container[it].length >= most) || container.errors.length + container.notes.length >= most;
}

/** Returns how many rows have a text of about the right length, if so many have one of this length. */
function rowsFor(rows, size) {
    return Math.min(Math.floor((rows * MOST_TEXT) / size), MOST_ROWS);
}

/** Returns an excerpt for which so many rows were asked. It is null if the container isn't inspected. */
function parsed(text, asked) {
    return { container: text.length === 0 ? null : JSON.parse(TEXT.decode(text)), asked, size: text.length };
}

/** Returns what `make` makes, or what `instead` makes if the browser doesn't give enough memory. */
function unlessMemoryIsLow(make, instead) {
    try {
        return make();
    } catch (error) {
        if (error instanceof LowMemory) {
            return instead();
        }
        throw error;
    }
}

/** Returns what is shown of the container at an offset if there is too little memory to look into it. */
function lackingAt(offset) {
    const error = { number: PEF_OUT_OF_MEMORY, name: "OutOfMemory", part: null, row: null, field: null, offset: null };
    const lists = { ...Object.fromEntries(LISTS.map((it) => [it, []])), errors: [error] };
    return { offset, header: null, loader: null, ...lists, entries: { main: null, init: null, term: null }, verdict: null };
}

/** Returns the beginning of container `k` with a few rows. */
function shortExcerptOf(k) {
    const lacking = () => ({ container: lackingAt(reader.containers.places[k]), asked: FEW_ROWS, size: SOME_TEXT });
    return unlessMemoryIsLow(() => parsed(reader.excerpt(k, FEW_ROWS), FEW_ROWS), lacking);
}

/** Returns the beginning of container `k`: a few rows, and if these aren't all, as many as can be shown at once. */
function excerptOf(k) {
    const few = shortExcerptOf(k);
    if (few.container === null || !isFull(few.container, FEW_ROWS)) {
        return few;
    }
    return unlessMemoryIsLow(() => longerExcerptOf(k, few.size) ?? few, () => few);
}

/** Returns the beginning of a container with more than a few rows, which have so many bytes of text. It is null if that is too long. */
function longerExcerptOf(k, size) {
    let asked = rowsFor(FEW_ROWS, size);
    while (asked > FEW_ROWS) {
        const text = reader.excerpt(k, asked);
        if (text.length <= 2 * MOST_TEXT) {
            return parsed(text, asked);
        }
        asked = rowsFor(asked, text.length);
    }
    return null;
}

/** Keeps how many errors and notes an excerpt has, and its verdict. */
function countIn(counts, k, { container, asked }) {
    const errors = container?.errors.length ?? 0;
    const notes = container?.notes.length ?? 0;
    counts.set(k, { errors, notes, isCut: errors + notes >= asked, state: container?.verdict?.state ?? null });
}

/** Returns the end of the relocation headers from one on whose instructions are asked for together. */
function batchEnd(halfwords, from) {
    let end = from;
    let sum = 0;
    while (end < halfwords.length && halfwords[end] <= LONG_PROGRAM && (end === from || sum + halfwords[end] <= MOST_INSTRUCTIONS)) {
        sum += halfwords[end];
        end += 1;
    }
    return end;
}

/** What the page may ask for. */
const calls = {
    /** Returns the names of errors and notes and what they mean, by their numbers. */
    start() {
        return Array.from({ length: LAST_NUMBER + 1 }, (_, number) => reader.error(number));
    },

    /** Opens a file. Returns its bytes, its report without the containers, and what that doesn't have. */
    async open(number, file, path) {
        const bytes = new Uint8Array(await file.arrayBuffer());
        opened = null;
        reader.open(bytes, path);
        opened = number;
        files.set(number, { file, path, containers: reader.containers, counts: new Map() });
        const report = JSON.parse(TEXT.decode(reader.head()) + TEXT.decode(reader.end()));
        const forks = reader.forks();
        const resources = reader.resources(forks, MOST_RESOURCES);
        return { bytes, report, forks, resources, hasMoreResources: resources.length === MOST_RESOURCES, places: reader.containers.places.slice(), rests: reader.containers.rests.slice() };
    },

    /** Counts errors and notes of containers from number `from` on. Returns these and the verdicts, of as many as a short time allows. */
    count(from) {
        const { counts } = files.get(opened);
        const late = performance.now() + SHORT;
        const found = [];
        let k = from;
        while (k < reader.containers.places.length && (k === from || performance.now() < late)) {
            if (!counts.has(k)) {
                countIn(counts, k, shortExcerptOf(k));
            }
            found.push(counts.get(k));
            k += 1;
        }
        return found;
    },

    /** Forgets a file. */
    close(number) {
        files.delete(number);
        opened = opened === number ? null : opened;
    },

    /** Gives the lists of the beginning of container `k`. Returns the rest, how many rows were asked for, and how many bytes it can have. */
    async container(k) {
        const { container, asked, size } = excerptOf(k);
        countIn(files.get(opened).counts, k, { container, asked });
        if (container !== null) {
            await post(Object.fromEntries(LISTS.map((it) => [it, container[it]])), size);
            LISTS.forEach((it) => delete container[it]);
        }
        return { container, asked, rest: reader.rest(k) };
    },

    /** Gives further rows of a table. Returns whether there may be more. */
    async rows(k, table, from, count) {
        if (table === "relocations") {
            // Only the excerpt has them without their instructions.
            const { container, size } = parsed(reader.excerpt(k, from + count));
            await post({ rows: container.relocations.slice(from) }, size);
            return { more: container.relocations.length >= from + count };
        }
        let asked = count;
        let text = reader.rows(k, table, from, asked);
        while (text.length > 2 * MOST_TEXT && asked > 1) {
            asked = Math.max(1, rowsFor(asked, text.length));
            text = reader.rows(k, table, from, asked);
        }
        const rows = rowsOf(TEXT.decode(text));
        await post({ rows }, text.length);
        return { more: rows.length >= asked };
    },

    /** Gives the first instructions of the relocation headers whose programs have these numbers of halfwords. */
    async instructions(k, halfwords) {
        const rows = [];
        const late = performance.now() + MOST_TIME;
        let from = 0;
        while (from < halfwords.length && rows.length <= MOST_INSTRUCTIONS && performance.now() < late) {
            const end = batchEnd(halfwords, from);
            if (end > from) {
                const headers = rowsOf(TEXT.decode(reader.rows(k, "relocations", from, end - from)));
                rows.push(...headers.flatMap(({ instructions }, i) => (instructions ?? []).map((it) => ({ ...it, header: from + i }))).slice(0, MOST_INSTRUCTIONS + 1));
            }
            from = Math.max(end, from + 1);
        }
        const first = rows.slice(0, MOST_INSTRUCTIONS);
        await post({ rows: first }, first.length * INSTRUCTION);
        return { cut: rows.length > first.length || from < halfwords.length, hasLong: halfwords.some((it) => it > LONG_PROGRAM) };
    },

    /** Returns the first additions of some relocation headers' programs: a header's number and three more of each. */
    additions(k, relocations, most) {
        const numbers = [];
        const late = performance.now() + MOST_TIME;
        let done = 0;
        while (done < relocations.length && numbers.length <= 4 * most && performance.now() < late) {
            for (const { offset, kind, number } of reader.additions(k, relocations[done], most + 1 - numbers.length / 4)) {
                numbers.push(relocations[done], offset, kind, number);
            }
            done += 1;
        }
        return { numbers: Float64Array.from(numbers.slice(0, 4 * most)), cut: done < relocations.length || numbers.length > 4 * most };
    },

    /** Returns the image of packed bytes at an offset of the file, or null if they aren't sound. */
    image(offset, packed, length) {
        return reader.expand(offset, packed, length);
    },

    /** Returns what `pef inspect --json` prints of the file. */
    save() {
        const { length } = reader.containers.places;
        // Each piece is copied at once, since the next one takes its place.
        return new Blob(Array.from(reader.whole((k) => sayStep("containers", k, length)), (piece) => new Blob([piece])), { type: "application/json" });
    },
};

/**
 * Opens a file again if the reader has another one. Returns whether it can be read: without its bytes it is read from the disk, if this
 * worker has opened it before.
 */
async function reopen(number, bytes, path) {
    if (number === opened) {
        return true;
    }
    const known = files.get(number);
    const contents = bytes ?? (await known?.file.arrayBuffer().then((it) => new Uint8Array(it), () => null));
    if (contents === undefined || contents === null) {
        return false;
    }
    opened = null;
    reader.open(contents, known?.path ?? path, known?.containers);
    opened = number;
    if (known === undefined) {
        files.set(number, { file: new Blob([contents]), path, containers: reader.containers, counts: new Map() });
    }
    return true;
}

/** Answers a request. If the file can't be read again, the page is asked for its bytes. */
async function answer({ number, bytes, path, call, words }) {
    reader ??= await Reader.load("pef.wasm");
    if (["start", "open", "close"].includes(call)) {
        return { answer: await calls[call](...words) };
    }
    return (await reopen(number, bytes, path)) ? { answer: await calls[call](...words) } : { isLost: true };
}

serve(answer);
