// What the page asks of the library. The library keeps nothing of a file from one call to the next but a text that is being read.
import {
    PEF_COMMENT_CUT, PEF_DATA_FORK_CUT, PEF_EXPORT_PART, PEF_IMPORT_PART, PEF_LIBRARY_PART, PEF_NOT_THERE, PEF_OK, PEF_RELOCATION_PART, PEF_RESOURCE_FORK_CUT, PEF_SECTION_PART, STRUCTS,
} from "./pef.js";
import { Library } from "./library.js";

/** Of a name or a comment with more bytes the text isn't shown. */
const MOST_TEXT = 255;

/** The kinds of rows that `rows` gives, by the names of their lists in JSON. */
const KINDS = {
    sections: PEF_SECTION_PART,
    libraries: PEF_LIBRARY_PART,
    imports: PEF_IMPORT_PART,
    relocations: PEF_RELOCATION_PART,
    exports: PEF_EXPORT_PART,
};

/** The parts of a file, by the members of `struct pef_forks`, and which of them are texts. */
const FORKS = [
    { member: "data_fork", kind: "data fork", isText: false },
    { member: "resource_fork", kind: "resource fork", isText: false },
    { member: "name", kind: "name", isText: true },
    { member: "comment", kind: "comment", isText: true },
];

/** The errors of parts whose first bytes are there. */
const CUTS = [PEF_DATA_FORK_CUT, PEF_RESOURCE_FORK_CUT, PEF_COMMENT_CUT];

const FOUND_SIZE = STRUCTS.pef_found_container.size;

const MAC_ROMAN = new TextDecoder("macintosh");

/** Returns pieces of bytes as one. */
function joined(pieces) {
    const all = new Uint8Array(pieces.reduce((sum, it) => sum + it.length, 0));
    let at = 0;
    for (const piece of pieces) {
        all.set(piece, at);
        at += piece.length;
    }
    return all;
}

/** The library, with one file in its memory. */
export class Reader {
    constructor(library) {
        this.library = library;
        this.calls = library.calls;
        this.report = library.copy(new Uint8Array(STRUCTS.pef_report.size));
        this.found = library.allocate(FOUND_SIZE);
        this.range = library.allocate(STRUCTS.pef_row_range.size);
        this.path = [0, 0];
        this.file = [0, 0];
        this.containers = this.findContainers();
    }

    /** Loads the module from its bytes, or from a URL. */
    static async load(source) {
        return new Reader(await Library.load(source));
    }

    /**
     * Puts a file into the memory, in the place of the last one. `path` is what the report calls it. `containers` is what the reader
     * had as its own `containers` when it had this file open before: they take time to find.
     */
    open(bytes, path, containers = null) {
        this.file = this.replace(this.file, bytes);
        this.path = this.replace(this.path, new TextEncoder().encode(path));
        this.containers = containers ?? this.findContainers();
    }

    /** Frees bytes in the memory, and puts others there. Returns their address and their length. */
    replace(old, bytes) {
        this.calls.free(old[0]);
        old.fill(0);
        return [this.library.copy(bytes), bytes.length];
    }

    // The report, in parts.

    /**
     * Gives pieces of bytes that together are what `pef inspect --json` prints of the file. Each is valid until the next one. `onContainer` is
     * called with the number of each container before its pieces.
     */
    *whole(onContainer = () => {}) {
        yield* this.pieces("pef_report_open_head", ...this.path, ...this.file);
        for (let k = 0; k < this.containers.places.length; k += 1) {
            onContainer(k);
            yield* this.pieces("pef_report_open_found", ...this.file, this.putFound(k));
        }
        yield* this.pieces("pef_report_open_end", ...this.file, this.putFound(this.containers.places.length));
    }

    /** Returns the text before the containers. */
    head() {
        return this.text("pef_report_open_head", ...this.path, ...this.file);
    }

    /** Returns the text after the containers. */
    end() {
        return this.text("pef_report_open_end", ...this.file, this.putFound(this.containers.places.length));
    }

    /** Returns container `k` as an object: no instructions, and at most `most` rows of each table and errors and notes together. */
    excerpt(k, most) {
        return this.text("pef_report_open_excerpt", ...this.file, this.putFound(k), most);
    }

    /** Returns the objects of up to `count` rows of a list of container `k`, with a comma before each but row 0. */
    rows(k, list, from, count) {
        this.library.write("pef_row_range", this.range, { offset: this.containers.places[k], part: KINDS[list], from, count });
        return this.text("pef_report_open_rows", ...this.file, this.range);
    }

    /** Returns the text that a call opens. */
    text(call, ...words) {
        return joined(Array.from(this.pieces(call, ...words), (it) => it.slice()));
    }

    /** Gives the text that a call opens in pieces. Each is valid until the next one. */
    *pieces(call, ...words) {
        const { room, roomLength, count } = this.library;
        this.library.check(call, this.calls[call](this.report, ...words));
        try {
            for (let length = roomLength; length === roomLength; ) {
                this.library.check("pef_report_next", this.calls.pef_report_next(this.report, room, roomLength, count));
                length = this.library.number(count);
                yield this.library.bytes(room, length);
            }
        } finally {
            this.calls.pef_report_free(this.report);
        }
    }

    // Containers.

    /**
     * Finds where containers begin, how many bytes each can have, and what each leaves to the next one, as the bytes that the library
     * gives. The last of these are for the end of the report.
     */
    findContainers() {
        const places = [];
        const rests = [];
        const found = [];
        let answer = this.calls.pef_first_container(...this.file, this.found);
        for (;;) {
            found.push(this.library.bytes(this.found, FOUND_SIZE).slice());
            if (answer === PEF_NOT_THERE) {
                return { places: Float64Array.from(places), rests: Float64Array.from(rests), found: joined(found) };
            }
            const { offset, length } = this.library.read("pef_found_container", this.found);
            places.push(offset);
            rests.push(length);
            answer = this.calls.pef_next_container(...this.file, this.found);
        }
    }

    /** Puts what was found of container `k` into the memory, and returns its address. */
    putFound(k) {
        this.library.bytes(this.found, FOUND_SIZE).set(this.containers.found.subarray(FOUND_SIZE * k, FOUND_SIZE * (k + 1)));
        return this.found;
    }

    /** Returns how many bytes container `k` can have: those up to the end of its member, its resource or its fork. */
    rest(k) {
        return this.containers.rests[k];
    }

    /** Returns up to `most` additions of the program of a relocation header of container `k`. They have the members of `struct pef_fixup`. */
    additions(k, relocation, most) {
        const container = [this.file[0] + this.containers.places[k], this.rest(k)];
        return this.table("pef_partial_fixups", "pef_fixup", [...container, relocation], most);
    }

    /** Expands packed bytes at an offset of the file up to a length. Returns null if they aren't sound. */
    expand(offset, packed, length) {
        const image = this.library.allocate(length);
        try {
            const answer = this.calls.pef_expand(this.file[0] + offset, packed, image, length);
            return answer === PEF_OK ? this.library.bytes(image, length).slice() : null;
        } finally {
            this.calls.free(image);
        }
    }

    // Files of the classic Mac OS.

    /** Returns the parts that the file has: what they are, where, the text of a name or a comment, and 0 or the number of the error. */
    forks() {
        const { room } = this.library;
        if (this.calls.pef_forks(...this.file, room) !== PEF_OK) {
            return [];
        }
        const forks = this.library.read("pef_forks", room);
        return FORKS.map(({ member, kind, isText }) => {
            const { bytes, offset, error } = forks[member];
            const isThere = error === PEF_OK || CUTS.includes(error);
            return {
                kind,
                offset,
                length: isThere ? bytes.length : null,
                text: isThere && isText && bytes.length <= MOST_TEXT ? MAC_ROMAN.decode(this.library.bytesOf(bytes)) : "",
                error,
            };
        }).filter(({ error }) => error !== PEF_NOT_THERE);
    }

    /** Returns up to `most` resources of the resource fork that is one of the parts. */
    resources(forks, most) {
        const fork = forks.find(({ kind }) => kind === "resource fork");
        if (fork === undefined || fork.length === null || fork.length === 0) {
            return [];
        }
        return this.table("pef_resources", "pef_resource", [this.file[0] + fork.offset, fork.length], most).map((it) => {
            const isThere = it.error === PEF_OK;
            return {
                type: MAC_ROMAN.decode(Uint8Array.of(it.type >>> 24, it.type >>> 16, it.type >>> 8, it.type)),
                id: it.id,
                name: it.name_error === PEF_OK ? MAC_ROMAN.decode(this.library.bytesOf(it.name)) : null,
                offset: fork.offset + it.offset,
                length: isThere ? it.bytes.length : null,
                error: it.error,
            };
        });
    }

    /** Returns the name of an error or a note and what it means. The name is null if there is none with this number. */
    error(number) {
        return this.library.error(number);
    }

    /** Returns up to `most` rows of a table as objects with the members of their struct. Bytes are valid until the next call. */
    table(call, struct, words, most) {
        return this.library.table(struct, most, (...places) => this.calls[call](...words, ...places)).rows;
    }
}
