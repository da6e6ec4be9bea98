// A context of the library: fragments by name, and the memory that they become. It owns the bytes that it is given.
import { PEF_MAX_FRAGMENTS, PEF_OK, PEF_ROOM_TOO_SMALL, PEF_STORE_FULL, PEF_STUB_NUMBERS, STRUCTS } from "./pef.js";

/** How many bytes a stub is thought to have. If it has more, the library says how many. */
const STUB_ROOM = 1 << 16;

/** The first number of the stubs' symbols, and how far they are from each other. */
const FIRST_NUMBER = 0xF0000000;

const STEP = 16;

/** How many libraries are read that are missing, and how many symbols of one. */
const MOST_MISSING = 65536;

/** Returns bytes as a text that can be the key of a map. */
export function keyOf(bytes) {
    return Array.from(bytes, (it) => String.fromCharCode(it)).join("");
}

export class Context {
    constructor(library) {
        this.library = library;
        this.calls = library.calls;
        /** The fragments by the keys of their names: where their bytes are, and what the page calls them. */
        this.added = new Map();
        this.handle = library.copy(new Uint8Array(STRUCTS.pef_context.size));
        this.names = library.allocate(STRUCTS.pef_names.size);
        this.place = library.allocate(STRUCTS.pef_place.size);
        this.struct = library.allocate(Math.max(...Object.values(STRUCTS).map(({ size }) => size)));
        // All but the size of the struct has its usual value, with the limit of `pef load`.
        library.bytes(this.struct, STRUCTS.pef_options.size).fill(0);
        library.write("pef_options", this.struct, { size: STRUCTS.pef_options.size });
        library.check("pef_open_with", this.calls.pef_open_with(this.handle, this.struct));
        /** The number of the next symbol of a stub. */
        this.nextNumber = FIRST_NUMBER;
    }

    free() {
        this.calls.pef_free(this.handle);
        for (const { name, bytes } of this.added.values()) {
            this.library.free(name[0]);
            this.library.free(bytes[0]);
        }
        [this.handle, this.names, this.place, this.struct].forEach((it) => this.library.free(it));
    }

    // Fragments.

    /** Adds a fragment that has a name and bytes. Returns whether there was room for it. */
    add(fragment) {
        const name = [this.library.copy(fragment.name), fragment.name.length];
        const bytes = [this.library.copy(fragment.bytes), fragment.bytes.length];
        const answer = this.calls.pef_add(this.handle, ...name, ...bytes);
        if (answer === PEF_STORE_FULL) {
            this.library.free(name[0]);
            this.library.free(bytes[0]);
            return false;
        }
        this.library.check("pef_add", answer);
        this.added.set(keyOf(fragment.name), { name, bytes, fragment: { ...fragment, bytes: null } });
        return true;
    }

    /** Removes a fragment by its name. */
    remove(name) {
        const { name: at, bytes } = this.added.get(keyOf(name));
        this.library.check("pef_remove", this.calls.pef_remove(this.handle, ...at));
        this.added.delete(keyOf(name));
        this.library.free(at[0]);
        this.library.free(bytes[0]);
    }

    /** Returns the address and the length of a name that was added. */
    nameOf(name) {
        return this.added.get(keyOf(name)).name;
    }

    // What is missing.

    /** Returns what the libraries are that are missing for a fragment, or the number of the error for which that isn't known. */
    missing(name) {
        const words = this.nameOf(name);
        return this.library.table("pef_missing", MOST_MISSING, (...places) => this.calls.pef_missing(this.handle, ...words, ...places, this.names));
    }

    /** Returns the names of the libraries that no fragment has the name of. */
    lacking() {
        const { rows } = this.library.table("pef_lacking", MOST_MISSING, (...places) => this.calls.pef_lacking(this.handle, ...places));
        return rows.map(({ name }) => this.library.bytesOf(name).slice());
    }

    /** Adds a stub of a library. Returns the number of the error if there can be none, or there is no room for it, or else PEF_OK. */
    addStub(name) {
        const at = this.library.copy(name);
        try {
            const { answer, bytes, count } = this.makeStub([at, name.length], STUB_ROOM);
            if (answer !== PEF_OK) {
                return answer;
            }
            this.nextNumber += count * STEP;
            return this.add({ name, bytes, isStub: true }) ? PEF_OK : PEF_STORE_FULL;
        } finally {
            this.library.free(at);
        }
    }

    /** Makes a stub of a library of at most so many bytes, or of as many as the library says that it has. */
    makeStub(name, most) {
        const options = { size: STRUCTS.pef_stub_options.size, values: PEF_STUB_NUMBERS, first: this.nextNumber, step: STEP, word: 0, zeros: 0 };
        const buffer = this.library.allocate(most);
        const count = this.library.allocate(8);
        try {
            this.library.write("pef_stub_options", this.struct, options);
            const answer = this.calls.pef_stub(this.handle, ...name, this.struct, buffer, most, this.library.count, count);
            const length = this.library.number(this.library.count);
            if (answer === PEF_ROOM_TOO_SMALL) {
                return this.makeStub(name, length);
            }
            return { answer, bytes: answer === PEF_OK ? this.library.bytes(buffer, length).slice() : null, count: this.library.number(count) };
        } finally {
            this.library.free(buffer);
            this.library.free(count);
        }
    }

    // Preparation.

    /** Prepares a fragment. Returns the number of the connection, or of the error with its names and its place. */
    prepare(name) {
        const answer = this.calls.pef_prepare_with_place(this.handle, ...this.nameOf(name), this.library.count, this.names, this.place);
        if (answer === PEF_OK) {
            return { answer, connection: new DataView(this.calls.memory.buffer).getUint32(this.library.count, true) };
        }
        const names = this.library.read("pef_names", this.names);
        const bytes = Object.fromEntries(Object.entries(names).map(([it, found]) => [it, this.library.bytesOf(found).slice()]));
        return { answer, names: bytes, place: this.library.read("pef_place", this.place) };
    }

    /** Returns the numbers of the fragments that a call lists for a connection. */
    fragments(call, connection) {
        const { count, room } = this.library;
        this.library.check(call, this.calls[call](this.handle, connection, room, PEF_MAX_FRAGMENTS, count));
        return Array.from({ length: this.library.number(count) }, (_, i) => this.library.number(room + 8 * i));
    }

    /** Returns what a call stores of a fragment as the members of a struct, or null if it isn't there. */
    read(struct, call, ...words) {
        return this.calls[call](this.handle, ...words, this.struct) === PEF_OK ? this.library.read(struct, this.struct) : null;
    }

    /** Returns the bytes of a section. */
    bytes(fragment, section, size) {
        const buffer = this.library.allocate(size);
        try {
            this.library.check("pef_fragment_bytes", this.calls.pef_fragment_bytes(this.handle, fragment, section, buffer, size, this.library.count));
            return this.library.bytes(buffer, size).slice();
        } finally {
            this.library.free(buffer);
        }
    }

    /** Returns how many of something a call counts. */
    number(call, ...words) {
        return this.calls[call](this.handle, ...words, this.library.count) === PEF_OK ? this.library.number(this.library.count) : 0;
    }
}
