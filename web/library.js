// The library pef.wasm: its calls are those of include/pef.h. Addresses in its memory are plain numbers.
import { PEF_OK, PEF_OUT_OF_MEMORY, STRUCTS } from "./pef.js";

/** How many bytes of a text, or of rows, are read at once. */
const ROOM = 1 << 20;

/** Of a longer name only so many bytes are shown. */
const MOST_NAME = 1024;

const MAC_ROMAN = new TextDecoder("macintosh");

const UTF_8 = new TextDecoder();

const VALUES = {
    bool: (view, at) => view.getUint8(at) !== 0,
    i8: (view, at) => view.getInt8(at),
    i16: (view, at) => view.getInt16(at, true),
    i32: (view, at) => view.getInt32(at, true),
    u8: (view, at) => view.getUint8(at),
    u16: (view, at) => view.getUint16(at, true),
    u32: (view, at) => view.getUint32(at, true),
    u64: (view, at) => Number(view.getBigUint64(at, true)),
};

/** The browser doesn't give enough memory. */
export class LowMemory extends Error {
    constructor() {
        super("there is too little memory");
    }
}

/** The calls, and the memory that they read and write. */
export class Library {
    constructor(instance) {
        this.calls = instance.exports;
        this.calls._initialize();
        /** Where calls put texts and rows, and how long it is, and where they put a number, and bytes that they give. */
        this.room = this.allocate(ROOM);
        this.roomLength = ROOM;
        this.count = this.allocate(8);
        this.given = this.allocate(STRUCTS.pef_bytes.size);
    }

    /** Loads the module from its bytes, or from a URL. */
    static async load(source) {
        let bytes = source;
        if (typeof source === "string") {
            const answer = await fetch(source);
            if (!answer.ok) {
                throw new Error(`${source}: ${answer.status}`);
            }
            bytes = await answer.arrayBuffer();
        }
        const { instance } = await WebAssembly.instantiate(bytes, {});
        return new Library(instance);
    }

    /** Returns the address of so many new bytes. */
    allocate(length) {
        const address = this.calls.malloc(Math.max(length, 1)) >>> 0;
        if (address === 0) {
            throw new LowMemory();
        }
        return address;
    }

    /** Returns the address of new bytes that are copied into the memory. */
    copy(bytes) {
        const address = this.allocate(bytes.length);
        this.bytes(address, bytes.length).set(bytes);
        return address;
    }

    free(address) {
        this.calls.free(address);
    }

    /** Returns bytes of the memory. They are valid until the next call. */
    bytes(address, length) {
        return new Uint8Array(this.calls.memory.buffer, address, length);
    }

    /** Returns the bytes of a `struct pef_bytes`. They are valid until the next call. */
    bytesOf({ at, length }) {
        return this.bytes(length === 0 ? 0 : at, length);
    }

    /** Returns the members of a struct as an object. */
    read(name, address) {
        const view = new DataView(this.calls.memory.buffer);
        return this.readFrom(view, name, address);
    }

    readFrom(view, name, address) {
        const it = {};
        for (const [member, { type, at }] of Object.entries(STRUCTS[name].members)) {
            it[member] = Object.hasOwn(VALUES, type) ? VALUES[type](view, address + at) : this.readFrom(view, type, address + at);
        }
        return it;
    }

    /** Returns a number that a call stored: a length or a count. */
    number(address) {
        return VALUES.u64(new DataView(this.calls.memory.buffer), address);
    }

    /** Stores the members of a struct that are given. */
    write(name, address, values) {
        const view = new DataView(this.calls.memory.buffer);
        for (const [member, value] of Object.entries(values)) {
            const { type, at } = STRUCTS[name].members[member];
            if (type === "u64") {
                view.setBigUint64(address + at, BigInt(value), true);
            } else {
                view.setUint32(address + at, value, true);
            }
        }
    }

    /**
     * Reads up to `most` rows of a table as objects with the members of their struct. `ask` makes the call: it is given the number of the
     * first row, an address for rows, how many there may be, and an address for their count. Returns what the last call returned, and the rows.
     */
    table(struct, most, ask) {
        const { size } = STRUCTS[struct];
        const rows = [];
        let answer = PEF_OK;
        let isFull = true;
        while (isFull && rows.length < most) {
            const asked = Math.min(most - rows.length, Math.floor(ROOM / size));
            answer = ask(rows.length, this.room, asked, this.count);
            const count = answer === PEF_OK ? this.number(this.count) : 0;
            for (let i = 0; i < count; i += 1) {
                rows.push(this.read(struct, this.room + i * size));
            }
            isFull = count === asked;
        }
        return { answer, rows };
    }

    /** Returns the text of a name in Mac Roman. If it is too long, that is its beginning, and `name_length` says how long it is. */
    name({ at, length }) {
        const name = MAC_ROMAN.decode(this.bytesOf({ at, length: Math.min(length, MOST_NAME) }));
        return length > MOST_NAME ? { name, name_length: length } : { name };
    }

    /** Returns the name of an error or a note and what it means. The name is null if there is none with this number. */
    error(number) {
        return { name: this.words("pef_name", number), help: this.words("pef_help", number) ?? "" };
    }

    /** Returns the text that a call gives for a number, or null if there is none. */
    words(call, number) {
        const answer = this.calls[call](number, this.given);
        return answer === PEF_OK ? UTF_8.decode(this.bytesOf(this.read("pef_bytes", this.given))) : null;
    }

    /** Throws if a call didn't return that it did what it says. */
    check(call, answer) {
        if (answer === PEF_OUT_OF_MEMORY) {
            throw new LowMemory();
        }
        if (answer !== PEF_OK) {
            throw new Error(`${call} returned ${answer}`);
        }
    }
}
