// Numbers and names as they are shown.

const MOST_SHORT = 80;

/** Returns a name to be shown. A control character becomes `%` and two hexadecimal digits, and so does `%` itself. */
export function shownName(name) {
    return name.replace(/[\x00-\x1F%\x7F]/g, (it) => `%${hex(it.charCodeAt(0), 2)}`);
}

/** Returns the name of a row to be shown. JSON has the length of a name if it has only the first bytes. */
export function nameOf(row) {
    return row.name === null ? "–" : `${shownName(row.name)}${row.name_length === undefined ? "" : "…"}`;
}

/** The characters of Mac Roman above 7F, by their bytes. */
const HIGH = new TextDecoder("macintosh").decode(Uint8Array.from({ length: 128 }, (_, i) => 128 + i));

/** Returns the bytes of a text in Mac Roman, or in UTF-8 if it has other characters. */
export function macBytes(words) {
    const bytes = Array.from(words, (it) => (it < "\x80" ? it.charCodeAt(0) : HIGH.includes(it) ? 128 + HIGH.indexOf(it) : null));
    return bytes.includes(null) ? new TextEncoder().encode(words) : Uint8Array.from(bytes);
}

/** Returns a name by its bytes as `pef` prints it. */
export function printed(bytes) {
    return Array.from(bytes, (it) => (it > 0x20 && it < 0x7F && it !== 0x25 ? String.fromCharCode(it) : `%${hex(it, 2)}`)).join("");
}

/** Returns the beginning of a text that is too long to be shown beside others. */
export function shortened(text) {
    return text.length > MOST_SHORT ? `${text.slice(0, MOST_SHORT)}…` : text;
}

/** Returns a number in `digits` hexadecimal digits. */
export function hex(number, digits) {
    return number.toString(16).toUpperCase().padStart(digits, "0");
}

/** Returns an offset of a file in eight hexadecimal digits, or more. */
export function at(offset) {
    return hex(offset, 8);
}

/** The largest version that is shown as a plain number if it isn't one as people write it. */
const MOST_PLAIN = 0xFFFF;

/** Returns a version by its number and its text, which is `-` if it isn't one as people write it. */
function version(number, text) {
    if (text !== "-") {
        return text;
    }
    return number <= MOST_PLAIN ? String(number) : hex(number, 8);
}

/** Returns what a column shows of a version. Its hint has the four bytes. */
export function versionColumn(field) {
    return {
        text: (it) => version(it[field], it[`${field}_text`]),
        value: (it) => it[field],
        hint: (it) => `${hex(it[field], 8)} in hexadecimal`,
    };
}

/** Returns a date by its seconds since 1904 and its text. Linkers leave 0 if they don't know it. */
export function date(seconds, text) {
    return seconds === 0 ? "none" : text.replace("T", " ");
}

/** Returns the names and values of an object that the page doesn't know, and that aren't objects: a later report may have more. */
export function others(object, known) {
    const isPlain = (value) => ["string", "number", "boolean"].includes(typeof value);
    return Object.entries(object).filter(([name, value]) => !known.includes(name) && isPlain(value)).map(([name, value]) => [shownName(name), shownName(String(value))]);
}

/** Returns how many of something there are. */
export function counted(count, word) {
    return `${count.toLocaleString("en")} ${word}${count === 1 ? "" : "s"}`;
}

/** Returns what a row has as its name, and nothing else. */
export function only({ name, name_length }) {
    return name_length === undefined ? { name } : { name, name_length };
}
