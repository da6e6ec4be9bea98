// Codes of sections, symbols and libraries as they are shown.
import { PEF_LIBRARY_INIT_BEFORE, PEF_LIBRARY_WEAK } from "./pef.js";

/** Returns a code with its word, if it has one. */
export function coded(words, code) {
    return words[code] === undefined ? String(code) : `${code} ${words[code]}`;
}

/** Returns the options of a library in words. */
export function libraryOptions(options) {
    const words = [];
    if (options & PEF_LIBRARY_INIT_BEFORE) {
        words.push("initialized first");
    }
    if (options & PEF_LIBRARY_WEAK) {
        words.push("weak");
    }
    return words.length === 0 ? String(options) : `${options} ${words.join(", ")}`;
}
