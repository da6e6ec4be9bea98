// Written by tools/declarations from docs/codes.table: the texts of codes, by their numbers, and of formats of files, by their words.

export const KINDS = {
    0: "code",
    1: "unpacked data",
    2: "pattern-initialized data",
    3: "constant",
    4: "loader",
    5: "debug",
    6: "executable data",
    7: "exception",
    8: "traceback",
};

export const SHARES = {
    1: "process",
    4: "global",
    5: "protected",
};

export const CLASSES = {
    0: "code",
    1: "data",
    2: "transition vector",
    3: "TOC",
    4: "glue",
};

export const USAGES = {
    0: "import library",
    1: "application",
    2: "drop-in addition",
    3: "stub library",
    4: "weak stub library",
};

export const LOCATORS = {
    0: "memory",
    1: "data fork",
    2: "resource",
};

export const FORMATS = {
    other: "unknown; containers are found by a search",
    container: "a bare container",
    macbinary: "MacBinary",
    applesingle: "AppleSingle",
    appledouble: "AppleDouble",
    damaged: "AppleSingle or AppleDouble, damaged",
    resources: "a resource fork",
};

/** The words of scripts and of JSON for codes. */
export const SCRIPT_WORDS = {
    kind: {
        0: "code",
        1: "data",
        2: "pattern",
        3: "const",
        4: "loader",
        5: "debug",
        6: "exec",
        7: "exception",
        8: "traceback",
    },
    share: {
        1: "process",
        4: "global",
        5: "protected",
    },
    class: {
        0: "code",
        1: "data",
        2: "tvector",
        3: "toc",
        4: "glue",
    },
};
