// Prints what the module of the page says of files: for each path on a line of the standard input, what `pef inspect --json` prints.
//
//     node web/reports.mjs [MODULE] < PATHS
//
// MODULE is web/pef.wasm unless it is given. It is a tool of web/compare.
import { readFileSync, writeSync } from "node:fs";
import { Reader } from "./module.js";

const reader = await Reader.load(readFileSync(process.argv[2] ?? new URL("pef.wasm", import.meta.url)));
for (const path of readFileSync(0, "utf8").split("\n").filter((line) => line !== "")) {
    reader.open(readFileSync(path), path);
    for (const piece of reader.whole()) {
        let left = piece;
        while (left.length > 0) {
            left = left.subarray(writeSync(1, left));
        }
    }
}
