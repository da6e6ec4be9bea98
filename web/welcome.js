// What is seen before a file is opened: what the page does, in three lines and a picture.
import { button, el, svg } from "./dom.js";
import { EXAMPLES } from "./examples.js";

const LINES = [
    ["Open a program, a library or a folder", "bare, in MacBinary or AppleDouble, or inside another file."],
    ["See what is inside", "sections, imports, exports, relocations, resources, and each byte at its place."],
    ["See what is wrong", "each error and each oddity, where it is, and what it means."],
    ["Prepare it", "see the memory that it becomes with its libraries, or with stubs of those that nobody has."],
];

/** The blocks of the picture: their kinds and widths. */
const BLOCKS = [["header", 34], ["header", 22], ["section", 92], ["section", 64], ["gap", 14], ["loader", 128]];

/** Returns the start page. `openExample` is called with the name of an example. */
export function welcomeView(openExample) {
    const lines = LINES.map(([title, words]) => el("li", {}, el("strong", {}, title), `: ${words}`));
    const drop = el("p", { class: "how" }, el("strong", {}, "Drop files or folders anywhere on this page"), ", or choose files above.");
    const examples = Object.entries(EXAMPLES).map(([name, { label }]) => button(label, () => openExample(name), { id: `example-${name}` }));
    return el("section", { class: "welcome" }, picture(), el("ol", {}, ...lines), drop, el("p", { class: "examples" }, "Or open an example: ", ...examples));
}

/** Returns what is seen if the module can't be loaded. */
export function brokenView(why) {
    const missing = "If pef.wasm is missing: it isn't in the repository. tools/page-module makes it, and the archive of the page has it.";
    const old = "Otherwise the browser may be too old: it has to have WebAssembly.";
    return el("section", { class: "broken" }, el("h2", {}, "The page can't work"), el("p", { class: "warning" }, `Its module can't be loaded: ${why}.`), el("p", {}, missing), el("p", {}, old));
}

/** Returns a picture of a file whose parts are shown, with marks at an error and a note. */
function picture() {
    const words = "A file, a map of its parts, and a list of what was found in it";
    const drawn = svg("svg", { viewBox: "0 0 560 150", role: "img", "aria-label": words, class: "picture" });
    drawn.append(paper(), svg("path", { d: "M122 75 h38 m-9 -8 l9 8 l-9 8", class: "arrow" }), svg("rect", { x: 176, y: 12, width: 372, height: 126, rx: 8, class: "sheet" }));
    let x = 188;
    for (const [kind, width] of BLOCKS) {
        drawn.append(svg("rect", { x, y: 26, width: width - 2, height: 34, rx: 2, class: kind }));
        x += width;
    }
    drawn.append(svg("rect", { x: 222, y: 22, width: 3, height: 42, class: "error" }), svg("rect", { x: 420, y: 43, width: 3, height: 21, class: "note" }));
    drawn.append(...found(82, "error", 150), ...found(104, "note", 210), ...found(126, "quiet", 120).slice(1));
    return drawn;
}

/** Returns a sheet of paper with a folded corner. */
function paper() {
    const lines = [62, 76, 90, 104].map((y, i) => svg("rect", { x: 34, y, width: [56, 44, 56, 30][i], height: 4, rx: 2, class: "quiet" }));
    return svg("g", {}, svg("path", { d: "M20 16 h60 l24 24 v94 h-84 z", class: "sheet" }), svg("path", { d: "M80 16 v24 h24", class: "sheet" }), ...lines);
}

/** Returns a line of what was found: a cross or a triangle, and words. */
function found(y, kind, width) {
    const sign = kind === "error" ? "M190 -4 l8 8 m0 -8 l-8 8" : "M194 -5 l5 9 h-10 z";
    const mark = svg("path", { d: sign, transform: `translate(0 ${y})`, class: `sign ${kind}` });
    return [mark, svg("rect", { x: 208, y: y - 3, width, height: 5, rx: 2.5, class: "quiet" }), svg("rect", { x: 216 + width, y: y - 3, width: 60, height: 5, rx: 2.5, class: "quiet" })];
}
