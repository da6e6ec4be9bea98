// Who needs whom: the fragment that was prepared, the libraries that it needs, and what these need, as a tree.
import { PEF_LIBRARY_INIT_BEFORE, PEF_LIBRARY_WEAK } from "./pef.js";
import { button, el } from "./dom.js";
import { Stop } from "./rove.js";
import * as text from "./text.js";

/** How many libraries of one fragment are shown. */
const MOST = 256;

/** Returns the tree. `go` is called with the number of a fragment that is chosen. */
export function closureTree(memory, go) {
    const shown = new Set();
    const tree = el("ul", { class: "tree", "aria-label": "Who needs whom" }, node(memory, { fragment: memory.root, options: 0 }, shown, go));
    new Stop(tree, "button").rest();
    return tree;
}

/** Returns the entry of a library, with what it needs unless that is shown already. */
function node(memory, { fragment, options, ...library }, shown, go) {
    if (fragment === null) {
        const label = button(text.nameOf(library), () => {}, { class: "node missing", "aria-disabled": "true" });
        return el("li", {}, label, " ", sign("error", options & PEF_LIBRARY_WEAK ? "missing, and weak: its imports are 0" : "missing"));
    }
    const it = memory.fragments[fragment];
    const isAgain = shown.has(fragment);
    shown.add(fragment);
    const signs = [
        it.isStub ? sign("note", "stub") : null,
        options & PEF_LIBRARY_WEAK ? sign("empty", "weak") : null,
        options & PEF_LIBRARY_INIT_BEFORE ? sign("empty", "initialized first") : null,
        isAgain && it.libraries.length > 0 ? sign("empty", "its libraries are above") : null,
    ];
    const from = it.offer === null ? null : el("span", { class: "from" }, `from ${it.offer.file.name}`);
    const below = isAgain ? [] : it.libraries.slice(0, MOST).map((found) => node(memory, found, shown, go));
    const more = !isAgain && it.libraries.length > MOST ? el("li", { class: "hint" }, `and ${(it.libraries.length - MOST).toLocaleString("en")} more`) : null;
    const label = button(text.nameOf(it), () => go(fragment), { class: "node" });
    return el("li", {}, label, " ", ...signs.filter((sign) => sign !== null), from, below.length === 0 ? null : el("ul", {}, ...below, more));
}

function sign(kind, words) {
    return el("span", { class: `badge ${kind}` }, words);
}
