// The views before there is memory: the fragments that can be prepared, and why one can't be.
import { button, el, head, hint } from "./dom.js";
import { missingPart, refusalPart } from "./missing.js";
import { PEF_USAGE_APPLICATION } from "./pef.js";
import { DataTable } from "./table.js";
import * as text from "./text.js";

/** Returns the view of the fragments that files offer. `prepare` is called with the one that is chosen, and `openExample` opens some. */
export function offersView(offers, { prepare, choose, openExample }) {
    if (offers.length === 0) {
        const none = "There is no fragment yet. Open an application, and the libraries that it needs if you have them.";
        return el("article", {}, head("Prepare a fragment", []), hint(none), button("Open an example", openExample));
    }
    // An application is what people want to see.
    const rank = ({ fragment }) => (fragment?.usage === PEF_USAGE_APPLICATION ? 0 : 1);
    const rows = [...offers].sort((a, b) => rank(a) - rank(b));
    const columns = [
        { title: "Fragment", text: nameOf, value: nameOf, go: (it) => () => prepare(it) },
        { title: "Usage", text: ({ fragment }) => fragment?.usage_text ?? "–" },
        { title: "Version", text: ({ fragment }) => (fragment === null ? "–" : text.versionColumn("current").text(fragment)) },
        { title: "File", text: ({ file }) => file.path },
        { title: "Container at", text: ({ place }) => text.at(place), value: ({ place }) => place, class: "number", go: ({ file, place }) => () => choose(file, place) },
        { title: "Bytes", text: ({ length }) => String(length), value: ({ length }) => length, class: "number" },
    ];
    const words = "Choose a fragment: the page shows the memory that it becomes, with the libraries that it needs. These are looked for by name among all files here.";
    return el("article", {}, head("Prepare a fragment", []), hint(words), new DataTable({ caption: "Fragments that can be prepared", columns, rows }).element);
}

/** Returns the name of the fragment that is offered. */
export function nameOf({ name }) {
    return text.shownName(new TextDecoder("macintosh").decode(name));
}

/** Returns the view of a preparation that was refused. */
export function refusedView(offer, answer, { useStubs, show, back }) {
    const missing = missingPart(answer, useStubs).filter((it) => it !== null);
    return el("article", {}, head(`${nameOf(offer)} isn't prepared`, [button("Choose another fragment", back)]), ...refusalPart(answer, show), ...missing);
}
