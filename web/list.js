// The list of the files: one row each, with the errors and notes that were counted in it.
import { button, el } from "./dom.js";
import { VERDICTS } from "./files.js";
import { Stop } from "./rove.js";
import * as text from "./text.js";

/** How many containers of a file are listed below it. The others are in the file's own table. */
const LISTED = 20;

/** After how many milliseconds a change of the counts is seen in the filter. */
const SOON = 100;

/** Which files are listed, by the values of the filter. */
const FILTERS = {
    all: () => true,
    errors: ({ why, count }) => why !== null || count.errors > 0,
    findings: ({ why, count }) => why !== null || count.errors + count.notes > 0,
    whole: (file) => file.verdict() === "whole",
    damaged: (file) => file.verdict() === "damaged",
    cut: (file) => file.verdict() === "cut",
    stub: (file) => file.verdict() === "stub",
    m68k: (file) => file.verdict() === "m68k",
    unlikely: (file) => file.verdict() === "unlikely",
    none: ({ why, owner, places, companion }) => why === null && owner === null && places.length + (companion?.places.length ?? 0) === 0,
};

const FILTER_LABELS = {
    all: "All files", errors: "With errors", findings: "With errors or notes", whole: "Whole", damaged: "Damaged", cut: "Cut",
    stub: "Stub libraries", m68k: "For CFM-68K", unlikely: "Unlikely", none: "Without a container",
};

/** The orders of the list, each with what files are sorted by. Files with the same value stay in the order in which they were opened. */
const ORDERS = {
    opened: { label: "As they were opened", value: () => 0 },
    name: { label: "By name", value: ({ path }) => path },
    verdict: { label: "By verdict, the worst first", value: rankOf },
    errors: { label: "By errors, the most first", value: ({ why, count }) => (why === null ? -count.errors : -Infinity) },
};

/** The list. `choose` is called with a file and the place of a container or null, and `remove` with a file. */
export class FileList {
    constructor({ panel, filter, order, list }, { choose, remove }) {
        this.panel = panel;
        this.filter = filter;
        this.order = order;
        this.list = list;
        this.choose = choose;
        this.remove = remove;
        this.rows = new Map();
        this.timer = null;
        this.filter.append(...Object.keys(FILTERS).map((value) => el("option", { value })));
        this.filter.addEventListener("change", () => this.draw());
        this.order.append(...Object.entries(ORDERS).map(([value, { label }]) => el("option", { value }, label)));
        this.order.addEventListener("change", () => this.draw());
        this.stop = new Stop(list, "button.file");
        list.addEventListener("keydown", (event) => this.press(event));
    }

    /** Adds a file, below another one if it has the resource fork of that. */
    add(file) {
        const marks = el("span", { class: "badges" });
        const label = button("", () => this.choose(file, file.mainPlace()), { class: "file", tabindex: "-1", title: file.path });
        const folder = file.path.slice(0, file.path.length - file.name.length);
        label.append(el("span", { class: "name" }, file.name, folder === "" ? null : el("span", { class: "folder" }, folder)), marks);
        const cross = button("×", () => this.remove(file), { class: "remove", tabindex: "-1", "aria-label": `Remove ${file.name}`, title: "Remove (Delete)" });
        const inner = el("ul", { hidden: true });
        const item = el("li", {}, el("div", { class: "row" }, label, cross), inner);
        this.rows.set(file, { item, label, marks, inner, links: new Map() });
        this.list.append(item);
        this.panel.hidden = false;
        this.fill(file);
        this.update(file);
    }

    /** Lists the containers of a file below it if it has several, and the file with its resource fork. */
    fill(file) {
        const { inner, links } = this.rows.get(file);
        const link = (label, of, place) => {
            const made = button(label, () => this.choose(of, place), { class: "file", tabindex: "-1" });
            links.set(of === file ? place : of, made);
            return el("li", {}, made);
        };
        const places = file.places.length > 1 ? file.places : [];
        for (const place of places.slice(0, LISTED)) {
            const fragment = file.fragmentAt.get(place);
            inner.append(link(fragment === undefined ? text.at(place) : `${text.at(place)} ${text.nameOf(fragment)}`, file, place));
        }
        if (places.length > LISTED) {
            inner.append(el("li", { class: "hint" }, `and ${(places.length - LISTED).toLocaleString("en")} more`));
        }
        if (file.companion !== null) {
            inner.append(link(`Resource fork: ${file.companion.path}`, file.companion, file.companion.mainPlace()));
        }
    }

    /** Shows how many errors and notes a file has, with those of the file that has its resource fork. */
    update(file) {
        const row = this.rows.get(file.owner ?? file);
        row?.marks.replaceChildren(...badgesOf(file.owner ?? file));
        // There may be thousands of files.
        this.timer ??= setTimeout(() => this.draw(), SOON);
    }

    /** Shows the files that the filter asks for, and how many there are of each kind. */
    draw() {
        clearTimeout(this.timer);
        this.timer = null;
        const files = [...this.rows.keys()];
        for (const option of this.filter.options) {
            const { length } = files.filter((it) => hasAny(it, FILTERS[option.value]));
            option.textContent = `${FILTER_LABELS[option.value]} (${length.toLocaleString("en")})`;
        }
        for (const [file, { item }] of this.rows) {
            item.hidden = !hasAny(file, FILTERS[this.filter.value]);
        }
        this.sort();
        this.panel.hidden = files.length === 0;
        this.stop.rest();
    }

    /** Puts the rows in the order that is chosen. */
    sort() {
        const { value } = ORDERS[this.order.value];
        const values = new Map([...this.rows.keys()].map((it) => [it, value(it)]));
        const sorted = [...values.keys()].sort((a, b) => (values.get(a) < values.get(b) ? -1 : values.get(a) > values.get(b) ? 1 : 0));
        const items = sorted.map((it) => this.rows.get(it).item);
        if (items.some((it, i) => it !== this.list.children[i])) {
            const focused = this.list.contains(document.activeElement) ? document.activeElement : null;
            this.list.append(...items);
            focused?.focus();
        }
    }

    /** Marks what was chosen, and shows what is below its row. Nothing is chosen if the file is null. */
    mark(file, place) {
        const top = file?.owner ?? file;
        for (const [it, { label, inner, links }] of this.rows) {
            [label, ...links.values()].forEach((link) => link.removeAttribute("aria-current"));
            inner.hidden = it !== top || inner.children.length === 0;
        }
        if (file === null) {
            return;
        }
        const { label, links } = this.rows.get(top);
        const link = links.get(file === top ? place : file) ?? label;
        link.setAttribute("aria-current", "true");
        this.stop.rest(this.list.contains(document.activeElement) ? null : link);
    }

    /** Takes a file out. Returns the one beside it, or null. */
    drop(file) {
        const fileOf = new Map([...this.rows].map(([it, { item }]) => [item, it]));
        const shown = [...this.list.children].filter((it) => !it.hidden).map((it) => fileOf.get(it));
        const here = shown.indexOf(file);
        const { item } = this.rows.get(file);
        const hadFocus = item.contains(document.activeElement);
        item.remove();
        this.rows.delete(file);
        this.draw();
        const beside = shown[here + 1] ?? shown[here - 1] ?? null;
        if (hadFocus && beside !== null) {
            this.rows.get(beside).label.focus();
        }
        return beside;
    }

    /** Removes the file of a row by the keyboard. */
    press(event) {
        if (event.key === "Delete" && event.target.matches("button.file")) {
            for (const [file, { item }] of this.rows) {
                if (item.contains(event.target)) {
                    event.preventDefault();
                    this.remove(file);
                    return;
                }
            }
        }
    }
}

/** Returns whether a filter takes a file, or the file that has its resource fork. */
function hasAny(file, takes) {
    return takes(file) || (file.companion !== null && takes(file.companion));
}

/** Returns the place of a file among others in the order of verdicts. */
function rankOf(file) {
    const verdicts = [file, file.companion].map((it) => it?.verdict() ?? null);
    const worst = VERDICTS.findIndex((it) => verdicts.includes(it));
    return file.why !== null ? -1 : worst < 0 ? VERDICTS.length : worst;
}

/** Returns what the row of a file says of it: its verdict, and how many errors and notes it has. */
function badgesOf(file) {
    if (file.why !== null) {
        return [badge("error", "unreadable")];
    }
    const files = [file, file.companion].filter((it) => it !== null);
    const sum = (of) => files.reduce((all, { count }) => all + count[of], 0);
    const isCounted = files.every((it) => it.isCounted());
    const isCut = files.some(({ count }) => count.isCut);
    const state = VERDICTS[rankOf(file)] ?? null;
    const marks = ["error", "note"].filter((it) => sum(`${it}s`) > 0).map((it) => countBadge(it, sum(`${it}s`), isCut));
    const none = marks.length > 0 || !isCounted ? [] : isCut ? [badge("empty", "not counted")] : nothingFound(files);
    return [state === null ? null : stateBadge(state), ...marks, ...none, isCounted ? null : "…"].filter((it) => it !== null);
}

function nothingFound(files) {
    return [files.some(({ places }) => places.length > 0) ? el("span", { class: "hidden" }, "no errors, no notes") : badge("empty", "no container")];
}

function countBadge(kind, count, isCut) {
    const words = text.counted(count, kind);
    const shown = el("span", { class: `badge ${kind}`, title: isCut ? `${words} or more` : words }, `${count.toLocaleString("en")}${isCut ? "+" : ""}`);
    shown.append(el("span", { class: "hidden" }, words.slice(words.indexOf(" "))));
    return shown;
}

function badge(kind, words) {
    return el("span", { class: `badge ${kind}` }, words);
}

/** Returns what says the verdict on a file. Only what isn't whole takes words. */
function stateBadge(state) {
    return state === "whole" ? el("span", { class: "badge sound", title: "whole" }, el("span", { class: "hidden" }, "whole")) : badge(state, state);
}
