// A table that can be sorted and searched, and shows its rows in parts.
import { button, el } from "./dom.js";

/** How many rows are shown at first, and how many more each time: fewer if they have more characters than this together. */
const PART = 200;

const MOST_CHARACTERS = 50000;

/** A cell may be too narrow for a text with more characters. */
const LONG = 30;

/** How many rows are shown before one that is far down. */
const BEFORE = 10;

/**
 * A table of rows. A column has a title, the text that it shows of a row, and maybe a value to sort by, a place to go to, `class`,
 * a hint, and the kind of `badge` that the text is. `more` says whether there are further rows, and reads some of them into `rows`.
 */
export class DataTable {
    constructor({ caption, columns, rows, more = { has: () => false }, empty = "None." }) {
        this.columns = columns;
        this.rows = rows;
        this.order = null;
        this.wanted = "";
        this.marked = null;
        this.empty = empty;
        this.more = more;
        this.isReading = false;
        this.search = el("input", { type: "search", "aria-label": `Search in ${caption}`, placeholder: "Search", autocomplete: "off" });
        this.search.addEventListener("input", () => this.setSearch(this.search.value));
        this.count = el("span", { class: "count", role: "status" });
        this.heads = columns.map((column, i) => el("th", { scope: "col", class: column.class }, button(column.title, () => this.sortBy(i), { title: `Sort by ${column.title}` })));
        this.body = el("tbody");
        this.before = button("Show earlier rows", () => this.fillBefore());
        this.rest = button("Show more rows", () => this.showMore(), { class: "more" });
        this.tools = el("div", { class: "tools" }, this.search, this.count, this.before);
        this.element = el(
            "section",
            { class: "data" },
            this.tools,
            el(
                "div",
                { class: "scroller", tabindex: "0", role: "region", "aria-label": caption },
                el("table", {}, el("caption", { class: "hidden" }, caption), el("thead", {}, el("tr", {}, ...this.heads)), this.body),
            ),
            this.rest,
        );
        this.draw();
    }

    setSearch(wanted) {
        this.wanted = wanted.toLowerCase();
        this.draw();
    }

    sortBy(column) {
        const descending = this.order !== null && this.order.column === column && !this.order.descending;
        this.order = { column, descending };
        this.heads.forEach((head, i) => {
            if (i === column) {
                head.setAttribute("aria-sort", descending ? "descending" : "ascending");
            } else {
                head.removeAttribute("aria-sort");
            }
        });
        this.draw();
    }

    /** Shows a row by its number, and marks it. */
    reveal(row) {
        this.marked = row;
        this.search.value = "";
        this.wanted = "";
        this.draw(this.order === null ? row : this.ordered().indexOf(row));
        const marked = this.body.querySelector(".marked");
        if (marked !== null) {
            marked.scrollIntoView({ block: "center" });
            marked.focus();
        }
    }

    /** Shows the rows that are shown anew: what they say has changed. */
    refresh() {
        const { from, to } = this;
        const place = this.order === null && this.wanted === "" && !this.body.contains(document.activeElement) ? from : null;
        if (place !== null) {
            this.body.replaceChildren();
            this.to = from;
            while (this.to < to) {
                this.body.append(this.line(this.to));
                this.to += 1;
            }
        }
    }

    /** Shows further rows. If all that were read are shown, it reads more. */
    async showMore() {
        if (this.isReading) {
            return;
        }
        const first = this.body.children.length;
        const isRead = this.to === this.numbers.length;
        if (isRead) {
            this.isReading = true;
            await this.more.read();
            this.isReading = false;
        }
        const isLeft = ![this.rest, document.body].includes(document.activeElement);
        if (isRead && this.order !== null) {
            this.draw();
        } else {
            this.numbers = isRead ? this.ordered() : this.numbers;
            this.fillAfter();
        }
        if (!isLeft) {
            this.body.children[first]?.focus();
        }
    }

    /**
     * Returns the numbers of the rows that are searched for, in their order. If that is all rows in their own order, there may be
     * millions. Then it is only how many they are.
     */
    ordered() {
        if (this.wanted === "" && this.order === null) {
            return { length: this.rows.length };
        }
        const numbers = [...this.rows.keys()].filter((i) => this.wanted === "" || this.matches(this.rows[i], i));
        if (this.order === null) {
            return numbers;
        }
        const { column, descending } = this.order;
        const value = this.columns[column].value ?? this.columns[column].text;
        const values = new Map(numbers.map((i) => [i, value(this.rows[i], i)]));
        const sign = descending ? -1 : 1;
        return numbers.sort((a, b) => sign * compare(values.get(a), values.get(b)) || a - b);
    }

    matches(row, i) {
        return this.columns.some((column) => column.text(row, i).toLowerCase().includes(this.wanted));
    }

    /** Shows the first rows, or those at a place among the rows that are searched for. */
    draw(place = 0) {
        this.numbers = this.ordered();
        this.body.replaceChildren();
        if (this.numbers.length === 0) {
            this.body.append(el("tr", {}, el("td", { colspan: String(this.columns.length), class: "none" }, this.rows.length === 0 ? this.empty : "No row has this.")));
        }
        this.from = place < PART ? 0 : place - BEFORE;
        this.to = this.from;
        this.fillAfter(place);
    }

    /** Shows the next rows, at least up to a place. */
    fillAfter(place = 0) {
        const end = Math.min(this.to + PART, this.numbers.length);
        let characters = 0;
        while (this.to < end && (characters < MOST_CHARACTERS || this.to <= place)) {
            const line = this.line(this.to);
            characters += line.textContent.length;
            this.body.append(line);
            this.to += 1;
        }
        this.drawCount();
    }

    /** Shows the rows before those that are shown. */
    fillBefore() {
        const first = Math.max(0, this.from - PART);
        const lines = [];
        let characters = 0;
        while (this.from > first && characters < MOST_CHARACTERS) {
            this.from -= 1;
            lines.unshift(this.line(this.from));
            characters += lines[0].textContent.length;
        }
        this.body.prepend(...lines);
        this.drawCount();
    }

    drawCount() {
        const more = this.more.has();
        this.tools.hidden = this.rows.length < 2 && !more;
        this.before.hidden = this.from === 0;
        this.rest.hidden = this.to === this.numbers.length && !more;
        const shown = this.to - this.from;
        const all = `${this.rows.length.toLocaleString("en")}${more ? " or more" : ""}`;
        const part = shown === this.rows.length ? "" : `${shown.toLocaleString("en")} of `;
        this.count.textContent = this.rows.length === 1 ? "1 row" : `${part}${all} rows`;
    }

    /** Returns the element of the row at a place among those that are searched for. */
    line(place) {
        const i = this.numbers[place] ?? place;
        const row = this.rows[i];
        const cells = this.columns.map((column) => el("td", { class: column.class, title: hintOf(column, row, i) }, this.cell(column, row, i)));
        return el("tr", { class: i === this.marked ? "marked" : null, tabindex: "-1" }, ...cells);
    }

    cell(column, row, i) {
        const text = column.text(row, i);
        const go = column.go?.(row, i);
        if (go !== undefined && go !== null) {
            return button(text, go, { class: "link" });
        }
        return column.badge === undefined ? text : el("span", { class: `badge ${column.badge(row, i)}` }, text);
    }
}

/** Returns what is said of a cell beside it: the hint of its column, or a text that may be too long for the cell. */
function hintOf(column, row, i) {
    const text = column.text(row, i);
    return column.hint?.(row, i) ?? (text.length > LONG && column.class === undefined ? text : null);
}

/** Compares two values to sort by. What isn't there comes last. */
function compare(a, b) {
    if (a === null || b === null) {
        return (a === null ? 1 : 0) - (b === null ? 1 : 0);
    }
    if (typeof a === "number" && typeof b === "number") {
        return a - b;
    }
    return a < b ? -1 : a > b ? 1 : 0;
}
