// A script in a text field: its first error is marked while it is typed, and it is linked to a container.
import { STOPPED } from "./client.js";
import { button, el, head, hint, save } from "./dom.js";
import { SCRIPTS } from "./scripts.js";

/** After how many milliseconds without a key the script is checked. */
const PAUSE = 150;

const START = "two-sections";

/** What was typed last. It stays when something else is shown. */
let last = null;

let lastName = START;

export class LinkView {
    /** `client` asks the worker, `open` opens the container of a script as a file, and `say` says something. */
    constructor(client, { open, say }) {
        this.client = client;
        this.open = open;
        this.say = say;
        this.checks = 0;
        this.examples = el("select", { "aria-label": "Examples" }, el("option", { value: "" }, "Take an example …"), ...Object.keys(SCRIPTS).map((it) => el("option", { value: it }, it)));
        this.examples.addEventListener("change", () => this.take(this.examples.value));
        this.name = el("input", { type: "text", "aria-label": "Name of the container", size: "20", value: lastName, spellcheck: "false", autocomplete: "off" });
        this.field = el("textarea", { "aria-label": "Script", "aria-describedby": "scriptError", id: "script", spellcheck: "false", autocomplete: "off", autocapitalize: "off", wrap: "off", rows: "20" });
        this.mark = el("span", { class: "wrong", hidden: true });
        this.error = el("div", { class: "scriptError", id: "scriptError", role: "status" });
        this.field.addEventListener("input", () => this.typed());
        this.field.addEventListener("scroll", () => this.placeMark());
        const tools = el("div", { class: "tools" }, this.examples, el("label", {}, "Name ", this.name), button("Link", () => this.link(), { id: "link", class: "main" }), button("Save the script", () => save(`${this.name.value}.pefscript`, new Blob([this.field.value]))));
        const words = "A script describes a container line by line. Its first error is marked while you type. Link it to see the container, its certificates, and what it becomes in memory.";
        this.element = el("article", { class: "linking" }, head("Link a script", []), hint(words), tools, this.error, el("div", { class: "editor" }, this.field, this.mark));
        this.field.value = last ?? SCRIPTS[START] ?? "";
        this.check();
    }

    /** Takes an example into the field. */
    take(name) {
        if (Object.hasOwn(SCRIPTS, name)) {
            this.field.value = SCRIPTS[name];
            this.name.value = name;
            this.typed();
            this.field.focus();
        }
    }

    typed() {
        // What is said of the script before isn't wanted any more.
        this.checks += 1;
        last = this.field.value;
        lastName = this.name.value;
        clearTimeout(this.timer);
        this.timer = setTimeout(() => this.check(), PAUSE);
    }

    /** Shows the first error of the script. */
    async check() {
        this.checks += 1;
        const number = this.checks;
        const isWanted = () => number === this.checks && this.element.isConnected;
        try {
            this.show(await this.client.ask({ name: "Checking the script" }, () => number === this.checks, "check", this.field.value));
        } catch (error) {
            if (isWanted()) {
                this.error.replaceChildren(`The script can't be checked: ${error.message}.`);
            }
        }
    }

    /** Links the script, and opens its container, or shows its error. */
    async link() {
        this.checks += 1;
        const number = this.checks;
        const script = this.field.value;
        this.client.stopAll();
        try {
            const { container, error } = await this.client.ask({ name: "Linking the script" }, () => number === this.checks, "link", script);
            this.show(error);
            if (container === null) {
                this.say(`The script isn't linked: ${error.number} ${error.name} in line ${error.line}.`);
                this.select();
            } else {
                this.open(`${this.name.value || "container"}.pef`, container, script);
            }
        } catch (error) {
            this.say(error.message === STOPPED ? "Linking was stopped." : `The script can't be linked: ${error.message}.`);
        }
    }

    /** Shows an error at its word, or that there is none. */
    show(error) {
        this.wrong = error === null ? null : this.wordOf(error);
        this.field.setAttribute("aria-invalid", String(error !== null));
        this.placeMark();
        if (error === null) {
            this.error.className = "scriptError good";
            this.error.replaceChildren("The script has no error.");
            return;
        }
        const earlier = error.earlier === 0 ? "" : ` The earlier line is ${error.earlier}.`;
        this.error.className = "scriptError bad";
        this.error.replaceChildren(
            el("strong", {}, `${error.number} ${error.name}, line ${error.line}, word ${error.word + 1}`), ` ${error.help}${earlier} `, button("Go to the word", () => this.select(), { class: "link" }),
        );
    }

    /** Returns the word of an error: where it is in the text, on which line, and from which column on. The error counts bytes. */
    wordOf({ offset }) {
        const before = new TextDecoder().decode(new TextEncoder().encode(this.field.value).subarray(0, offset));
        const start = before.length;
        const lineStart = before.lastIndexOf("\n") + 1;
        const length = /^[^ \n]*/.exec(this.field.value.slice(start))[0].length;
        return { start, length, line: before.split("\n").length - 1, column: start - lineStart };
    }

    /** Puts the mark under the word that is wrong. */
    placeMark() {
        this.mark.hidden = this.wrong === null || this.wrong === undefined;
        if (!this.mark.hidden) {
            const { line, column, length } = this.wrong;
            const { scrollTop, scrollLeft } = this.field;
            this.mark.style.setProperty("--line-number", String(line));
            this.mark.style.setProperty("--column", String(column));
            this.mark.style.setProperty("--length", String(Math.max(length, 1)));
            this.mark.style.transform = `translate(${-scrollLeft}px, ${-scrollTop}px)`;
        }
    }

    /** Selects the word that is wrong. */
    select() {
        if (this.wrong !== null && this.wrong !== undefined) {
            this.field.focus();
            this.field.setSelectionRange(this.wrong.start, this.wrong.start + Math.max(this.wrong.length, 0));
            const height = parseFloat(getComputedStyle(this.field).lineHeight);
            this.field.scrollTop = Math.max(0, (this.wrong.line - 4) * height);
        }
    }
}
