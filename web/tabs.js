// Views of one thing in tabs, each drawn when it is first shown.
import { button, el } from "./dom.js";
import { Stop } from "./rove.js";

/** The tab that was chosen last in each kind of view. It stays when another thing of its kind is shown. */
const chosen = new Map();

export class Tabs {
    /** Each of `tabs` has a key, a label, and how it is drawn: as an element or several. The first one is shown, or the one chosen last. */
    constructor(label, tabs) {
        this.kind = label;
        this.tabs = tabs;
        this.drawn = new Set();
        this.buttons = tabs.map((it) => button(it.label, () => this.show(it.key), { role: "tab", tabindex: "-1", id: `tab-${it.key}`, "aria-controls": `panel-${it.key}`, "data-tab": it.key }));
        this.panels = tabs.map(({ key }) => el("div", { role: "tabpanel", id: `panel-${key}`, "aria-labelledby": `tab-${key}`, hidden: true }));
        const list = el("div", { role: "tablist", "aria-label": label, class: "tabs" }, ...this.buttons);
        this.stop = new Stop(list, "[role=tab]", (it) => this.show(it.dataset.tab));
        this.elements = [list, ...this.panels];
    }

    /** Shows the tab that was chosen last in views of this kind. */
    start() {
        const last = chosen.get(this.kind);
        this.show(this.tabs.some(({ key }) => key === last) ? last : this.tabs[0].key);
    }

    show(wanted) {
        chosen.set(this.kind, wanted);
        this.tabs.forEach(({ key, draw }, i) => {
            const isShown = key === wanted;
            this.buttons[i].setAttribute("aria-selected", String(isShown));
            this.panels[i].hidden = !isShown;
            if (isShown && !this.drawn.has(key)) {
                this.drawn.add(key);
                this.panels[i].append(...[draw()].flat());
            }
        });
        this.stop.rest(this.buttons.find((it) => it.dataset.tab === wanted));
    }

    relabel(wanted, label) {
        this.buttons[this.tabs.findIndex(({ key }) => key === wanted)].textContent = label;
    }
}
