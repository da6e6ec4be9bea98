// What is said of work that takes long: what it is about, how far it is, for how long, and a button to stop it.
import { button, el } from "./dom.js";

/** After how many milliseconds the work has a place of its own on the page. */
const LONG = 1000;

const SECOND = 1000;

export class Work {
    /** `place` is the element for it. `stop` is called when the user stops the work. */
    constructor(place, stop) {
        this.place = place;
        this.words = el("span");
        this.bar = el("progress", { "aria-label": "Progress" });
        place.append(this.words, this.bar, button("Stop", stop, { id: "stop" }));
        this.name = null;
    }

    /** Says what the work is about, or `null` when it ends. */
    set(name) {
        clearInterval(this.timer);
        this.name = name;
        this.step = null;
        this.place.hidden = true;
        if (name !== null) {
            this.since = performance.now();
            this.timer = setInterval(() => this.draw(), SECOND / 4);
        }
    }

    /** Takes how far the work is. */
    take(step) {
        this.step = step;
    }

    draw() {
        const passed = performance.now() - this.since;
        this.place.hidden = passed < LONG;
        const far = this.step === null ? "" : `, ${this.step.what} ${this.step.done.toLocaleString("en")} of ${this.step.all.toLocaleString("en")}`;
        this.words.textContent = `${this.name}${far}, ${Math.floor(passed / SECOND)} s`;
        if (this.step === null) {
            this.bar.removeAttribute("value");
        } else {
            Object.assign(this.bar, { max: this.step.all, value: this.step.done });
        }
    }
}
