// Many elements as one stop of the keyboard, with the arrow keys between them.

/** How far a key moves. Home and End go to the first and the last element. */
const STEPS = { ArrowRight: 1, ArrowDown: 1, ArrowLeft: -1, ArrowUp: -1 };

/** Elements of a holder, of which only one can be reached by Tab. */
export class Stop {
    /** `selector` finds the elements. `moved` is called with the one that the keyboard moved to. */
    constructor(holder, selector, moved = () => {}) {
        this.holder = holder;
        this.selector = selector;
        this.moved = moved;
        holder.addEventListener("focusin", ({ target }) => target.matches(selector) && this.rest(target));
        holder.addEventListener("keydown", (event) => this.press(event));
    }

    /** Returns the elements that are shown. */
    shown() {
        return [...this.holder.querySelectorAll(this.selector)].filter((it) => it.closest("[hidden]") === null);
    }

    /** Lets Tab reach an element. Without one that is shown it is the same as before, or else the first one. */
    rest(wanted = null) {
        const shown = this.shown();
        const chosen = shown.includes(wanted) ? wanted : (shown.find((it) => it.tabIndex === 0) ?? shown[0]);
        for (const it of this.holder.querySelectorAll(`${this.selector}[tabindex="0"]`)) {
            it.tabIndex = -1;
        }
        if (chosen !== undefined) {
            chosen.tabIndex = 0;
        }
    }

    press(event) {
        const shown = this.shown();
        const here = shown.indexOf(event.target);
        const step = STEPS[event.key] ?? 0;
        if (here < 0 || event.ctrlKey || event.metaKey || event.altKey || (step === 0 && event.key !== "Home" && event.key !== "End")) {
            return;
        }
        event.preventDefault();
        const there = { Home: 0, End: shown.length - 1 }[event.key] ?? (here + step + shown.length) % shown.length;
        shown[there].focus();
        this.moved(shown[there]);
    }
}
