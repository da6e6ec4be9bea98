// Elements of the page. Text from a file only ever becomes the text of an element, and never markup.

/** Returns an element with some properties and children. Strings become text. */
export function el(name, properties = {}, ...children) {
    const made = document.createElement(name);
    for (const [key, value] of Object.entries(properties)) {
        if (key.startsWith("on")) {
            made.addEventListener(key.slice(2), value);
        } else if (value === true) {
            made.setAttribute(key, "");
        } else if (value !== false && value !== null && value !== undefined) {
            made.setAttribute(key, value);
        }
    }
    made.append(...children.filter((child) => child !== null && child !== undefined));
    return made;
}

/** Returns an element of SVG. */
export function svg(name, attributes = {}, ...children) {
    const made = document.createElementNS("http://www.w3.org/2000/svg", name);
    for (const [key, value] of Object.entries(attributes)) {
        if (key.startsWith("on")) {
            made.addEventListener(key.slice(2), value);
        } else {
            made.setAttribute(key, value);
        }
    }
    made.append(...children);
    return made;
}

/** Returns a button. */
export function button(label, onclick, properties = {}) {
    return el("button", { type: "button", onclick, ...properties }, label);
}

/** Returns a list of terms and what they are. */
export function terms(pairs) {
    const list = el("dl", { class: "terms" });
    for (const [term, value] of pairs) {
        list.append(el("div", {}, el("dt", {}, term), el("dd", {}, value)));
    }
    return list;
}

/** Returns the title of a view, with the buttons beside it. */
export function head(title, tools) {
    return el("div", { class: "head" }, el("h2", {}, title), el("div", { class: "tools" }, ...tools));
}

export function hint(...words) {
    return el("p", { class: "hint" }, ...words);
}

/** Returns an element for parts that are promised. It is busy until they are there. */
export function later(promised) {
    const place = el("div", { "aria-busy": "true" });
    promised.then((parts) => {
        place.removeAttribute("aria-busy");
        place.append(...parts);
    });
    return place;
}

/** Offers a blob as a file to be saved. */
export function save(name, blob) {
    const url = URL.createObjectURL(blob);
    const link = el("a", { href: url, download: name });
    document.body.append(link);
    link.click();
    link.remove();
    setTimeout(() => URL.revokeObjectURL(url), 10000);
}
