// The examples that the page can open by itself, also by a link that ends with `#example=NAME` or `#script=NAME`.
import { example } from "./example.js";
import { SCRIPTS } from "./scripts.js";

/** The examples: what each shows, and the scripts of which its files are linked, by the names of these. Without scripts, its file is there. */
export const EXAMPLES = {
    damaged: { label: "A damaged application" },
    memory: { label: "An application with two libraries", scripts: { app: "layered-app", Interface: "interface", Core: "core" } },
    missing: { label: "An application without its library", scripts: { user: "uses-stub" } },
};

/** Returns the files of an example as files that are given. `link` links a script. */
export async function exampleFiles(name, link) {
    const { scripts } = EXAMPLES[name];
    if (scripts === undefined) {
        return [example()];
    }
    const files = [];
    for (const [file, script] of Object.entries(scripts)) {
        files.push({ path: `${file}.pef`, file: new File([await link(SCRIPTS[script])], `${file}.pef`) });
    }
    return files;
}

/** Returns what a link asks for after its `#`: the name of an example, or of a script, or neither. */
export function askedFor(hash) {
    const words = new URLSearchParams(hash.replace(/^#/, ""));
    const example = words.get("example");
    const script = words.get("script");
    return { example: Object.hasOwn(EXAMPLES, example ?? "") ? example : null, script: Object.hasOwn(SCRIPTS, script ?? "") ? script : null };
}
