// Which file has the resource fork of which other file. The places and their order are those of `pef inspect`.

/** The kinds of files that may have their resource fork in another file. */
const ALONE = ["container", "other"];

/** Returns the places where the resource fork of a file may be, the first one first. */
export function companionPlaces(path) {
    const folders = path.split("/");
    const name = folders.pop();
    const here = folders.map((it) => `${it}/`).join("");
    const double = [`._${name}`, `__MACOSX/._${name}`, `.AppleDouble/${name}`];
    const beside = [...double, `.rsrc/${name}`, `${name}.rsrc`, `%${name}`, `resource.frk/${name}`, `.resource/${name}`];
    // Archives have one folder at their top, with the same folders as the archive.
    const above = folders.map((_, i) => [...folders.slice(0, i), "__MACOSX", ...folders.slice(i), `._${name}`].join("/"));
    return name.startsWith("._") ? [] : [...beside.map((it) => here + it), ...above.reverse()];
}

/** Returns files in groups that are read together: each file, and those that may have its resource fork. */
export function groupsOf(files) {
    const byPath = new Map(files.map((it) => [it.path, it]));
    const found = (it) => companionPlaces(it.path).map((place) => byPath.get(place)).filter((other) => other !== undefined);
    const beside = new Map(files.map((it) => [it, found(it)]));
    const others = new Set([...beside.values()].flat());
    const grouped = new Set();
    const groups = [];
    for (const file of [...files.filter((it) => !others.has(it)), ...others]) {
        const group = [file, ...beside.get(file)].filter((it) => !grouped.has(it));
        if (!grouped.has(file)) {
            group.forEach((it) => grouped.add(it));
            groups.push(group);
        }
    }
    return groups;
}

/** Joins the first file of a group with the first of the others that has a resource fork, if it may have one. */
export function join([file, ...others]) {
    const found = ALONE.includes(file.format) ? others.find((it) => it.hasResourceFork()) : undefined;
    if (found !== undefined) {
        file.takeCompanion(found);
    }
}
