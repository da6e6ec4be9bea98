// What the user gives: files, and the files of folders that are dropped. Each is `{ path, file }`, or `{ path, why }` if it can't be read.

/** Returns the files that were chosen. */
export function chosenFiles(files) {
    return [...files].map((file) => ({ path: file.name, file }));
}

/** Returns what is dropped, in a promise. `onFound` is called with how many files were found so far. */
export async function droppedFiles({ items }, onFound) {
    let count = 0;
    const found = (it) => {
        count += 1;
        onFound(count);
        return [it];
    };
    // A drop has its items only until its event was handled.
    const entries = [...items].filter(({ kind }) => kind === "file").map((it) => it.webkitGetAsEntry?.() ?? it.getAsFile());
    return (await Promise.all(entries.map((it) => filesIn(it, found)))).flat();
}

/** Returns a file, or the files of a folder and of the folders in it. `found` makes a list of one. */
async function filesIn(entry, found) {
    if (entry instanceof File) {
        return found({ path: entry.name, file: entry });
    }
    const path = entry.fullPath.replace(/^\//, "");
    try {
        if (!entry.isDirectory) {
            return found({ path, file: await new Promise((resolve, reject) => entry.file(resolve, reject)) });
        }
        const entries = await entriesIn(entry);
        if (entries.length === 0) {
            return found({ path, why: "it is a folder with no files in it" });
        }
        return (await Promise.all(entries.map((it) => filesIn(it, found)))).flat();
    } catch (error) {
        return found({ path, why: error.message });
    }
}

/** Returns what is in a folder, by name. The browser gives it in parts, of which the last is empty. */
async function entriesIn(folder) {
    const reader = folder.createReader();
    const entries = [];
    for (;;) {
        const part = await new Promise((resolve, reject) => reader.readEntries(resolve, reject));
        if (part.length === 0) {
            return entries.sort((a, b) => (a.name < b.name ? -1 : 1));
        }
        entries.push(...part);
    }
}
