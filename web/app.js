// The page: files that are dropped or chosen, and what is in them.
import { certificatesView } from "./certificates.js";
import { Client } from "./client.js";
import { groupsOf, join } from "./companion.js";
import { ContainerView, uninspectedView } from "./container.js";
import { button, hint, save } from "./dom.js";
import { askedFor, exampleFiles } from "./examples.js";
import { Container, OpenFile } from "./files.js";
import { fileView, unreadableView } from "./fileview.js";
import { chosenFiles, droppedFiles } from "./given.js";
import { LinkView } from "./linkview.js";
import { FileList } from "./list.js";
import { Preparing } from "./preparing.js";
import * as text from "./text.js";
import { brokenView, welcomeView } from "./welcome.js";
import { Work } from "./work.js";

const IDS = ["files", "filter", "order", "list", "view", "prepare", "linkScript", "save", "saveAll", "status", "work", "pick", "lastMemory"];

const page = Object.fromEntries(IDS.map((it) => [it, document.getElementById(it)]));

/** After how many files the page says how far it is. */
const SOME = 50;

/** The files that are open, in the order of the list. */
const files = new Set();

/** The file that is shown, and which of its containers, by its offset. */
let chosen = null;

/** The view of the container that was shown last. */
let shownContainer = null;

/** How many choices the user has made. An answer to an older one isn't wanted. */
let choices = 0;

/** How many files were ever opened. */
let opened = 0;

/** The names of errors and notes and what they mean, by their numbers. */
let helps = [];

let said = "";

/** Says something to the user, also to one who doesn't see the page. */
function say(message) {
    said = message;
    page.status.textContent = message;
}

/** Returns a worker. `wordsOf` returns what is said of a request by its name. */
function workerOf(script, wordsOf) {
    const client = new Client(script, (name) => tell(name === null ? null : wordsOf(name), client), (step) => work.take(step));
    return client;
}

/** The worker that is heard, and what is said of it. */
let busy = null;

const work = new Work(page.work, () => busy?.stop());

/** Says what a worker does. */
function tell(words, client) {
    busy = words === null ? null : client;
    work.set(words);
    page.status.textContent = words ?? said;
}

const client = workerOf("worker.js", (name) => `Reading ${name}`);

const loader = workerOf("loader.js", (name) => name);

const list = new FileList({ panel: page.files, filter: page.filter, order: page.order, list: page.list }, { choose, remove });

const preparing = new Preparing(loader, { files: () => files, newChoice, display, say, choose, showByte, openExample: () => openExample("memory") });

function always() {
    return true;
}

/** Takes a choice of the user. Returns whether it is still the last one. */
function newChoice() {
    choices += 1;
    const number = choices;
    say("");
    return () => number === choices;
}

/** Adds files. The first one that can be read is shown at once, unless something else was chosen in the meantime. */
async function add(given) {
    const isWanted = newChoice();
    const added = given.map(({ path, file, why, script }) => {
        opened += 1;
        return Object.assign(new OpenFile(opened, path), { why: why ?? null, given: file, script: script ?? null });
    });
    let shown = null;
    for (const [i, group] of groupsOf(added).entries()) {
        if (isWanted() && added.length > 1 && i % SOME === 0) {
            say(i === 0 ? `Reading ${text.counted(added.length, "file")}` : `Reading: ${i.toLocaleString("en")} of ${text.counted(added.length, "file")}`);
        }
        await addGroup(group);
        const first = group.find(({ why }) => why === null);
        if (shown === null && isWanted() && first !== undefined) {
            shown = show(first, isWanted);
        }
        for (const file of group) {
            await count(file);
        }
    }
    list.draw();
    if (shown === null && isWanted()) {
        shown = show(added[0], isWanted);
    }
    if (added.some(({ why }) => why !== null) || (isWanted() && (await shown))) {
        say(summary(added));
    }
}

/** Reads files, and lists them. One of them may have the resource fork of the first. */
async function addGroup(group) {
    for (const file of group) {
        await read(file);
    }
    if (group[0].why === null) {
        join(group);
    }
    for (const file of group) {
        files.add(file);
        if (file.owner === null) {
            list.add(file);
        }
    }
    page.saveAll.disabled &&= group.every(({ why }) => why !== null);
}

/** Reads a file, or keeps why it can't be read. */
async function read(file) {
    if (file.why !== null) {
        return;
    }
    try {
        file.take(await client.ask(file, always, "open", file.number, file.given, file.path));
    } catch (error) {
        file.why = `${error.message.replace(/\.$/, "")} (${text.counted(file.given.size, "byte")})`;
    }
}

/** Counts the errors and notes of a file, so that its row has them. */
async function count(file) {
    while (file.why === null && !file.isClosed && !file.isCounted()) {
        try {
            file.takeCount(await client.ask(file, always, "count", file.counted.length));
        } catch {
            // There is too little memory to look into a container, or it was stopped.
            file.giveUpCounting();
        }
        list.update(file);
        page.view.firstElementChild?.dispatchEvent(new CustomEvent("counted", { detail: file }));
    }
}

/** Returns what is said of files that were added. */
function summary(added) {
    const bad = added.filter(({ why }) => why !== null);
    const good = added.filter(({ why }) => why === null);
    const first = good.length === 1 ? `${good[0].name} was read.` : `${text.counted(good.length, "file")} were read.`;
    const lost = bad.length === 1 ? `${bad[0].path} can't be read: ${bad[0].why}.` : `${text.counted(bad.length, "file")} can't be read: the list says why.`;
    return [good.length > 0 ? first : "", bad.length > 0 ? lost : ""].join(" ").trim();
}

function readable() {
    return [...files].filter(({ why }) => why === null);
}

/** Shows a file, or one of its containers by its offset, as the user asks for. */
function choose(file, place) {
    return show(file, newChoice(), place);
}

/** Shows a view that is of no file. */
function display(view) {
    chosen = null;
    list.mark(null, null);
    page.save.disabled = true;
    page.lastMemory.hidden = preparing.last === null;
    page.lastMemory.textContent = preparing.last?.label ?? "";
    page.view.replaceChildren(view);
    page.view.focus({ preventScroll: true });
    window.scrollTo(0, 0);
}

/** Shows the byte at an offset of a file in the view of a container. */
async function showByte(file, place, offset) {
    const isWanted = newChoice();
    if ((await show(file, isWanted, place)) && isWanted()) {
        shownContainer?.goTo(offset);
    }
}

/** Shows a file, or one of its containers by its offset. Returns whether it can be shown. */
async function show(file, isWanted, place = file.mainPlace()) {
    chosen = { file, place };
    list.mark(file, place);
    page.save.disabled = file.why !== null;
    const shown = await viewOf(file, place, isWanted);
    if (shown !== null && isWanted()) {
        page.view.replaceChildren(shown);
    }
    return shown !== null;
}

/** Returns the view of a file or of a container, or null if it can't be read. */
async function viewOf(file, place, isWanted) {
    if (file.why !== null) {
        return unreadableView(file);
    }
    return place === null ? fileView(file, { choose, prepare: () => preparing.showOffers(), helps }) : containerView(file, place, isWanted);
}

/** Returns the view of a container, or null if it can't be read. */
async function containerView(file, place, isWanted) {
    const ask = async (call, ...words) => {
        try {
            return await client.ask(file, isWanted, call, ...words);
        } catch (error) {
            say(`${file.name} can't be read: ${error.message}`);
            return null;
        }
    };
    const k = file.containerAt(place);
    const answer = await ask("container", k);
    if (answer === null) {
        return null;
    }
    if (answer.container === null) {
        const bytes = file.bytes.subarray(place, place + answer.rest);
        return uninspectedView({ offset: place, bytes }, title(file, place), toolsOf(file, place, () => bytes));
    }
    const container = new Container(file, k, answer, ask);
    const tools = toolsOf(file, place, () => container.ownBytes());
    const certificates = file.script === null ? null : () => certificatesOf(file, isWanted);
    shownContainer = new ContainerView(container, title(file, place), { helps, tools, certificates });
    return shownContainer.element;
}

/** Returns the view of the certificates of the script that a file was linked from. */
async function certificatesOf(file, isWanted) {
    try {
        const made = await loader.ask({ name: `Making the certificates of ${file.name}` }, isWanted, "certify", file.script);
        return certificatesView(made, file.name);
    } catch (error) {
        return [hint(`The certificates can't be made: ${error.message}.`)];
    }
}

/** Returns what can be done with a container. */
function toolsOf(file, place, bytesOf) {
    const saveAs = () => save(`${file.name}-${text.at(place)}.pef`, new Blob([bytesOf()]));
    return [
        button("Prepare", () => preparing.prepareAt(file, place), { class: "main", title: "Show the memory that it becomes" }),
        button("Show the file", () => choose(file, null)),
        button("Save the container", saveAs, { class: "saveContainer" }),
    ];
}

/** Returns the title of a container: the name of the fragment in it, if one is, and where it is. */
function title(file, place) {
    const fragment = file.fragmentAt.get(place);
    const where = file.places.length === 1 && place === 0 ? file.name : `${file.name}, container at ${text.at(place)}`;
    return fragment === undefined ? where : `${text.nameOf(fragment)} (${where})`;
}

/** Takes a file out of the page, with the file that has its resource fork, and shows the next one. */
function remove(file) {
    for (const it of [file, file.companion].filter((it) => it !== null)) {
        it.isClosed = true;
        files.delete(it);
        client.ask(it, always, "close", it.number);
    }
    const beside = list.drop(file);
    page.saveAll.disabled = readable().length === 0;
    if (![file, file.companion].includes(chosen?.file)) {
        return;
    }
    if (beside !== null) {
        choose(beside, beside.mainPlace());
        return;
    }
    newChoice();
    chosen = null;
    page.save.disabled = true;
    page.view.replaceChildren(welcomeView(openExample));
    page.pick.focus();
}

/** Opens the files of an example. That with memory is prepared. */
async function openExample(name) {
    try {
        const given = await exampleFiles(name, async (script) => (await loader.ask({ name: "Linking the example" }, always, "link", script)).container);
        await add(given);
        const [first] = [...files].slice(-given.length);
        if (name !== "damaged") {
            preparing.prepareAt(first, 0);
        }
    } catch (error) {
        say(`The example can't be opened: ${error.message}.`);
    }
}

/** Shows the text field for scripts, with one of the examples if it is named. */
function showLink(script = null) {
    newChoice();
    const view = new LinkView(loader, { open: (path, bytes, script) => add([{ path, file: new File([bytes], path), script }]), say });
    display(view.element);
    view.take(script);
}

/** Opens what the page's address asks for. */
function followAddress() {
    const { example, script } = askedFor(window.location.hash);
    if (example !== null) {
        openExample(example);
    } else if (script !== null) {
        showLink(script);
    }
}

/** Saves what is known of the chosen file. */
async function saveJson() {
    const { file } = chosen;
    try {
        save(`${file.name}.json`, await client.ask(file, always, "save"));
        say(`The JSON of ${file.name} was made.`);
    } catch (error) {
        say(`The JSON of ${file.name} can't be made: ${error.message}`);
    }
}

/** Saves what is known of all files, each on a line of its own. */
async function saveAll() {
    const lines = [];
    const failed = [];
    for (const file of readable()) {
        try {
            lines.push(await client.ask(file, always, "save"));
        } catch (error) {
            failed.push(`${file.name} (${error.message})`);
        }
    }
    save("files.jsonl", new Blob(lines, { type: "application/jsonl" }));
    say(`The JSON of ${text.counted(lines.length, "file")} was made.${failed.length === 0 ? "" : ` It can't be made of ${failed.join(", ")}.`}`);
}

/** Takes files that are dropped anywhere on the page, also while the module is loaded. Otherwise the browser would leave the page. */
function takeDrops() {
    document.addEventListener("dragover", (event) => {
        event.preventDefault();
        document.body.classList.toggle("dragging", event.dataTransfer.types.includes("Files"));
    });
    document.addEventListener("dragleave", (event) => {
        if (event.relatedTarget === null) {
            document.body.classList.remove("dragging");
        }
    });
    document.addEventListener("drop", async (event) => {
        event.preventDefault();
        document.body.classList.remove("dragging");
        if (document.body.dataset.ready === "false") {
            return;
        }
        const given = await droppedFiles(event.dataTransfer, (count) => say(`${text.counted(count, "file")} found.`));
        if (given.length === 0) {
            say("Nothing that was dropped is a file.");
        } else {
            add(given);
        }
    });
}

async function start() {
    takeDrops();
    try {
        helps = await client.ask(null, always, "start");
    } catch (error) {
        page.view.replaceChildren(brokenView(error.message));
        document.body.dataset.ready = "false";
        return;
    }
    if (chosen === null) {
        page.view.replaceChildren(welcomeView(openExample));
    }
    page.pick.disabled = false;
    page.prepare.disabled = false;
    page.linkScript.disabled = false;
    page.pick.addEventListener("change", () => {
        if (page.pick.files.length > 0) {
            add(chosenFiles(page.pick.files));
        }
        page.pick.value = "";
    });
    page.save.addEventListener("click", saveJson);
    page.saveAll.addEventListener("click", saveAll);
    page.prepare.addEventListener("click", () => preparing.showOffers());
    page.linkScript.addEventListener("click", () => showLink());
    page.lastMemory.addEventListener("click", () => preparing.showLast());
    window.addEventListener("hashchange", followAddress);
    document.body.dataset.ready = "true";
    followAddress();
}

start();
