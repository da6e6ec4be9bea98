// The certificates of a script that was linked: the lines that `pef distances` prints, folded by sections.
import { button, el, hint, save } from "./dom.js";
import * as text from "./text.js";

/** The last line of all certificates. */
const END = "end\n";

/** Of a certificate with more bytes the first ones are shown. */
const MOST_SHOWN = 1 << 16;

/** A certificate with more bytes is folded at first. */
const MOST_UNFOLDED = 1 << 12;

/** The first three lines of a certificate: its section, and how many fixups and halfwords it has. */
const HEAD = /^section (\d+)\nfixups (\d+)\nlength (\d+)\n/;

/** Returns the view of certificates: their lines, where each begins, or the error that there is in place of them. */
export function certificatesView({ lines, places, error }, name) {
    if (error !== null) {
        return [hint(`The certificates can't be made: ${error.number} ${error.name}. ${error.help}`)];
    }
    const words = "A certificate is for the relocation program of a section. It proves that no program without repeats makes the same fixups in fewer halfwords.";
    const saved = button("Save the certificates", () => save(`${name.replace(/\.pef$/, "")}.pefcert`, new Blob([lines])), { class: "saveCertificates", title: "The lines that pef distances prints, for pef check" });
    const ends = [...places.slice(1), lines.length - END.length];
    return [hint(words), el("div", { class: "tools" }, saved), ...places.map((at, i) => certificate(lines.subarray(at, ends[i])))];
}

/** Returns the part of the view for one certificate, by its bytes. */
function certificate(bytes) {
    const shown = new TextDecoder().decode(bytes.subarray(0, MOST_SHOWN));
    const [, section, fixups, length] = HEAD.exec(shown).map(Number);
    const label = `Section ${section}: ${text.counted(fixups, "fixup")}, ${text.counted(length, "halfword")}`;
    const rest = bytes.length > MOST_SHOWN ? hint(`Only the first ${text.counted(MOST_SHOWN, "character")} of ${bytes.length.toLocaleString("en")} are shown. Save the certificates to see all.`) : null;
    const open = fixups > 0 && bytes.length <= MOST_UNFOLDED;
    return el("details", { class: "certificate", open }, el("summary", {}, label), el("pre", { tabindex: "0", role: "region", "aria-label": `Certificate of section ${section}` }, shown), rest);
}
