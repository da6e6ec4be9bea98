// What relocation programs add to the words of a section, by the offsets of the words.

/** How many numbers an addition has: the offset of a word, the kind of what is added to it, and the number of that. */
const PARTS = 3;

/** Additions in rising order of their words. Several may be to one word, and stay in their order. There may be a million. */
export class Additions {
    constructor(numbers = new Float64Array(0)) {
        this.numbers = inOrder(numbers);
        this.length = numbers.length / PARTS;
        /** How many different words there are. */
        this.words = 0;
        for (let i = 0; i < this.length; i += 1) {
            this.words += i === 0 || this.offset(i) !== this.offset(i - 1) ? 1 : 0;
        }
    }

    offset(i) {
        return this.numbers[PARTS * i];
    }

    row(i) {
        const [offset, kind, number] = this.numbers.subarray(PARTS * i, PARTS * (i + 1));
        return { offset, kind, number };
    }

    /** Returns up to `most` of the additions, from the first one on. */
    rows(most) {
        return Array.from({ length: Math.min(most, this.length) }, (_, i) => this.row(i));
    }

    /** Returns the number of the first addition to a word at or after an offset. */
    from(offset) {
        let low = 0;
        let high = this.length;
        while (low < high) {
            const middle = (low + high) >> 1;
            if (this.offset(middle) < offset) {
                low = middle + 1;
            } else {
                high = middle;
            }
        }
        return low;
    }

    /** Returns the additions to the words from an offset on and before another one, but no more than `most`. */
    between(offset, end, most = Infinity) {
        const first = this.from(offset);
        return Array.from({ length: Math.min(this.from(end) - first, most) }, (_, i) => this.row(first + i));
    }

    /** Returns the offset of the word that has the byte at an offset, or null if it isn't in a word that is relocated. */
    wordOf(offset) {
        const i = this.from(offset - 3);
        return i < this.length && this.offset(i) <= offset ? this.offset(i) : null;
    }

    /** Returns the offset of the first word after an offset, or null. */
    next(offset) {
        const i = this.from(offset + 1);
        return i < this.length ? this.offset(i) : null;
    }

    /** Returns the offset of the last word before an offset, or null. */
    last(offset) {
        const i = this.from(offset) - 1;
        return i >= 0 ? this.offset(i) : null;
    }
}

/** Returns additions in the order of their words. Most programs make them in this order. */
function inOrder(numbers) {
    const length = numbers.length / PARTS;
    const offset = (i) => numbers[PARTS * i];
    let isSorted = true;
    for (let i = 1; i < length; i += 1) {
        isSorted &&= offset(i - 1) <= offset(i);
    }
    if (isSorted) {
        return numbers;
    }
    const order = Uint32Array.from({ length }, (_, i) => i).sort((a, b) => offset(a) - offset(b) || a - b);
    const sorted = new Float64Array(numbers.length);
    order.forEach((from, to) => sorted.set(numbers.subarray(PARTS * from, PARTS * (from + 1)), PARTS * to));
    return sorted;
}
