// What a file is for, as its beginning and its name say: instance, solution or certificate. For page.mjs, which puts the
// file into that field; the library judges what the file is.

import { By } from "../../javascript/codes.mjs";

/** The line with the TYPE is looked for in so many bytes. */
const LOOKED_AT = 65536;

/** @type {Record<string, { slot: Slot, by?: number }>} */
const OF_TYPES = {
    TSP: { slot: "instance" },
    ATSP: { slot: "instance" },
    CVRP: { slot: "instance" },
    TOUR: { slot: "solution" },
    POTENTIALS: { slot: "certificate", by: By.POTENTIALS },
    BRANCHES: { slot: "certificate", by: By.BRANCHES },
};

/** @type {Record<string, string>} */
const OF_ENDS = { tour: "TOUR", sol: "TOUR", edges: "TOUR", cyc: "TOUR", potentials: "POTENTIALS", pi: "POTENTIALS", branches: "BRANCHES" };

/**
 * @typedef {"instance" | "solution" | "certificate"} Slot
 */

/** @type {Record<Slot, string>} */
const CALLED = { instance: "instance", solution: "tour", certificate: "certificate" };

/**
 * What a file is for, and for a certificate how it gives a bound.
 *
 * @param {string} name
 * @param {Uint8Array} bytes
 * @returns {{ slot: Slot, by?: number }}
 */
export function roleOf(name, bytes) {
    const start = new TextDecoder().decode(bytes.subarray(0, LOOKED_AT));
    const type = typeIn(start);
    const end = name.slice(name.lastIndexOf(".") + 1).toLowerCase();
    return OF_TYPES[type] ?? OF_TYPES[OF_ENDS[end] ?? (isForeign(start) ? "TOUR" : "TSP")];
}

/**
 * The TYPE that the first lines of a file say; empty where they say none.
 *
 * @param {string} start
 * @returns {string}
 */
function typeIn(start) {
    return /^[ \t]*TYPE[ \t]*:[ \t]*(\w+)/m.exec(start)?.[1] ?? "";
}

/**
 * What is wrong with the kinds of files in their slots, in words; empty where nothing is.
 *
 * @param {Record<Slot, { name: string, bytes: Uint8Array } | null>} given
 * @returns {string}
 */
export function misplaced(given) {
    const slots = /** @type {Slot[]} */ (Object.keys(given));
    const wrong = slots.flatMap((slot) => {
        const file = given[slot];
        const type = file ? typeIn(new TextDecoder().decode(file.bytes.subarray(0, LOOKED_AT))) : "";
        const wanted = OF_TYPES[type]?.slot ?? slot;
        return file && wanted !== slot ? [{ wanted, slot, words: `${file.name} is of TYPE ${type}, which is no ${CALLED[slot]}` }] : [];
    });
    const areExchanged = wrong.some(({ slot, wanted }) => wrong.some((other) => other.slot === wanted && other.wanted === slot));
    return wrong.length === 0 ? "" : `${wrong.map(({ words }) => words).join(", and ")}.${areExchanged ? " Are the two exchanged?" : ""}`;
}

/**
 * Whether a text without a TYPE begins as solutions of other programs do: with a number, a list, a route, or the names
 * of columns.
 *
 * @param {string} start
 * @returns {boolean}
 */
function isForeign(start) {
    const [first, second = ""] = start.trimStart().split(/\r?\n/, 2);
    const isTable = /^["'a-z_][^:]*$/i.test(first) && !first.includes("_SECTION") && /^[ \t]*\d/.test(second);
    return isTable || /^\s*(?:\d|\[|\{|route\b[^:]*:)|\(#\d+\)/i.test(start);
}
