// Files that are made of given ones, and judged in their place: weights of an instance of type GEO, and solutions of other
// programs. outcome.mjs asks for them, and the page saves them.

import { Status } from "../../javascript/codes.mjs";
import { withoutGeo } from "./geo.mjs";
import { textOfAnswer } from "./sections.mjs";

/**
 * @typedef {import("./command.mjs").Given} Given
 *
 * @typedef {object} Made a file that was made of a given one, and is judged in its place
 * @property {"instance" | "solution"} slot
 * @property {Given} given
 * @property {string} from the name of the given one
 * @property {string} form what the given one is
 */

/**
 * An instance of type GEO as one of weights.
 *
 * @param {Given} instance
 * @returns {Made | null}
 */
export function madeOfGeo({ name, bytes }) {
    const weights = withoutGeo(bytes);
    const given = weights && { name: `${name.replace(/\.\w+$/, "")}.weights.tsp`, bytes: weights };
    return given && { slot: "instance", given, from: name, form: "an instance of type GEO, whose distances are weights by TSPLIB's formula in doubles" };
}

/** A COMMENT that claims a length: one of TSPLIB's optimal tours, or the end of what LKH and `tsp solution` write. A year in
 * brackets behind other words claims nothing. */
const CLAIM =
    /(?:^[ \t]*Optim(?:al|um)[ \t]+(?:tour|solution)[ \t]+(?:for|of)[ \t]+[^ \t]+[ \t]*\(([-.\d]+)\)|(?:Length[ \t]*=|Cost[ \t]*:?)[ \t]*([-.\d]+))[ \t\r\f]*$/;

/**
 * The length that a text of TYPE TOUR claims in a COMMENT; null where none is whole.
 *
 * @param {Uint8Array} bytes
 * @returns {bigint | null}
 */
export function claimOf(bytes) {
    for (const [, comment] of new TextDecoder().decode(bytes).matchAll(/^[ \t]*COMMENT[ \t]*:(.*)$/gm)) {
        const [, inner, last] = CLAIM.exec(comment) ?? [];
        const [, whole] = /^(-?\d{1,18})(?:\.0*)?$/.exec(inner ?? last ?? "") ?? [];
        if (whole !== undefined) {
            return BigInt(whole);
        }
    }
    return null;
}

/**
 * The length that a solution claims itself; null where that doesn't count.
 *
 * @param {import("./command.mjs").Job} job
 * @param {Uint8Array} solution
 * @returns {bigint | null}
 */
export function ownClaimOf({ claimed, claims }, solution) {
    return claims && claimed === null ? claimOf(solution) : null;
}

/**
 * The solution of another program as a file of TYPE TOUR; null where it is one, or none that is known. The caution says why.
 *
 * @param {import("../../javascript/library.mjs").Library} library
 * @param {import("./command.mjs").Job} job
 * @param {Given | null} solution
 * @returns {{ made: Made | null, caution: string }}
 */
export function readOf(library, { instance, foreign }, solution) {
    if (solution === null || !foreign) {
        return { made: null, caution: "" };
    }
    const isTour = /^[ \t]*(?:TOUR_SECTION|TYPE[ \t]*:)/m.test(new TextDecoder().decode(solution.bytes));
    const { status, bytes } = library.solution(solution.bytes, instance?.bytes ?? new Uint8Array());
    const text = new TextDecoder().decode(bytes);
    // (a file of TYPE TOUR stays as it is, unless it has LKH-3's copies of the depot)
    if (isTour && (status !== Status.YES || text === textOfAnswer(library.convert(solution.bytes)))) {
        return { made: null, caution: "" };
    }
    const cut = isCutJson(solution.bytes) ? `${solution.name} begins as JSON, but ends inside of it: is the file cut off?` : "";
    if (status === Status.YES) {
        const name = `${solution.name.replace(/\.(?:sol|edges|cyc|csv|tsv|txt|json)$/i, "")}.tour`;
        const [, customers] = /^COMMENT : (Customer k of .*)$/m.exec(text) ?? [];
        const form = isTour ? "a tour of LKH-3, with copies of the depot" : ["another program's solution", customers].filter(Boolean).join(". ");
        return { made: { slot: "solution", given: { name, bytes }, from: solution.name, form }, caution: cut };
    }
    // (where it has no form, or the instance has a fault, the library explains the files as those of TSPLIB)
    const [, fault] = /^file 1: (line .*(?<!NoForm))\n$/.exec(text) ?? [];
    return { made: null, caution: cut || (fault ? `${solution.name} isn't read as another program's solution: ${fault}.` : "") };
}

/**
 * Whether a text begins as JSON, and ends before its brackets close.
 *
 * @param {Uint8Array} bytes
 * @returns {boolean}
 */
export function isCutJson(bytes) {
    const text = new TextDecoder().decode(bytes).replace(/"(?:[^"\\]|\\.)*"/g, '""');
    const opened = (text.match(/[[{]/g) ?? []).length - (text.match(/[\]}]/g) ?? []).length;
    return /^\s*[[{]/.test(text) && (opened > 0 || (text.match(/"/g) ?? []).length % 2 === 1);
}
