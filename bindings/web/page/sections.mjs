// The sections of a canonical text, as lists of numbers. scene.mjs and branches.mjs draw what they list. It imports nothing.

/**
 * The rows of numbers of a section of a canonical text; none where it has no such section.
 *
 * @param {string} text
 * @param {string} section
 * @returns {number[][]}
 */
export function rowsOf(text, section) {
    const start = text.indexOf(`\n${section}\n`);
    if (start < 0) {
        return [];
    }
    const rest = text.slice(start + section.length + 2);
    const rows = rest.slice(0, rest.search(/^[A-Z]/m)).split("\n");
    return rows.filter((row) => row !== "").map((row) => row.split(" ").map(Number));
}

/**
 * The tours of the canonical text of a solution.
 *
 * @param {string} text
 * @returns {number[][]}
 */
export function toursOf(text) {
    /** @type {number[][]} */
    const tours = [];
    /** @type {number[]} */
    let tour = [];
    for (const [node] of rowsOf(text, "TOUR_SECTION")) {
        if (node === -1) {
            tours.push(tour);
            tour = [];
        } else {
            tour.push(node);
        }
    }
    return tours;
}

/**
 * The text of an answer of the library; empty where it is none.
 *
 * @param {import("../../javascript/answers.mjs").Answer} answer
 * @returns {string}
 */
export function textOfAnswer({ status, bytes }) {
    return status === 0 ? new TextDecoder().decode(bytes) : "";
}
