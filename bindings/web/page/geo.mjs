// Instances of type GEO as instances of weights, by TSPLIB's formula in doubles. The library doesn't read GEO, whose
// distances need cosines; examples/geo.py does the same. outcome.mjs asks for it. It imports nothing.

const PI = 3.141592;
const RADIUS = 6378.388;

/** A matrix of weights is read for so many nodes at most. */
const MOST_NODES = 5000;

/** The keywords whose lines are written anew. */
const REPLACED = /^[ \t]*(?:EDGE_WEIGHT_TYPE|EDGE_WEIGHT_FORMAT|NODE_COORD_TYPE|DISPLAY_DATA_TYPE)[ \t]*:/;

/** The sections whose words are written anew, or left out. */
const LISTS = /^[ \t]*(NODE_COORD_SECTION|DISPLAY_DATA_SECTION)[ \t]*:?[ \t\r]*$/;

/**
 * An instance of type GEO as one of weights, with its places for a drawing; null where it is another one, or isn't whole. All
 * other lines stay, so that an unknown keyword is still one.
 *
 * @param {Uint8Array} bytes
 * @returns {Uint8Array | null}
 */
export function withoutGeo(bytes) {
    const text = new TextDecoder().decode(bytes);
    const value = (/** @type {string} */ keyword) => new RegExp(`^[ \\t]*${keyword}[ \\t]*:[ \\t]*(.*?)[ \\t\\r]*$`, "m").exec(text)?.[1];
    const nodes = Number(value("DIMENSION"));
    if (value("EDGE_WEIGHT_TYPE") !== "GEO" || !(nodes >= 1 && nodes <= MOST_NODES)) {
        return null;
    }
    const words = numbersIn(text, "NODE_COORD_SECTION").slice(0, 3 * nodes);
    const places = new Map(Array.from({ length: nodes }, (_, at) => [Number(words[3 * at]), [words[3 * at + 1], words[3 * at + 2]]]));
    const all = Array.from({ length: nodes }, (_, at) => at + 1);
    if (words.length < 3 * nodes || all.some((node) => !places.get(node)?.every((word) => Number.isFinite(Number(word))))) {
        return null;
    }
    const head = ["EDGE_WEIGHT_TYPE : EXPLICIT", "EDGE_WEIGHT_FORMAT : UPPER_ROW", "DISPLAY_DATA_TYPE : TWOD_DISPLAY"];
    const lists = [
        ...head,
        "DISPLAY_DATA_SECTION",
        ...all.map((node) => `${node} ${places.get(node)?.[1]} ${places.get(node)?.[0]}`), // (longitude to the right)
        "EDGE_WEIGHT_SECTION",
        ...rowsOfWeights(all.map((node) => (places.get(node) ?? []).map((word) => radians(Number(word))))),
    ];
    return new TextEncoder().encode(linesWith(text.split("\n"), lists).join("\n"));
}

/**
 * The lines of an instance, with others in the place of its points.
 *
 * @param {string[]} lines
 * @param {string[]} lists
 * @returns {string[]}
 */
function linesWith(lines, lists) {
    /** @type {string[]} */
    const kept = [];
    let isInside = false;
    for (const line of lines) {
        const [, section] = LISTS.exec(line) ?? [];
        isInside = section !== undefined || (isInside && /^[ \t]*[-+.\d]|^[ \t\r]*$/.test(line));
        if (section === "NODE_COORD_SECTION") {
            kept.push(...lists);
        } else if (!isInside && !REPLACED.test(line)) {
            kept.push(line.trim());
        }
    }
    return kept;
}

/**
 * The words of a section, up to one that is no number.
 *
 * @param {string} text
 * @param {string} section
 * @returns {string[]}
 */
function numbersIn(text, section) {
    const [, rest = ""] = new RegExp(`^[ \\t]*${section}[ \\t\\r]*\\n([^]*)`, "m").exec(text) ?? [];
    const words = rest.split(/\s+/).filter((word) => word !== "");
    const end = words.findIndex((word) => !Number.isFinite(Number(word)));
    return end < 0 ? words : words.slice(0, end);
}

/**
 * The distances to the nodes behind each.
 *
 * @param {number[][]} angles latitude and longitude of each node
 * @returns {string[]}
 */
function rowsOfWeights(angles) {
    return angles.slice(0, -1).map((from, at) => angles.slice(at + 1).map((to) => distance(from, to)).join(" "));
}

/**
 * The angle of a coordinate DDD.MM, degrees and minutes.
 *
 * @param {number} coordinate
 * @returns {number}
 */
function radians(coordinate) {
    const degrees = Math.trunc(coordinate);
    return (PI * (degrees + (5.0 * (coordinate - degrees)) / 3.0)) / 180.0;
}

/**
 * The distance of two points in kilometres.
 *
 * @param {number[]} from
 * @param {number[]} to
 * @returns {number}
 */
function distance(from, to) {
    const [q1, q2, q3] = [Math.cos(from[1] - to[1]), Math.cos(from[0] - to[0]), Math.cos(from[0] + to[0])];
    return Math.trunc(RADIUS * Math.acos(0.5 * ((1.0 + q1) * q2 - (1.0 - q1) * q3)) + 1.0);
}
