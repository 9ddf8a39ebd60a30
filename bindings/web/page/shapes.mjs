// What pictures are made of: shapes of SVG, and where the nodes of an instance are drawn. map.mjs, plots.mjs and tree.mjs make
// pictures; dom.mjs puts them into the document.

/**
 * @typedef {object} Shape
 * @property {string} name of the element
 * @property {Record<string, string | number>} attributes
 * @property {string} [text]
 *
 * @typedef {object} Picture
 * @property {number} width
 * @property {number} height
 * @property {[number, number, number, number]} box the part that is seen: its left and upper side, its width and height
 * @property {Shape[][]} layers from the lowest one up; a layer that is the same list as before needn't be drawn again
 *
 * @typedef {(node: number) => [number, number]} Place where a node is drawn
 *
 * @typedef {object} Layout
 * @property {Place} place
 * @property {number} width
 * @property {number} height
 */

/** What is left free at each side. */
export const MARGIN = 24;

/** A picture isn't narrower. */
const LEAST_WIDTH = 4 * MARGIN;

/**
 * The width of a picture; a page that isn't shown has no room.
 *
 * @param {number} room
 * @returns {number}
 */
export function widthIn(room) {
    return Math.max(room, LEAST_WIDTH);
}

/**
 * A picture that is seen as a whole.
 *
 * @param {number} width
 * @param {number} height
 * @param {Shape[]} shapes
 * @returns {Picture}
 */
export function wholePicture(width, height, shapes) {
    return { width, height, box: [0, 0, width, height], layers: [shapes] };
}

/**
 * @param {number} number
 * @returns {number} to a tenth
 */
export function round(number) {
    return Math.round(10 * number) / 10;
}

/**
 * @param {string} d
 * @param {string} words the classes
 * @returns {Shape}
 */
export function pathShape(d, words) {
    return { name: "path", attributes: { d, class: words } };
}

/**
 * @param {number} x
 * @param {number} y
 * @param {string} text
 * @param {string} words
 * @param {Record<string, string | number>} [more]
 * @returns {Shape}
 */
export function textShape(x, y, text, words, more = {}) {
    return { name: "text", attributes: { x: round(x), y: round(y), class: words, ...more }, text };
}

/**
 * Points: lines without length, whose round ends are drawn.
 *
 * @param {number[]} nodes
 * @param {Place} place
 * @param {string} words
 * @returns {Shape}
 */
export function dotsShape(nodes, place, words) {
    return pathShape(nodes.map((node) => `M${place(node).join(" ")}h0`).join(""), words);
}

/**
 * Lines between pairs of nodes.
 *
 * @param {[number, number][]} pairs
 * @param {Place} place
 * @param {string} words
 * @returns {Shape}
 */
export function linesShape(pairs, place, words) {
    return pathShape(pairs.map(([first, second]) => `M${place(first).join(" ")}L${place(second).join(" ")}`).join(""), words);
}

/**
 * How large the nodes are drawn.
 *
 * @param {number} nodes
 * @returns {string}
 */
export function sizeOf(nodes) {
    if (nodes <= 200) {
        return "large";
    }
    return nodes <= 5000 ? "middle" : "small";
}

/**
 * The colour of a route, as all programs for SVG read it: neighbours in the list are far apart on the wheel of colours.
 *
 * @param {number} at the number of the route, from 0
 * @returns {string}
 */
export function colourOf(at) {
    const hue = (210 + at * 137.508) % 360;
    const light = hue > 40 && hue < 190 ? 0.4 : 0.52; // (yellow and green seem lighter)
    const part = (/** @type {number} */ shift) => {
        const turn = (shift + hue / 30) % 12;
        return light - 0.62 * Math.min(light, 1 - light) * Math.max(-1, Math.min(turn - 3, 9 - turn, 1));
    };
    return `#${[0, 8, 4].map((shift) => Math.round(255 * part(shift)).toString(16).padStart(2, "0")).join("")}`;
}

/**
 * Where nodes are drawn: as large as fits, with y upwards.
 *
 * @param {Float64Array} points x and y of node 1, of node 2 and so on
 * @param {number} room
 * @returns {Layout}
 */
export function layOut(points, room) {
    const width = widthIn(room);
    const [left, right] = rangeOf(points, 0);
    const [low, high] = rangeOf(points, 1);
    const most = Math.min(Math.max(0.75 * width, 260), 640);
    const inside = width - 2 * MARGIN;
    const scale = Math.min(inside / (right - left || 1), (most - 2 * MARGIN) / (high - low || 1));
    const height = Math.ceil((high - low) * scale + 2 * MARGIN);
    const start = (width - (right - left) * scale) / 2;
    /** @type {Place} */
    const place = (node) => [
        round(start + (points[2 * node - 2] - left) * scale),
        round(height - MARGIN - (points[2 * node - 1] - low) * scale),
    ];
    return { place, width, height };
}

/**
 * The least and the largest coordinate.
 *
 * @param {Float64Array} points
 * @param {number} first 0 for x, 1 for y
 * @returns {[number, number]}
 */
function rangeOf(points, first) {
    let [least, largest] = [Infinity, -Infinity];
    for (let at = first; at < points.length; at += 2) {
        least = Math.min(least, points[at]);
        largest = Math.max(largest, points[at]);
    }
    return [least, largest];
}

/**
 * A function that makes its last result once, as long as it is asked for with the same arguments.
 *
 * @template {unknown[]} A
 * @template T
 * @param {(...given: A) => T} make
 * @returns {(...given: A) => T}
 */
export function once(make) {
    /** @type {{ given: A, made: T } | undefined} */
    let last;
    return (...given) => {
        if (!last || last.given.some((one, at) => one !== given[at])) {
            last = { given, made: make(...given) };
        }
        return last.made;
    };
}
