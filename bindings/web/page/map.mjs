// The drawing of a scene (scene.mjs): nodes, tours or routes, what a reason is about, the edges in which two solutions differ,
// and the families and decisions of a certificate of branches. drawing.mjs asks for it.

import { colourOf, dotsShape, layOut, linesShape, once, pathShape, sizeOf } from "./shapes.mjs";
import { boxOf } from "./zoom.mjs";

/**
 * @typedef {import("./shapes.mjs").Shape} Shape
 * @typedef {import("./shapes.mjs").Place} Place
 * @typedef {import("./scene.mjs").Scene} Scene
 *
 * @typedef {object} Look how a scene is looked at
 * @property {number} room the width that there is
 * @property {string} kind of a tour: yes, no or plain
 * @property {import("./zoom.mjs").Zoom} zoom
 * @property {number | null} route that is picked, from 0
 * @property {{ nodes: number[], isTooth: boolean }[]} sets of the families that are shown
 * @property {import("./branches.mjs").Decision[]} decisions of the leaf that is shown
 */

/** So many nodes have their numbers beside them at most, and one for so many pixels of the width. */
const [MOST_LABELS, PIXELS_OF_LABEL] = [60, 10];

/** Tours of more nodes are drawn in parts of so many, since a browser paints one long line very slowly. */
const PART = 1000;

/** The same layout, and the same lowest layer, as long as only the zoom or what is picked changes. */
const layoutOf = once(layOut);
const groundOf = once(groundShapes);

/**
 * The drawing of a scene.
 *
 * @param {Scene} scene
 * @param {Look} look
 * @returns {import("./shapes.mjs").Picture}
 */
export function pictureOf(scene, look) {
    const layout = layoutOf(scene.points, look.room);
    const box = boxOf(look.zoom, layout);
    const above = [
        ...pickedShapes(scene, look.route, layout.place),
        ...differenceShapes(scene, layout.place),
        ...look.sets.map((set) => hullShape(set, layout.place)),
        ...decisionShapes(look.decisions, layout.place),
        ...depotShapes(scene.depot, layout.place, 1 / look.zoom.scale),
        ...markShapes(scene, layout.place, 1 / look.zoom.scale),
        ...labelShapes(scene, layout, box, 1 / look.zoom.scale),
    ];
    return { width: layout.width, height: layout.height, box, layers: [groundOf(scene, layout, look.kind), above] };
}

/**
 * Nodes, tours and fixed edges.
 *
 * @param {Scene} scene
 * @param {import("./shapes.mjs").Layout} layout
 * @param {string} kind
 * @returns {Shape[]}
 */
function groundShapes(scene, { place }, kind) {
    const nodes = scene.points.length / 2;
    const all = Array.from({ length: nodes }, (_, at) => at + 1);
    const hasColours = scene.depot !== null && !scene.other;
    return [
        ...scene.tours.flatMap((tour, at) => tourShapes(tour, place, tourWords(scene, at, kind)).map((shape) => (hasColours ? inColour(shape, at) : shape))),
        ...(scene.fixed.length > 0 ? [linesShape(scene.fixed, place, "fixed")] : []),
        dotsShape(all, place, `nodes ${sizeOf(nodes)}`),
        dotsShape(scene.missing, place, `missing ${sizeOf(nodes)}`),
    ];
}

/**
 * @param {number[]} tour
 * @param {Place} place
 * @param {string} words
 * @returns {Shape[]}
 */
function tourShapes(tour, place, words) {
    const points = tour.map((node) => place(node).join(" "));
    if (tour.length <= 2 * PART) {
        return [pathShape(tour.length === 0 ? "" : `M${points.join("L")}Z`, words)];
    }
    const starts = Array.from({ length: Math.ceil(tour.length / PART) }, (_, at) => at * PART);
    const parts = starts.map((start) => [...points.slice(start, start + PART), points[(start + PART) % points.length]]);
    parts[parts.length - 1] = [...points.slice(starts[starts.length - 1]), points[0]];
    return parts.map((part) => pathShape(`M${part.join("L")}`, `${words} part`));
}

/**
 * @param {Scene} scene
 * @param {number} at the number of the tour, from 0
 * @param {string} kind
 * @returns {string}
 */
function tourWords(scene, at, kind) {
    if (scene.other) {
        return "tour shared";
    }
    return `tour ${scene.depot === null ? kind : "route"}${scene.marks.route === at + 1 ? " marked" : ""}`;
}

/**
 * A shape in the colour of a route.
 *
 * @param {Shape} shape
 * @param {number} route from 0
 * @returns {Shape}
 */
function inColour(shape, route) {
    return { ...shape, attributes: { ...shape.attributes, stroke: colourOf(route) } };
}

/**
 * The route that is picked, in its colour.
 *
 * @param {Scene} scene
 * @param {number | null} route
 * @param {Place} place
 * @returns {Shape[]}
 */
function pickedShapes(scene, route, place) {
    if (route === null || route >= scene.tours.length) {
        return [];
    }
    return tourShapes(scene.tours[route], place, "picked").map((shape) => inColour(shape, route));
}

/**
 * The edges that only one of two solutions has.
 *
 * @param {Scene} scene
 * @param {Place} place
 * @returns {Shape[]}
 */
function differenceShapes({ other }, place) {
    return other ? [linesShape(other.gone, place, "edge gone"), linesShape(other.own, place, "edge own")] : [];
}

/**
 * A set of a family: the least convex shape around its nodes.
 *
 * @param {{ nodes: number[], isTooth: boolean }} set
 * @param {Place} place
 * @returns {Shape}
 */
function hullShape({ nodes, isTooth }, place) {
    const corners = hullOf(nodes.map(place));
    return pathShape(`M${corners.map((corner) => corner.join(" ")).join("L")}Z`, isTooth ? "hull tooth" : "hull");
}

/**
 * The corners of the least convex shape around points, by the walk along them from left to right and back.
 *
 * @param {[number, number][]} points
 * @returns {[number, number][]}
 */
export function hullOf(points) {
    const ordered = [...points].sort(([x, y], [otherX, otherY]) => x - otherX || y - otherY);
    const isLeft = (/** @type {number[]} */ a, /** @type {number[]} */ b, /** @type {number[]} */ c) =>
        (b[0] - a[0]) * (c[1] - a[1]) - (b[1] - a[1]) * (c[0] - a[0]) > 0;
    const half = (/** @type {[number, number][]} */ list) => {
        /** @type {[number, number][]} */
        const kept = [];
        for (const point of list) {
            while (kept.length > 1 && !isLeft(kept[kept.length - 2], kept[kept.length - 1], point)) {
                kept.pop();
            }
            kept.push(point);
        }
        return kept;
    };
    const [there, back] = [half(ordered), half(ordered.reverse())];
    return points.length < 2 ? points : [...there.slice(0, -1), ...back.slice(0, -1)];
}

/**
 * The pairs that a leaf has decided.
 *
 * @param {import("./branches.mjs").Decision[]} decisions
 * @param {Place} place
 * @returns {Shape[]}
 */
function decisionShapes(decisions, place) {
    const pairs = (/** @type {boolean} */ isIn) => decisions.flatMap(({ pair, isUsed }) => (pair && isUsed === isIn ? [pair] : []));
    return decisions.length === 0 ? [] : [linesShape(pairs(true), place, "decided used"), linesShape(pairs(false), place, "decided unused")];
}

/**
 * The depot: a square.
 *
 * @param {number | null} depot
 * @param {Place} place
 * @param {number} unit the length of a pixel
 * @returns {Shape[]}
 */
function depotShapes(depot, place, unit) {
    if (depot === null) {
        return [];
    }
    const [x, y] = place(depot);
    return [{ name: "rect", attributes: { x: x - 7 * unit, y: y - 7 * unit, width: 14 * unit, height: 14 * unit, class: "depot" } }];
}

/**
 * Rings around the nodes that a reason is about, and a line between those of a pair.
 *
 * @param {Scene} scene
 * @param {Place} place
 * @param {number} unit
 * @returns {Shape[]}
 */
function markShapes({ marks, points }, place, unit) {
    const drawn = marks.nodes.filter((node) => node >= 1 && node <= points.length / 2);
    const rings = drawn.map((node) => {
        const [cx, cy] = place(node);
        return { name: "circle", attributes: { cx, cy, r: 12 * unit, class: "mark" } };
    });
    return [...(marks.pair ? [linesShape([marks.pair], place, "mark")] : []), ...rings];
}

/**
 * The numbers of the nodes that are seen, where they aren't too many, and of the marked ones.
 *
 * @param {Scene} scene
 * @param {import("./shapes.mjs").Layout} layout
 * @param {[number, number, number, number]} box
 * @param {number} unit
 * @returns {Shape[]}
 */
function labelShapes({ points, marks }, { place, width: room }, [left, upper, width, height], unit) {
    const isSeen = ([x, y] = [0, 0]) => x >= left && x <= left + width && y >= upper && y <= upper + height;
    const seen = Array.from({ length: points.length / 2 }, (_, at) => at + 1).filter((node) => isSeen(place(node)));
    const named = seen.length > Math.min(MOST_LABELS, room / PIXELS_OF_LABEL) ? seen.filter((node) => marks.nodes.includes(node)) : seen;
    return named.map((node) => {
        const [x, y] = place(node);
        return { name: "text", attributes: { x: x + 7 * unit, y: y - 7 * unit, class: "label", "font-size": 12 * unit }, text: String(node) };
    });
}
