// The scene of a run, which map.mjs draws: points, tours or routes with their loads, the edges in which another solution
// differs, and the nodes and pairs that a reason of `no` is about. outcome.mjs makes it, by the library.

import { Section } from "../../javascript/codes.mjs";
import { rowsOf, textOfAnswer, toursOf } from "./sections.mjs";

/**
 * @typedef {[number, number]} Pair two nodes, which count from 1
 *
 * @typedef {object} Marks
 * @property {number[]} nodes that the reason is about
 * @property {Pair | null} pair that it is about
 * @property {number | null} route that it is about, from 1
 *
 * @typedef {object} Other another solution beside the one that is shown
 * @property {string} name
 * @property {Pair[]} own edges that only the one that is shown has
 * @property {Pair[]} gone edges that only the other one has
 * @property {number} shared how many edges both have
 *
 * @typedef {object} Scene
 * @property {Float64Array} points x and y of node 1, of node 2 and so on
 * @property {string} weights the weight type
 * @property {string} note what the points are, where they aren't plain ones of the plane
 * @property {number[][]} tours the nodes of each tour, or of each route with the depot first
 * @property {Pair[]} fixed the fixed edges
 * @property {number | null} depot
 * @property {number[]} loads of the routes
 * @property {number} capacity 0 where there is none
 * @property {number[]} missing nodes that are in no tour
 * @property {Marks} marks
 * @property {Other | null} other
 *
 * @typedef {object} Texts what a scene is made of
 * @property {Uint8Array} instance
 * @property {Uint8Array | null} solution
 * @property {import("../../javascript/report.mjs").Report | null} report
 * @property {{ name: string, bytes: Uint8Array } | null} [other] another solution
 * @property {boolean} [isGeo] whether the points were those of an instance of type GEO
 */

/** So many fixed edges are drawn at most, and so many missing nodes. */
const MOST_EXTRAS = 10_000;

/**
 * The scene of an instance and a solution; null where the instance has no points.
 *
 * @param {import("../../javascript/library.mjs").Library} library
 * @param {Texts} texts
 * @returns {Scene | null}
 */
export function sceneOf(library, { instance, solution, report, other, isGeo }) {
    const shown = textOfAnswer(library.show(instance));
    const nodes = Number(/^nodes (\d+)$/m.exec(shown)?.[1] ?? 0);
    const weights = /^weights (\w+)/m.exec(shown)?.[1];
    if (!weights || nodes === 0) {
        return null;
    }
    const coords = library.points(instance, Section.COORDS, nodes);
    const found = coords ?? library.points(instance, Section.DISPLAY, nodes);
    if (found === null) {
        return null;
    }
    const text = /^fixed |^type CVRP$/m.test(shown) ? textOfAnswer(library.convert(instance)) : "";
    const depot = rowsOf(text, "DEPOT_SECTION")[0]?.[0] ?? null;
    const listed = solution === null ? [] : toursOf(textOfAnswer(library.convert(solution)));
    const fixed = rowsOf(text, "FIXED_EDGES_SECTION").filter((row) => row.length === 2).slice(0, MOST_EXTRAS);
    const walksOf = (/** @type {number[][]} */ tours) => tours.map((tour) => (depot === null ? tour : [depot, ...tour]).filter((node) => node <= nodes));
    const beside = other ? walksOf(toursOf(textOfAnswer(library.convert(other.bytes)))) : [];
    const tours = walksOf(listed);
    return {
        points: found.filter((_, at) => at % 3 !== 2),
        weights,
        note: isGeo ? "Longitude is to the right, and latitude upwards." : noteOf(coords !== null, weights),
        tours,
        fixed: /** @type {Pair[]} */ (fixed),
        depot,
        ...loadsOf(text, listed),
        missing: missingOf(nodes, listed, depot),
        marks: marksOf(report, listed, fixed),
        other: other && beside.length > 0 ? { name: other.name, ...differenceOf(tours, beside, /^type ATSP$/m.test(shown)) } : null,
    };
}

/**
 * @param {boolean} isCoords whether the points are those of NODE_COORD_SECTION
 * @param {string} weights the weight type
 * @returns {string}
 */
function noteOf(isCoords, weights) {
    if (!isCoords) {
        return "The places are those of DISPLAY_DATA_SECTION. The lengths come from the matrix.";
    }
    return weights.endsWith("_3D") ? "The points are seen from above: z isn't drawn." : "";
}

/**
 * The capacity of a CVRP, and the sum of the demands of each route.
 *
 * @param {string} text of the instance, as the library writes it
 * @param {number[][]} routes
 * @returns {{ capacity: number, loads: number[] }}
 */
export function loadsOf(text, routes) {
    const capacity = Number(/^CAPACITY : (\d+)$/m.exec(text)?.[1] ?? 0);
    if (capacity === 0) {
        return { capacity, loads: [] };
    }
    const demands = new Map(rowsOf(text, "DEMAND_SECTION").map(([node, demand]) => [node, demand]));
    return { capacity, loads: routes.map((route) => route.reduce((sum, node) => sum + (demands.get(node) ?? 0), 0)) };
}

/**
 * The edges that only one of two solutions has. An edge that is there twice, as that to the only customer of a route, counts
 * twice.
 *
 * @param {number[][]} tours of the solution that is shown
 * @param {number[][]} others of the other one
 * @param {boolean} isDirected whether an edge back is another one
 * @returns {{ own: Pair[], gone: Pair[], shared: number }}
 */
export function differenceOf(tours, others, isDirected) {
    /** @type {Map<string, number>} */
    const left = new Map();
    const keyOf = ([from, to] = [0, 0]) => (isDirected || from < to ? `${from} ${to}` : `${to} ${from}`);
    for (const edge of edgesOf(others)) {
        left.set(keyOf(edge), (left.get(keyOf(edge)) ?? 0) + 1);
    }
    /** @type {Pair[]} */
    const own = [];
    let shared = 0;
    for (const edge of edgesOf(tours)) {
        const count = left.get(keyOf(edge)) ?? 0;
        if (count === 0) {
            own.push(edge);
        } else {
            left.set(keyOf(edge), count - 1);
            shared += 1;
        }
    }
    const gone = [...left].flatMap(([key, count]) => Array.from({ length: count }, () => /** @type {Pair} */ (key.split(" ").map(Number))));
    return { own, gone, shared };
}

/**
 * The edges of tours, from each node to the next and back to the first.
 *
 * @param {number[][]} tours
 * @returns {Pair[]}
 */
function edgesOf(tours) {
    return tours.flatMap((tour) => (tour.length < 2 ? [] : tour.map((node, at) => /** @type {Pair} */ ([node, tour[(at + 1) % tour.length]]))));
}

/**
 * The nodes that no tour visits, where there is a tour.
 *
 * @param {number} nodes
 * @param {number[][]} tours
 * @param {number | null} depot
 * @returns {number[]}
 */
export function missingOf(nodes, tours, depot) {
    if (tours.length === 0) {
        return [];
    }
    const visited = new Set(tours.flat());
    const all = Array.from({ length: nodes }, (_, at) => at + 1);
    return all.filter((node) => node !== depot && !visited.has(node)).slice(0, MOST_EXTRAS);
}

/**
 * What the reason of a report is about.
 *
 * @param {import("../../javascript/report.mjs").Report | null} report
 * @param {number[][]} tours
 * @param {number[][]} fixed
 * @returns {Marks}
 */
export function marksOf(report, tours, fixed) {
    const none = { nodes: [], pair: null, route: null };
    const [first, second] = (report?.numbers ?? []).map(Number); // (nodes, places and indexes)
    switch (report?.reason) {
        case "RepeatedNode":
        case "NodeOutOfRange":
        case "DepotInRoute":
            return { ...none, nodes: [tours.flat()[first - 1]] };
        case "Unserved":
            return { ...none, nodes: [first] };
        case "NotSymmetric":
        case "DualInfeasible":
            return { ...none, nodes: [first, second], pair: [first, second] };
        case "FixedEdgeUnused": {
            const pair = /** @type {Pair} */ (fixed[first - 1]);
            return pair ? { ...none, nodes: pair, pair } : none;
        }
        case "Overload":
            return { ...none, route: first };
        default:
            return none;
    }
}
