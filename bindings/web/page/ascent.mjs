// The ascent of Held and Karp, step by step: potentials of a small TSP, and the least 1-tree under them. Distances are
// doubles here, and nothing has to be trusted: the library judges the potentials. rising.mjs calls it in the worker, and
// drawing.mjs shows its steps.

/** Of larger instances the steps aren't shown. */
export const MOST_RISING = 300;

/** So many steps are made. */
const STEPS = 100;

/** Potentials are whole numbers of such parts of a unit. */
const POTENTIAL_PARTS = 100;

/**
 * @typedef {object} Step
 * @property {number} bound which the least 1-tree gives
 * @property {[number, number][]} edges of the 1-tree, whose nodes count from 1; the first two are those of node 1
 * @property {number[]} degrees how many edges each node has
 *
 * @typedef {object} Ascent
 * @property {Step[]} steps
 * @property {number} best which of them gives the largest bound
 * @property {string} potentials of that step, as a file
 */

/** @type {Record<string, (x: number, y: number) => number>} the distances of the plane */
const DISTANCES = {
    EUC_2D: (x, y) => Math.floor(Math.hypot(x, y) + 0.5),
    CEIL_2D: (x, y) => Math.ceil(Math.hypot(x, y)),
    MAN_2D: (x, y) => Math.floor(Math.abs(x) + Math.abs(y) + 0.5),
    MAX_2D: (x, y) => Math.floor(Math.max(Math.abs(x), Math.abs(y)) + 0.5),
    ATT: (x, y) => Math.ceil(Math.sqrt((x * x + y * y) / 10)),
};

/**
 * Whether the steps of an instance can be shown.
 *
 * @param {string} weights its weight type
 * @param {number} nodes
 * @returns {boolean}
 */
export function canRise(weights, nodes) {
    return weights in DISTANCES && nodes >= 3 && nodes <= MOST_RISING;
}

/**
 * The ascent of an instance with points in the plane.
 *
 * @param {Float64Array} points x and y of node 1, of node 2 and so on
 * @param {string} weights the weight type
 * @param {number | null} length of a tour, where one is known
 * @returns {Ascent}
 */
export function ascentOf(points, weights, length) {
    const count = points.length / 2;
    const distance = DISTANCES[weights];
    const apart = (/** @type {number} */ i, /** @type {number} */ j) => distance(points[2 * i] - points[2 * j], points[2 * i + 1] - points[2 * j + 1]);
    const rows = Array.from({ length: count }, (_, i) => Float64Array.from({ length: count }, (_, j) => POTENTIAL_PARTS * apart(i, j)));
    const upper = length === null ? lengthOfNearest(rows) : POTENTIAL_PARTS * length;
    /** @type {Step[]} */
    const steps = [];
    let potentials = new Float64Array(count);
    let [best, kept] = [0, potentials];
    for (let at = 0; at < STEPS; at += 1) {
        const step = oneTree(rows, potentials);
        steps.push(step);
        if (step.bound > steps[best].bound || at === 0) {
            [best, kept] = [at, potentials];
        }
        const squares = step.degrees.reduce((sum, degree) => sum + (degree - 2) ** 2, 0);
        if (squares === 0 || POTENTIAL_PARTS * steps[best].bound > upper - POTENTIAL_PARTS) {
            break; // the 1-tree is a tour, or the bound rounded up is the length of one
        }
        const size = (2 * (upper - POTENTIAL_PARTS * steps[0].bound) * 0.95 ** at) / squares;
        potentials = potentials.map((old, node) => old + Math.round(size * (step.degrees[node] - 2)));
    }
    return { steps, best, potentials: fileOf(kept) };
}

/**
 * The length of the tour that always goes on to the nearest node.
 *
 * @param {Float64Array[]} rows
 * @returns {number}
 */
function lengthOfNearest(rows) {
    const left = new Set(rows.keys());
    let [node, length] = [0, 0];
    left.delete(0);
    while (left.size > 0) {
        const from = rows[node];
        node = [...left].reduce((near, other) => (from[other] < from[near] ? other : near));
        length += from[node];
        left.delete(node);
    }
    return length + rows[node][0];
}

/**
 * A least 1-tree under the potentials: a least tree of all nodes but the first, and the two least edges of that.
 *
 * @param {Float64Array[]} rows
 * @param {Float64Array} potentials
 * @returns {Step}
 */
function oneTree(rows, potentials) {
    const count = rows.length;
    const weight = (/** @type {number} */ i, /** @type {number} */ j) => rows[i][j] + potentials[i] + potentials[j];
    const others = Array.from({ length: count - 1 }, (_, at) => at + 1);
    const nearest = [...others].sort((one, other) => weight(0, one) - weight(0, other)).slice(0, 2);
    /** @type {[number, number][]} */
    const edges = nearest.map((node) => [0, node]);
    const [near, ends] = [new Float64Array(count).fill(Infinity), new Int32Array(count)];
    const outside = new Set(others.slice(1));
    let last = 1;
    while (outside.size > 0) {
        let next = -1;
        for (const node of outside) {
            const way = weight(last, node);
            if (way < near[node]) {
                [near[node], ends[node]] = [way, last];
            }
            next = next < 0 || near[node] < near[next] ? node : next;
        }
        edges.push([ends[next], next]);
        outside.delete(next);
        last = next;
    }
    /** @type {number[]} */
    const degrees = Array.from({ length: count }, () => 0);
    let sum = -2 * potentials.reduce((all, one) => all + one, 0);
    for (const [i, j] of edges) {
        degrees[i] += 1;
        degrees[j] += 1;
        sum += weight(i, j);
    }
    return { bound: sum / POTENTIAL_PARTS, edges: edges.map(([i, j]) => [i + 1, j + 1]), degrees };
}

/**
 * Potentials as a file.
 *
 * @param {Float64Array} potentials
 * @returns {string}
 */
function fileOf(potentials) {
    const head = ["TYPE : POTENTIALS", `DIMENSION : ${potentials.length}`, `SCALE : ${POTENTIAL_PARTS}`, "NODE_POTENTIAL_SECTION"];
    return [...head, ...Array.from(potentials, (number, at) => `${at + 1} ${number}`), "EOF", ""].join("\n");
}
