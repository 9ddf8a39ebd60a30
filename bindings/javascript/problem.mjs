// `Problem` of the package for Node: an instance that is read once.

import { check, convert } from "./calls.mjs";
import { Section, Status } from "./codes.mjs";
import { NodeError, OutOfMemory } from "./errors.mjs";
import { textOfMatrix, textOfPoints } from "./instances.mjs";
import { opened, textOf } from "./reporting.mjs";
import { given } from "./sources.mjs";

/**
 * @typedef {import("../node/index.mjs").Source} Source
 * @typedef {import("../node/index.mjs").Solution} Solution
 * @typedef {import("../node/index.mjs").Layout} Layout
 * @typedef {import("../node/index.mjs").CheckOptions} CheckOptions
 * @typedef {import("../node/index.mjs").PointsOptions} PointsOptions
 * @typedef {import("../node/index.mjs").MatrixOptions} MatrixOptions
 * @typedef {number | bigint | string} AnyNumber
 */

/** Frees the library's instance of a problem that nobody has any more. */
const forgotten = new FinalizationRegistry((/** @type {import("./handle.mjs").Handle} */ handle) => handle.close());

/** An instance that is read once. */
export class Problem {
    #library;
    #handle;
    #path;

    /** @param {Source} source */
    constructor(source) {
        const { bytes, path } = given(source);
        this.bytes = bytes;
        this.#path = path;
        this.#library = opened();
        this.#handle = this.#library.open(bytes);
        if (this.#handle.status !== Status.YES) {
            this.#handle.close();
            check({ bytes, path }, []); // (this says why)
            throw new OutOfMemory("out of memory");
        }
        forgotten.register(this, this.#handle, this);
    }

    /** @param {string | URL} path */
    static load(path) {
        return new Problem(path);
    }

    /** @param {string} text */
    static parse(text) {
        return new Problem({ text });
    }

    /**
     * @param {readonly (readonly AnyNumber[])[]} points
     * @param {PointsOptions} [options]
     */
    static fromPoints(points, options = {}) {
        return Problem.parse(textOfPoints(points, options));
    }

    /**
     * @param {readonly (readonly AnyNumber[])[]} matrix
     * @param {MatrixOptions} [options]
     */
    static fromMatrix(matrix, options = {}) {
        return Problem.parse(textOfMatrix(matrix, options));
    }

    get nodes() {
        return this.#handle.nodes;
    }

    /**
     * @param {BigInt64Array | number} answer
     * @returns {BigInt64Array}
     */
    #numbers(answer) {
        if (typeof answer !== "number") {
            return answer;
        }
        if (answer === Status.OUT_OF_MEMORY) {
            throw new OutOfMemory("out of memory");
        }
        throw new NodeError("a node isn't one of the instance, or the problem is closed");
    }

    /**
     * @param {number} from
     * @param {number} to
     * @returns {bigint}
     */
    weight(from, to) {
        return this.weights([[from, to]])[0];
    }

    /** @param {readonly (readonly [number, number])[]} pairs */
    weights(pairs) {
        return this.#numbers(this.#handle.weights(nodesOf(pairs.flat())));
    }

    matrix() {
        return this.rows(1, this.nodes);
    }

    /**
     * @param {number} first
     * @param {number} count
     */
    rows(first, count) {
        if (!(Number.isInteger(count) && count >= 1 && first + count - 1 <= this.nodes)) {
            throw new NodeError(`there are no rows ${first} to ${first + count - 1}`);
        }
        return this.#numbers(this.#handle.matrix(nodesOf([first])[0], count));
    }

    /**
     * @param {readonly number[]} tour
     * @returns {bigint}
     */
    length(tour) {
        return this.traceTours([tour])[0];
    }

    /** @param {readonly (readonly number[])[]} tours */
    traceTours(tours) {
        const nodes = tours.flatMap((tour) => [...nodesOf(tour), 0]);
        return this.#numbers(this.#handle.lengths(Uint32Array.from(nodes), tours.length));
    }

    /**
     * @param {"NODE_COORD_SECTION" | "DISPLAY_DATA_SECTION"} [section]
     * @returns {[number, number, number][] | null}
     */
    points(section = "NODE_COORD_SECTION") {
        const number = section === "DISPLAY_DATA_SECTION" ? Section.DISPLAY : Section.COORDS;
        const found = this.#library.points(this.bytes, number, this.nodes);
        return found && Array.from({ length: this.nodes }, (_, at) => [found[3 * at], found[3 * at + 1], found[3 * at + 2]]);
    }

    /**
     * @param {Solution} solution
     * @param {CheckOptions} [options]
     */
    check(solution, options = {}) {
        return check({ bytes: this.bytes, path: this.#path }, solution, options);
    }

    /** @param {Layout} [layout] */
    render(layout) {
        return textOf(convert(this, layout));
    }

    close() {
        forgotten.unregister(this);
        this.#handle.close();
    }
}

/**
 * Nodes as the library takes them.
 *
 * @param {readonly number[]} nodes
 * @returns {Uint32Array}
 */
function nodesOf(nodes) {
    if (!nodes.every((node) => Number.isInteger(node) && node >= 1 && node < 2 ** 32)) {
        throw new NodeError("nodes are whole numbers from 1 on");
    }
    return Uint32Array.from(nodes);
}
