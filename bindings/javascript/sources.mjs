// The texts of the arguments of a call: files by their paths, bytes, texts, problems, lists of nodes. For yokecairn.mjs.
// ../node/index.mjs and ../node/browser.mjs fill in `system`: the module of the library, and in Node how files are read.

import { By } from "./codes.mjs";

/**
 * @typedef {import("../node/index.mjs").Source} Source
 * @typedef {import("../node/index.mjs").Solution} Solution
 * @typedef {{ bytes: Uint8Array, path: string }} Given a text, and its path where it has one
 */

export const NOTHING = new Uint8Array();

/** What differs between Node and a browser. */
export const system = {
    /** @type {(path: string | URL) => Uint8Array} reads a file */
    read: () => {
        throw new TypeError("there are no files here: give the bytes of a text, or { text }");
    },
    /** @type {() => WebAssembly.Module} the library */
    module: () => {
        throw new TypeError("there is no module");
    },
};

/**
 * The text of a source.
 *
 * @param {Source} source
 * @returns {Given}
 */
export function given(source) {
    if (source instanceof Uint8Array) {
        return { bytes: source, path: "" };
    }
    if (typeof source === "string" || source instanceof URL) {
        return { bytes: system.read(source), path: String(source) };
    }
    if (typeof source === "object" && source !== null) {
        if ("bytes" in source && source.bytes instanceof Uint8Array) {
            return { bytes: source.bytes, path: source.path ?? "" };
        }
        if ("text" in source && typeof source.text === "string") {
            return { bytes: new TextEncoder().encode(source.text), path: "" };
        }
    }
    throw new TypeError("a file is a path, the bytes of its text, { text }, or a Problem");
}

/**
 * The text of a solution.
 *
 * @param {Solution} solution
 * @returns {Given}
 */
export function solutionOf(solution) {
    const isList = Array.isArray(solution) || (ArrayBuffer.isView(solution) && !(solution instanceof Uint8Array));
    if (!isList) {
        return given(/** @type {Source} */ (solution));
    }
    const nodes = Array.from(/** @type {Iterable<any>} */ (solution));
    const tours = nodes.length > 0 && typeof nodes[0] !== "number" ? nodes : [nodes];
    return { bytes: tourOf(nodes.length > 0 ? tours : []), path: "" };
}

/**
 * A text of TYPE TOUR with these tours, or routes.
 *
 * @param {Iterable<number>[]} tours
 * @returns {Uint8Array}
 */
export function tourOf(tours) {
    const lines = ["TYPE : TOUR", "TOUR_SECTION"];
    for (const tour of tours) {
        for (const node of tour) {
            if (!Number.isInteger(node)) {
                throw new TypeError(`a tour is a list of nodes, whole numbers, and this is none: ${String(node)}`);
            }
            lines.push(String(node));
        }
        lines.push("-1");
    }
    return new TextEncoder().encode([...lines, "EOF", ""].join("\n"));
}

/**
 * The certificate of a call, and how it gives a bound.
 *
 * @param {{ potentials?: Source, branches?: Source }} options
 * @returns {{ by: number, certificate: Given }}
 */
export function certificateOf({ potentials, branches }) {
    if (potentials !== undefined && branches !== undefined) {
        throw new TypeError("both potentials and branches");
    }
    if (potentials !== undefined) {
        return { by: By.POTENTIALS, certificate: given(potentials) };
    }
    if (branches !== undefined) {
        return { by: By.BRANCHES, certificate: given(branches) };
    }
    return { by: By.NOTHING, certificate: { bytes: NOTHING, path: "" } };
}
