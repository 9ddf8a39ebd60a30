// The call `compare` of the package for Node.

import { bound, check, tourIn } from "./calls.mjs";
import { By, Call } from "./codes.mjs";
import { Comparison, basisOf } from "./comparison.mjs";
import { OutOfMemory } from "./errors.mjs";
import { Judge } from "./judge.mjs";
import { opened, reported } from "./reporting.mjs";
import { certificateOf, given, solutionOf } from "./sources.mjs";

/**
 * @typedef {import("../node/index.mjs").Source} Source
 * @typedef {import("../node/index.mjs").Solution} Solution
 * @typedef {import("../node/index.mjs").CompareOptions} CompareOptions
 * @typedef {import("./reporting.mjs").Asked} Asked
 */

/**
 * @param {Source} instance
 * @param {readonly Solution[]} solutions
 * @param {CompareOptions} [options]
 * @returns {Comparison}
 */
export function compare(instance, solutions, options = {}) {
    const { by, certificate } = certificateOf(options);
    const first = given(instance);
    const library = opened();
    const judge = new Judge(library, first.bytes, certificate.bytes, by);
    try {
        const basis = basisOf(library, judge, first.bytes, options.strict);
        if (basis === null) {
            // (this says why)
            by === By.NOTHING ? check(instance, []) : bound(instance, options);
            throw new OutOfMemory("out of memory");
        }
        const names = solutions.map((it, at) => (typeof it === "string" || it instanceof URL ? String(it) : `solution ${at + 1}`));
        if (basis.reason !== null) {
            return new Comparison(basis, names, []);
        }
        const outcomes = solutions.map((solution) => {
            try {
                const second = solutionOf(solution);
                const text = options.foreign ? { ...second, bytes: tourIn(second, first) } : second;
                /** @type {Asked} */
                const asked = { call: Call.CHECK, files: [first, text, certificate], number: by, claimed: null };
                return reported(asked, judge.check(text.bytes, null), options.explain);
            } catch (error) {
                if (error instanceof OutOfMemory || error instanceof TypeError || !(error instanceof Error)) {
                    throw error;
                }
                return error; // one bad solution doesn't stop the others
            }
        });
        return new Comparison(basis, names, outcomes);
    } finally {
        judge.close();
    }
}
