// How potentials of an instance rise, and what the library says of the best ones. worker.mjs calls it.

import { By } from "../../javascript/codes.mjs";
import { ascentOf, canRise } from "./ascent.mjs";
import { textOfAnswer } from "./sections.mjs";

/**
 * @typedef {object} Rising
 * @property {import("./ascent.mjs").Ascent} ascent
 * @property {bigint | null} bound what the library says of the potentials of the best step
 */

/**
 * How potentials of an instance rise; null where that isn't shown.
 *
 * @param {import("../../javascript/library.mjs").Library} library
 * @param {{ instance: import("./command.mjs").Given, scene: import("./scene.mjs").Scene, length: bigint | null }} asked with the length of a tour
 * @returns {Rising | null}
 */
export function risingOf(library, { instance, scene, length }) {
    const shown = textOfAnswer(library.show(instance.bytes));
    const weights = /^weights (\w+)/m.exec(shown)?.[1] ?? "";
    if (!/^type TSP$/m.test(shown) || !canRise(weights, scene.points.length / 2)) {
        return null;
    }
    const ascent = ascentOf(scene.points, weights, length === null ? null : Number(length));
    const { result } = library.bound(instance.bytes, new TextEncoder().encode(ascent.potentials), By.POTENTIALS);
    return { ascent, bound: result.bound };
}
