// The calls of libtsp in a WebAssembly module: texts in, texts and numbers out. bindings/c/tsp.h says what each call does.
// No module but this, handle.mjs, answers.mjs and memory.mjs knows the library's memory.

import { WORD, claim, judgedOf, textBy } from "./answers.mjs";
import { Call, Status } from "./codes.mjs";
import { Handle } from "./handle.mjs";
import { withBlocks } from "./memory.mjs";

/**
 * @typedef {import("./memory.mjs").Exports} Exports
 * @typedef {import("./answers.mjs").Answer} Answer
 * @typedef {import("./answers.mjs").Judged} Judged
 */

/** The library. Its calls may not be made at once from two threads. */
export class Library {
    /** @param {Exports} exports */
    constructor(exports) {
        this.exports = exports;
    }

    /**
     * The library of a module, with a memory of its own.
     *
     * @param {WebAssembly.Module} module
     * @returns {Promise<Library>}
     */
    static async of(module) {
        return new Library((await WebAssembly.instantiate(module, {})).exports);
    }

    /**
     * An instance that is read once.
     *
     * @param {Uint8Array} text
     * @returns {Handle}
     */
    open(text) {
        return new Handle(this.exports, text);
    }

    /** @returns {string} the version, as 1.2.3 */
    version() {
        const number = this.exports.tsp_version();
        return [Math.floor(number / 10000), Math.floor(number / 100) % 100, number % 100].join(".");
    }

    /**
     * @param {Uint8Array} file
     * @returns {Answer}
     */
    show(file) {
        return textBy(this.exports, [file], (slices, out) => this.exports.tsp_show(...slices, ...out));
    }

    /**
     * @param {Uint8Array} file
     * @param {number} [layout] 0 for its own
     * @returns {Answer}
     */
    convert(file, layout = 0) {
        return textBy(this.exports, [file], (slices, out) => this.exports.tsp_convert(...slices, layout, ...out));
    }

    /**
     * A solution in any form as a text of TYPE TOUR. Each number is 0 for what isn't known, and the instance may be empty.
     *
     * @param {Uint8Array} solution
     * @param {Uint8Array} instance
     * @param {number} [form] from 1, as in FORMS
     * @param {number} [first] one more than the number of the first node
     * @param {number} [depot]
     * @returns {Answer}
     */
    solution(solution, instance, form = 0, first = 0, depot = 0) {
        return textBy(this.exports, [solution, instance], (slices, out) => this.exports.tsp_solution(...slices, form, first, depot, ...out));
    }

    /**
     * @param {Uint8Array} instance
     * @param {Uint8Array} solution
     * @param {Uint8Array} certificate
     * @param {number} by
     * @param {bigint | null} claimed
     * @param {boolean} [strict] whether lines of the instance that aren't judged are a reason
     * @returns {Judged}
     */
    check(instance, solution, certificate, by, claimed, strict = false) {
        return judgedOf(this.exports, [instance, solution, certificate], (slices, out) =>
            this.exports.tsp_check_result(...slices, by, ...claim(claimed, strict), ...out),
        );
    }

    /**
     * @param {Uint8Array} instance
     * @param {Uint8Array} certificate
     * @param {number} by
     * @param {boolean} [strict] whether lines of the instance that aren't judged are a reason
     * @returns {Judged}
     */
    bound(instance, certificate, by, strict = false) {
        const asked = by + 2 * Number(strict);
        return judgedOf(this.exports, [instance, certificate], (slices, out) => this.exports.tsp_bound_result(...slices, asked, ...out));
    }

    /**
     * What explains the answer of a call, for a person. The texts and names are those of the instance, the
     * solution and the certificate.
     *
     * @param {number} call
     * @param {Uint8Array[]} texts
     * @param {string[]} names
     * @param {number} number how the call gets its bound, or its layout
     * @param {bigint | null} claimed
     * @param {boolean} [strict] whether lines of the instance that aren't judged are a reason
     * @returns {Answer}
     */
    explain(call, texts, names, number, claimed, strict = false) {
        const joined = new TextEncoder().encode(names.map((name) => name.replaceAll("\0", "")).join("\0"));
        const asked = number + 2 * Number(strict && call === Call.BOUND);
        return textBy(this.exports, [...texts, joined], (slices, out) =>
            this.exports.tsp_explain(call, ...slices, asked, ...claim(claimed, strict), ...out),
        );
    }

    /**
     * The coordinates of each node, x, y and z of node 1 first; null where the file has no such section.
     *
     * @param {Uint8Array} file
     * @param {number} section
     * @param {number} nodes
     * @returns {Float64Array | null}
     */
    points(file, section, nodes) {
        return withBlocks(this.exports, (blocks) => {
            const slice = blocks.put(file);
            const out = blocks.take(3 * WORD * nodes);
            if (this.exports.tsp_points(...slice, section, out, BigInt(3 * nodes)) !== Status.YES) {
                return null;
            }
            const counts = new BigInt64Array(this.exports.memory.buffer, Number(out), 3 * nodes);
            return Float64Array.from(counts, (count) => Number(count) / 1e9);
        }, null);
    }
}
