// An instance that the library reads once, for many questions.

import { NO_RESULT, RESULT, WORD, claim, judgedOf, resultOf } from "./answers.mjs";
import { Status } from "./codes.mjs";
import { Blocks, withBlocks } from "./memory.mjs";

/** The bytes of a handle. */
const HANDLE = 16;

/**
 * @typedef {import("./memory.mjs").Exports} Exports
 * @typedef {import("./answers.mjs").Result} Result
 * @typedef {import("./answers.mjs").Judged} Judged
 */

/**
 * An instance that the library reads once: one instance, many questions. What it holds is freed by `close`.
 *
 * A call of an instance that is closed, or couldn't be opened, answers Status.REFUSED.
 */
export class Handle {
    /** @type {Blocks} */
    #blocks;
    #at = 0n;
    #told = 0n;

    /**
     * @param {Exports} exports
     * @param {Uint8Array} text
     */
    constructor(exports, text) {
        this.exports = exports;
        this.#blocks = new Blocks(exports);
        /** How the instance was opened. */
        this.status = withBlocks(
            exports,
            (blocks) => {
                this.#at = this.#blocks.take(HANDLE);
                this.#told = this.#blocks.take(RESULT);
                new Uint8Array(exports.memory.buffer, Number(this.#at), HANDLE).fill(0);
                return /** @type {number} */ (exports.tsp_open(...blocks.put(text), this.#at, this.#told));
            },
            Status.OUT_OF_MEMORY,
        );
        this.nodes = this.status === Status.YES ? this.#result().nodes : 0;
    }

    #result() {
        return resultOf(new DataView(this.exports.memory.buffer, Number(this.#told), RESULT));
    }

    /**
     * Binds a certificate, in the place of the one before.
     *
     * @param {Uint8Array} certificate
     * @param {number} by
     * @returns {{ status: number, result: Result }} its bound
     */
    bind(certificate, by) {
        const status = this.#asked((blocks) => this.exports.tsp_bind(this.#at, ...blocks.put(certificate), by, this.#told));
        return { status, result: status === Status.YES || status === Status.NO ? this.#result() : NO_RESULT };
    }

    /**
     * Judges a solution, by the certificate that is bound.
     *
     * @param {Uint8Array} solution
     * @param {bigint | null} claimed
     * @param {boolean} [strict] whether lines of the instance that aren't judged are a reason
     * @returns {Judged}
     */
    check(solution, claimed, strict = false) {
        if (this.#at === 0n) {
            return { status: Status.REFUSED, bytes: new Uint8Array(), result: NO_RESULT };
        }
        return judgedOf(this.exports, [solution], (slices, out) =>
            this.exports.tsp_instance_check(this.#at, ...slices, ...claim(claimed, strict), ...out),
        );
    }

    /**
     * The costs of pairs of nodes.
     *
     * @param {Uint32Array} pairs the first and the second node of each
     * @returns {BigInt64Array | number} or how the call ends
     */
    weights(pairs) {
        return this.#numbers(pairs.length >> 1, [pairs], (given, out) => this.exports.tsp_instance_weights(this.#at, ...given, ...out));
    }

    /**
     * The costs from a node to each node, then those of the next ones.
     *
     * @param {number} first
     * @param {number} rows
     * @returns {BigInt64Array | number} or how the call ends
     */
    matrix(first, rows) {
        return this.#numbers(rows * this.nodes, [], (_, out) => this.exports.tsp_instance_matrix(this.#at, first, ...out));
    }

    /**
     * The lengths of lists of nodes, from each node to the next and back to the first.
     *
     * @param {Uint32Array} nodes of all lists, each ended by 0
     * @param {number} lists how many there are
     * @returns {BigInt64Array | number} or how the call ends
     */
    lengths(nodes, lists) {
        return this.#numbers(lists, [nodes], (given, out) => this.exports.tsp_instance_lengths(this.#at, ...given, ...out));
    }

    /** Frees what the instance holds. */
    close() {
        if (this.#at !== 0n) {
            this.exports.tsp_close(this.#at);
        }
        this.#blocks.free();
        this.#at = 0n;
    }

    /**
     * @param {number} count
     * @param {Uint32Array[]} lists
     * @param {(given: bigint[], out: [bigint, bigint]) => number} call
     * @returns {BigInt64Array | number}
     */
    #numbers(count, lists, call) {
        /** @type {BigInt64Array | undefined} */
        let found;
        const status = this.#asked((blocks) => {
            const given = lists.flatMap((list) => [blocks.putBytes(list), BigInt(list.length)]);
            const at = blocks.take(WORD * count);
            const status = call(given, [at, BigInt(count)]);
            found = new BigInt64Array(this.exports.memory.buffer, Number(at), count).slice();
            return status;
        });
        return status === Status.YES && found ? found : status;
    }

    /**
     * @param {(blocks: Blocks) => number} call
     * @returns {number}
     */
    #asked(call) {
        return this.#at === 0n ? Status.REFUSED : withBlocks(this.exports, call, Status.OUT_OF_MEMORY);
    }
}
