// What the calls of libtsp answer: a text, and a result in numbers.

import { Status } from "./codes.mjs";
import { withBlocks } from "./memory.mjs";

/** The bytes of a number of 64 bits, and of a result. */
export const WORD = 8;
export const RESULT = 96;

/** Enough for most reports: no second call is needed. */
const REPORT = 4096;

/** @typedef {import("./memory.mjs").Exports} Exports */

/**
 * What a call of a text answers.
 *
 * @typedef {object} Answer
 * @property {number} status
 * @property {Uint8Array} bytes the text: a report, a file, or the line of a fault
 *
 * The same in numbers: struct tsp_result of tsp.h, as far as it isn't about a fault.
 *
 * @typedef {object} Result
 * @property {number} kind of the instance, as in tsp.h; 0 where there is none
 * @property {number} nodes
 * @property {number} verdict one of Verdict, or 0
 * @property {number} reason 0 where there is none
 * @property {bigint} first the numbers of the reason
 * @property {bigint} second
 * @property {bigint} length of a tour, or of routes
 * @property {bigint | null} bound
 * @property {number} routes
 * @property {bigint} least how many routes there have to be
 *
 * @typedef {Answer & { result: Result }} Judged
 */

/**
 * The answer of a call that writes a text, and a result before it.
 *
 * @param {Exports} exports
 * @param {Uint8Array[]} texts
 * @param {(slices: bigint[], out: bigint[]) => number} call
 * @returns {Judged}
 */
export function judgedOf(exports, texts, call) {
    const none = { status: Status.OUT_OF_MEMORY, bytes: new Uint8Array(), result: NO_RESULT };
    return withBlocks(
        exports,
        (blocks) => {
            const at = blocks.take(RESULT);
            const answer = textBy(exports, texts, (slices, out) => call(slices, [at, ...out]));
            return { ...answer, result: resultOf(new DataView(exports.memory.buffer, Number(at), RESULT)) };
        },
        none,
    );
}

/**
 * The answer of a call that writes a text.
 *
 * @param {Exports} exports
 * @param {Uint8Array[]} texts
 * @param {(slices: bigint[], out: bigint[]) => number} call
 * @returns {Answer}
 */
export function textBy(exports, texts, call) {
    const none = { status: Status.OUT_OF_MEMORY, bytes: new Uint8Array() };
    return withBlocks(
        exports,
        (blocks) => {
            const slices = texts.flatMap((text) => blocks.put(text));
            let answer = written(exports, slices, REPORT, call);
            while (typeof answer === "number") {
                answer = written(exports, slices, answer, call);
            }
            return answer;
        },
        none,
    );
}

/**
 * The answer of a call that writes at most this many bytes, or the number of bytes that it wants.
 *
 * @param {Exports} exports
 * @param {bigint[]} slices
 * @param {number} capacity
 * @param {(slices: bigint[], out: bigint[]) => number} call
 * @returns {Answer | number}
 */
function written(exports, slices, capacity, call) {
    return withBlocks(exports, (blocks) => {
        const written = blocks.take(WORD);
        const out = blocks.take(capacity);
        const status = call(slices, [out, BigInt(capacity), written]);
        const { buffer } = exports.memory;
        const length = Number(new DataView(buffer).getBigUint64(Number(written), true));
        if (status === Status.TOO_SMALL) {
            return length;
        }
        return { status, bytes: new Uint8Array(buffer, Number(out), length).slice() };
    });
}

/**
 * A claimed length, and whether there is one, with 2 more where lines that aren't judged are a reason, as a call takes
 * them.
 *
 * @param {bigint | null} claimed
 * @param {boolean} [strict]
 * @returns {[bigint, number]}
 */
export function claim(claimed, strict = false) {
    return [claimed ?? 0n, Number(claimed !== null) + 2 * Number(strict)];
}

/** @type {Result} */
export const NO_RESULT = resultOf(new DataView(new ArrayBuffer(RESULT)));

/**
 * The result that the library has written.
 *
 * @param {DataView} view of a struct tsp_result
 * @returns {Result}
 */
export function resultOf(view) {
    /** @param {number} at */
    const small = (at) => view.getUint32(at, true);
    /** @param {number} at */
    const large = (at) => view.getBigInt64(at, true);
    return {
        kind: small(0),
        nodes: small(4),
        verdict: small(8),
        reason: small(12),
        first: large(16),
        second: large(24),
        length: large(32),
        bound: small(64) === 1 ? (large(40) << 64n) + view.getBigUint64(48, true) : null,
        routes: small(68),
        least: view.getBigUint64(56, true),
    };
}
