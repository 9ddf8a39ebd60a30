// The report of a check or a bound, and the error of a call that gives none.

import { Fault, OutOfMemory } from "./errors.mjs";
import { Call, Status } from "./codes.mjs";
import { Library } from "./library.mjs";
import { plainOf, reportOf } from "./report.mjs";
import { NOTHING, system } from "./sources.mjs";

/** @typedef {import("./sources.mjs").Given} Given */

/** @param {Uint8Array} bytes */
export const textOf = (bytes) => new TextDecoder().decode(bytes);

/** The library, with a memory of its own for each call: what one has taken doesn't stay. */
export const opened = () => new Library(new WebAssembly.Instance(system.module(), {}).exports);

/** What a check or a bound says. */
export class Report {
    /**
     * @param {import("./answers.mjs").Result} result
     * @param {string} text
     * @param {string} explanation
     */
    constructor(result, text, explanation) {
        const { yes, type, length, bound, gap, optimal, noTour, routes, reason, numbers, notJudged } = reportOf(result, text);
        this.yes = yes;
        this.type = /** @type {"TSP" | "ATSP" | "CVRP"} */ (type);
        this.nodes = result.nodes;
        this.length = length;
        this.bound = bound;
        this.gap = gap;
        this.optimal = optimal;
        this.noTour = noTour;
        this.routes = routes;
        this.least = routes === null ? null : Number(result.least);
        this.reason = reason === "" ? null : reason;
        this.numbers = numbers;
        this.notJudged = notJudged;
        this.text = text;
        this.explanation = explanation;
    }

    /** @returns {number | null} */
    get gapPercent() {
        return this.bound === null || this.bound <= 0n ? null : this.percentOver(this.bound);
    }

    /**
     * @param {bigint | number} length
     * @returns {number | null}
     */
    percentOver(length) {
        const other = BigInt(length);
        return this.length === null || other <= 0n ? null : (100 * Number(this.length - other)) / Number(other);
    }

    /** @returns {Record<string, unknown>} */
    toJSON() {
        return Object.fromEntries(Object.entries(this).map(([name, value]) => [name, plainOf(value)]));
    }
}

/**
 * A call of the library that may be explained.
 *
 * @typedef {object} Asked
 * @property {number} call
 * @property {[Given, Given, Given]} files of the instance, the solution and the certificate
 * @property {number} number how it gets its bound, or its layout
 * @property {bigint | null} claimed
 * @property {boolean} [strict] whether lines of the instance that aren't judged are a reason
 */

/** @type {Given} */
export const NO_FILE = { bytes: NOTHING, path: "" };

/**
 * What explains the answer of a call.
 *
 * @param {Asked} asked
 * @returns {string}
 */
function explained({ call, files, number, claimed, strict }) {
    const [names, texts] = [files.map(({ path }) => path), files.map(({ bytes }) => bytes)];
    return textOf(opened().explain(call, texts, names, number, claimed, strict).bytes).trimEnd();
}

/**
 * The error of a call that ended with this status and line.
 *
 * @param {Asked} asked
 * @param {number} status
 * @param {Uint8Array} bytes
 * @returns {Fault | OutOfMemory}
 */
export function errorOf(asked, status, bytes) {
    const told = textOf(bytes).trimEnd();
    if (status === Status.OUT_OF_MEMORY) {
        return new OutOfMemory(told || "out of memory");
    }
    // (of a bound the certificate is file 2)
    const files = asked.call === Call.BOUND ? [asked.files[0], asked.files[2]] : asked.files;
    const file = Number(/^file (\d): /.exec(told)?.[1] ?? 1);
    return new Fault(told, explained(asked), files[file - 1].path);
}

/**
 * The report of a check or a bound.
 *
 * @param {Asked} asked
 * @param {import("./answers.mjs").Judged} judged
 * @param {boolean} [explains]
 * @returns {Report}
 */
export function reported(asked, { status, bytes, result }, explains = false) {
    if (status !== Status.YES && status !== Status.NO) {
        throw errorOf(asked, status, bytes);
    }
    return new Report(result, textOf(bytes), explains ? explained(asked) : "");
}
