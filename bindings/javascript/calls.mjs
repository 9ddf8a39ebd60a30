// The calls of the package for Node on single files and solutions.

import { By, Call, FORMS, LAYOUTS, Status } from "./codes.mjs";
import { Fault, OutOfMemory, SolutionError } from "./errors.mjs";
import { NO_FILE, errorOf, opened, reported, textOf } from "./reporting.mjs";
import { certificateOf, given, solutionOf } from "./sources.mjs";

/**
 * @typedef {import("../node/index.mjs").Source} Source
 * @typedef {import("../node/index.mjs").Solution} Solution
 * @typedef {import("../node/index.mjs").Layout} Layout
 * @typedef {import("../node/index.mjs").CheckOptions} CheckOptions
 * @typedef {import("../node/index.mjs").CertificateOptions} CertificateOptions
 * @typedef {import("../node/index.mjs").SolutionOptions} SolutionOptions
 * @typedef {import("./sources.mjs").Given} Given
 * @typedef {import("./reporting.mjs").Asked} Asked
 * @typedef {import("./reporting.mjs").Report} Report
 */

/**
 * A claimed length.
 *
 * @param {bigint | number | undefined} length
 * @returns {bigint | null}
 */
function claimOf(length) {
    if (length === undefined) {
        return null;
    }
    if (typeof length !== "bigint" && !Number.isSafeInteger(length)) {
        throw new TypeError(`a length is a whole number, a bigint from 2^53 on: ${String(length)}`);
    }
    if (BigInt.asIntN(64, BigInt(length)) !== BigInt(length)) {
        throw new RangeError("a length has 64 bits");
    }
    return BigInt(length);
}

/**
 * @param {Source} instance
 * @param {Solution} solution
 * @param {CheckOptions} [options]
 * @returns {Report}
 */
export function check(instance, solution, options = {}) {
    const { by, certificate } = certificateOf(options);
    const [claimed, strict] = [claimOf(options.length), options.strict ?? false];
    const [first, second] = [given(instance), solutionOf(solution)];
    /** @type {Asked} */
    const asked = { call: Call.CHECK, files: [first, second, certificate], number: by, claimed, strict };
    const judged = opened().check(first.bytes, second.bytes, certificate.bytes, by, claimed, strict);
    return reported(asked, judged, options.explain);
}

/**
 * @param {Source} instance
 * @param {CertificateOptions} options
 * @returns {Report}
 */
export function bound(instance, options) {
    const { by, certificate } = certificateOf(options);
    if (by === By.NOTHING) {
        throw new TypeError("neither potentials nor branches");
    }
    const first = given(instance);
    /** @type {Asked} */
    const asked = { call: Call.BOUND, files: [first, NO_FILE, certificate], number: by, claimed: null, strict: options.strict };
    return reported(asked, opened().bound(first.bytes, certificate.bytes, by, options.strict), options.explain);
}

/**
 * A solution in any form as a text of TYPE TOUR.
 *
 * @param {Given} solution
 * @param {Given} instance
 * @param {SolutionOptions} [options] without the instance
 * @returns {Uint8Array}
 */
export function tourIn(solution, instance, options = {}) {
    const { form, first, depot } = options;
    const number = form === undefined ? 0 : FORMS.indexOf(form) + 1;
    if (form !== undefined && number === 0) {
        throw new RangeError(`there is no form ${String(form)}`);
    }
    const { status, bytes } = opened().solution(solution.bytes, instance.bytes, number, first === undefined ? 0 : first + 1, depot);
    if (status === Status.YES) {
        return bytes;
    }
    const told = textOf(bytes).trimEnd();
    if (status !== Status.FAULT) {
        throw new OutOfMemory(told || "out of memory");
    }
    throw told.startsWith("file 2: ") ? new Fault(told, "", instance.path) : new SolutionError(told, "", solution.path);
}

/**
 * @param {Source} source
 * @param {SolutionOptions} [options]
 * @returns {Uint8Array}
 */
export function readSolution(source, options = {}) {
    return tourIn(given(source), options.of === undefined ? NO_FILE : given(options.of), options);
}

/**
 * @param {Source} file
 * @returns {string}
 */
export function show(file) {
    const one = given(file);
    const { status, bytes } = opened().show(one.bytes);
    if (status !== Status.YES) {
        throw errorOf({ call: Call.SHOW, files: [one, NO_FILE, NO_FILE], number: 0, claimed: null }, status, bytes);
    }
    return textOf(bytes);
}

/**
 * @param {Source} file
 * @param {Layout} [layout]
 * @returns {Uint8Array}
 */
export function convert(file, layout) {
    const number = layout === undefined ? 0 : LAYOUTS.indexOf(layout) + 1;
    if (layout !== undefined && number === 0) {
        throw new RangeError(`there is no layout ${String(layout)}`);
    }
    const one = given(file);
    const { status, bytes } = opened().convert(one.bytes, number);
    if (status !== Status.YES) {
        throw errorOf({ call: Call.CONVERT, files: [one, NO_FILE, NO_FILE], number, claimed: null }, status, bytes);
    }
    return bytes;
}

/** @returns {string} */
export function version() {
    return opened().version();
}
