// The texts of instances that are given as numbers: points, or a matrix of weights.

import { decimalOf, rounded, written } from "./numbers.mjs";

/**
 * @typedef {import("../node/index.mjs").PointsOptions} PointsOptions
 * @typedef {import("../node/index.mjs").MatrixOptions} MatrixOptions
 * @typedef {number | bigint | string} AnyNumber
 */

/**
 * The text of an instance of points.
 *
 * @param {readonly (readonly AnyNumber[])[]} points
 * @param {PointsOptions} options
 * @returns {string}
 */
export function textOfPoints(points, options) {
    const { edgeWeightType = "EUC_2D", scale = 1, decimals, name, type = "TSP" } = options;
    const axes = edgeWeightType.endsWith("_3D") ? 3 : 2;
    const factor = scaleOf(scale);
    const rows = points.map((point, at) => {
        if (point.length !== axes) {
            throw new RangeError(`point ${at + 1} has ${point.length} coordinates, and ${axes} are wanted`);
        }
        const exact = point.map((value) => scaled(value, factor, `a coordinate of point ${at + 1}`));
        return [at + 1, ...exact.map((it) => written(decimals === undefined ? it : rounded(it, decimals)))].join(" ");
    });
    const head = headOf({ name, type, dimension: points.length }, noteOf("Coordinates", factor, decimals));
    const lines = [...head, `EDGE_WEIGHT_TYPE : ${edgeWeightType}`, "NODE_COORD_SECTION", ...rows, "EOF", ""];
    return lines.join("\n");
}

/**
 * The text of an instance of weights.
 *
 * @param {readonly (readonly AnyNumber[])[]} matrix
 * @param {MatrixOptions} options
 * @returns {string}
 */
export function textOfMatrix(matrix, options) {
    const { scale = 1, rounded: rounds = false, name, type } = options;
    const factor = scaleOf(scale);
    const rows = matrix.map((row, from) => {
        if (row.length !== matrix.length) {
            throw new RangeError(`row ${from + 1} has ${row.length} weights, and there are ${matrix.length} rows`);
        }
        return row.map((value, to) => (from === to ? "0" : weightOf(value, factor, rounds, `the weight from ${from + 1} to ${to + 1}`)));
    });
    const isSymmetric = rows.every((row, from) => row.every((weight, to) => weight === rows[to][from]));
    const kind = type ?? (isSymmetric ? "TSP" : "ATSP");
    const head = headOf({ name, type: kind, dimension: rows.length }, noteOf("Weights", factor, rounds ? 0 : undefined));
    const weights = ["EDGE_WEIGHT_TYPE : EXPLICIT", "EDGE_WEIGHT_FORMAT : FULL_MATRIX", "EDGE_WEIGHT_SECTION"];
    return [...head, ...weights, ...rows.map((row) => row.join(" ")), "EOF", ""].join("\n");
}

/**
 * @param {number | bigint} scale
 * @returns {bigint}
 */
function scaleOf(scale) {
    if (typeof scale !== "bigint" && !Number.isSafeInteger(scale)) {
        throw new TypeError(`a scale is a whole number: ${String(scale)}`);
    }
    if (scale < 1) {
        throw new RangeError(`a scale is 1 or more, and this is ${scale}`);
    }
    return BigInt(scale);
}

/**
 * @param {AnyNumber} value
 * @param {bigint} factor
 * @param {string} where
 */
function scaled(value, factor, where) {
    const { count, places } = decimalOf(value, where);
    return { count: count * factor, places };
}

/**
 * @param {AnyNumber} value
 * @param {bigint} factor
 * @param {boolean} rounds
 * @param {string} where
 * @returns {string}
 */
function weightOf(value, factor, rounds, where) {
    const exact = scaled(value, factor, where);
    const whole = rounded(exact, 0);
    if (!rounds && whole.count * 10n ** BigInt(exact.places) !== exact.count) {
        throw new RangeError(`${where} isn't whole: ${String(value)}. scale multiplies all, and rounded: true rounds them`);
    }
    return String(whole.count);
}

/**
 * What a COMMENT says of numbers that were changed.
 *
 * @param {string} what
 * @param {bigint} scale
 * @param {number | undefined} decimals
 * @returns {string}
 */
function noteOf(what, scale, decimals) {
    const notes = [scale === 1n ? "" : `multiplied by ${scale}`, decimals === undefined ? "" : `rounded to ${decimals} decimals`];
    const said = notes.filter((it) => it !== "").join(", ");
    return said && `${what} ${said}`;
}

/**
 * The first lines of an instance.
 *
 * @param {{ name?: string, type: string, dimension: number }} fields
 * @param {string} note
 * @returns {string[]}
 */
function headOf({ name, type, dimension }, note) {
    const named = name === undefined ? [] : [`NAME : ${name}`];
    return [...named, `TYPE : ${type}`, ...(note ? [`COMMENT : ${note}`] : []), `DIMENSION : ${dimension}`];
}
