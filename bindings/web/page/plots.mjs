// Pictures of numbers: a length beside its bound, and the bounds of an ascent step by step. drawing.mjs asks for them.

import { MARGIN, dotsShape, layOut, linesShape, pathShape, round, sizeOf, textShape, wholePicture, widthIn } from "./shapes.mjs";

/**
 * @typedef {import("./shapes.mjs").Shape} Shape
 * @typedef {import("./shapes.mjs").Picture} Picture
 */

/** What is left free for the numbers of the axes, and the height of the curve. */
const [LEFT, BELOW, HEIGHT] = [72, 46, 260];

/**
 * A bar of the length, in which bound and gap have their shares; null without a bound.
 *
 * @param {Pick<import("../../javascript/report.mjs").Report, "length" | "bound" | "gap" | "optimal">} report
 * @param {number} room
 * @returns {Picture | null}
 */
export function barOf({ length, bound, gap, optimal }, room) {
    const width = widthIn(room);
    if (length === null || bound === null || length <= 0n || bound < 0n || bound > length) {
        return null;
    }
    const share = Number((bound * 1_000_000n) / length) / 1_000_000;
    const cut = optimal ? width : Math.min(round(width * share), width - 4);
    return wholePicture(width, 36, [
        barPart(0, cut, "bound"),
        ...(optimal ? [] : [barPart(cut, round(width - cut), "gap")]),
        textShape(0, 30, `bound ${bound}`, "scale", { "text-anchor": "start" }),
        textShape(width, 30, optimal ? `length ${length}: optimal` : `length ${length}: gap ${gap}`, "scale", { "text-anchor": "end" }),
    ]);
}

/**
 * A part of the bar.
 *
 * @param {number} x
 * @param {number} width
 * @param {string} words
 * @returns {Shape}
 */
function barPart(x, width, words) {
    return { name: "rect", attributes: { x, y: 0, width, height: 12, class: words } };
}

/**
 * The bounds of an ascent as a curve over its steps, with axes, the step that is shown, and the length of a tour above them.
 *
 * @param {import("./ascent.mjs").Step[]} steps
 * @param {number} at
 * @param {bigint | null} length
 * @param {number} room
 * @returns {Picture}
 */
export function curveOf(steps, at, length, room) {
    const width = widthIn(room);
    const bounds = steps.map(({ bound }) => bound);
    const upper = length === null ? null : Number(length);
    const [least, largest] = [Math.min(...bounds), Math.max(...bounds, upper ?? -Infinity)];
    const levels = ticksOf(least, largest, 5);
    const [low, high] = [Math.min(least, levels[0]), Math.max(largest, levels[levels.length - 1])];
    const x = (/** @type {number} */ step) => round(LEFT + ((width - LEFT - MARGIN) * step) / Math.max(1, steps.length - 1));
    const y = (/** @type {number} */ bound) => round(HEIGHT - BELOW - ((HEIGHT - BELOW - MARGIN) * (bound - low)) / (high - low || 1));
    const rules = levels.map((level) => `M${LEFT} ${y(level)}H${width - MARGIN}`).join("");
    return wholePicture(width, HEIGHT, [
        pathShape(rules, "rule"),
        pathShape(`M${LEFT} ${MARGIN / 2}V${HEIGHT - BELOW}H${width - MARGIN}`, "axis"),
        ...levels.map((level) => textShape(LEFT - 8, y(level) + 5, level.toLocaleString("en"), "scale", { "text-anchor": "end" })),
        ...stepTicks(steps.length, width).map((step) => textShape(x(step), HEIGHT - BELOW + 20, String(step), "scale", { "text-anchor": "middle" })),
        textShape((LEFT + width - MARGIN) / 2, HEIGHT - 6, "step", "scale", { "text-anchor": "middle" }),
        textShape(14, (HEIGHT - BELOW) / 2, "bound", "scale", { "text-anchor": "middle", transform: `rotate(-90 14 ${(HEIGHT - BELOW) / 2})` }),
        ...(upper === null ? [] : [pathShape(`M${LEFT} ${y(upper)}H${width - MARGIN}`, "upper")]),
        ...(upper === null ? [] : [textShape(width - MARGIN, y(upper) - 6, `length ${length}`, "scale", { "text-anchor": "end" })]),
        pathShape(`M${x(at)} ${MARGIN / 2}V${HEIGHT - BELOW}`, "rule at"),
        pathShape(`M${bounds.map((bound, step) => `${x(step)} ${y(bound)}`).join("L")}`, "rise"),
        { name: "circle", attributes: { cx: x(at), cy: y(bounds[at]), r: 5, class: "here" } },
    ]);
}

/**
 * The steps that are named below the curve.
 *
 * @param {number} count
 * @param {number} width
 * @returns {number[]}
 */
function stepTicks(count, width) {
    return ticksOf(0, Math.max(1, count - 1), width < 500 ? 4 : 10).filter((step) => Number.isInteger(step) && step >= 0 && step < count);
}

/**
 * Round numbers from one to another, about so many: 1, 2 or 5 times a power of ten apart.
 *
 * @param {number} low
 * @param {number} high
 * @param {number} count
 * @returns {number[]}
 */
export function ticksOf(low, high, count) {
    const rough = (high - low || 1) / count;
    const power = 10 ** Math.floor(Math.log10(rough));
    const apart = power * ([1, 2, 5].find((times) => times * power >= rough) ?? 10);
    const [first, last] = [Math.ceil(low / apart), Math.max(Math.floor(high / apart), Math.ceil(low / apart))];
    return Array.from({ length: last - first + 1 }, (_, at) => Number(((first + at) * apart).toPrecision(12)));
}

/**
 * The 1-tree of a step of an ascent. Nodes with two edges are as in a tour; others are marked.
 *
 * @param {import("./scene.mjs").Scene} scene
 * @param {import("./ascent.mjs").Step} step
 * @param {number} room
 * @returns {Picture}
 */
export function oneTreePicture(scene, { edges, degrees }, room) {
    const { place, width, height } = layOut(scene.points, room);
    const all = degrees.map((_, at) => at + 1);
    const [tour, others] = [true, false].map((isTwo) => all.filter((node) => (degrees[node - 1] === 2) === isTwo));
    return wholePicture(width, height, [
        ...edges.map((edge, at) => linesShape([edge], place, at < 2 ? "tree first" : "tree")),
        dotsShape(tour, place, `nodes ${sizeOf(all.length)}`),
        dotsShape(others, place, `missing ${sizeOf(all.length)}`),
    ]);
}
