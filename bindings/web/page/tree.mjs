// The tree of a certificate of branches as a picture: branches with what they are on, and leaves. drawing.mjs asks for it.

import { MARGIN, pathShape, round, textShape, wholePicture, widthIn } from "./shapes.mjs";

/** @typedef {import("./branches.mjs").Branches} Branches */

/** Trees of more leaves aren't drawn. */
export const MOST_LEAVES = 2000;

/** Branches of larger trees have no words beside them. */
const MOST_NAMED = 12;

/** How far two rows of a small tree are apart. */
const ROW = 44;

/** A tree isn't higher. */
const MOST_HEIGHT = 420;

/**
 * The tree, with one leaf picked.
 *
 * @param {Branches} branches
 * @param {number} leaf from 0
 * @param {number} room
 * @returns {import("./shapes.mjs").Picture}
 */
export function treePicture({ steps, leaves }, leaf, room) {
    const width = widthIn(room);
    const depths = depthsOf(steps);
    const rows = depths.reduce((most, depth) => Math.max(most, depth), 0);
    const apart = Math.min(ROW, (MOST_HEIGHT - 2 * MARGIN) / Math.max(rows, 1));
    const across = acrossOf(steps, leaves);
    const x = (/** @type {number} */ at) => round(MARGIN + (width - 2 * MARGIN) * across[at]);
    const y = (/** @type {number} */ at) => round(MARGIN + apart * depths[at]);
    const dot = (/** @type {number} */ at) => `M${x(at)} ${y(at)}h0`;
    const up = (/** @type {number} */ at) => `M${x(steps[at].above)} ${y(steps[at].above)}L${x(at)} ${y(at)}`;
    const all = [...steps.keys()];
    const [below, ends] = [all.filter((at) => steps[at].above >= 0), all.filter((at) => steps[at].leaf >= 0)];
    const way = wayTo(steps, leaf);
    const shapes = [
        pathShape(below.map(up).join(""), "twig"),
        pathShape(way.filter((at) => steps[at].above >= 0).map(up).join(""), "twig way"),
        pathShape(ends.map(dot).join(""), `nodes ${leaves > 60 ? "middle" : "large"}`),
        pathShape(ends.filter((at) => steps[at].leaf === leaf).map(dot).join(""), "leaf"),
        ...(leaves > MOST_NAMED ? [] : all.flatMap((at) => wordsAt(steps[at], x(at), y(at), width))),
    ];
    return wholePicture(width, Math.ceil(2 * MARGIN + apart * rows), shapes);
}

/**
 * What a branch is on, beside it.
 *
 * @param {import("./branches.mjs").Step} step
 * @param {number} x
 * @param {number} y
 * @param {number} width
 * @returns {import("./shapes.mjs").Shape[]}
 */
function wordsAt({ pair, family, leaf }, x, y, width) {
    const text = leaf >= 0 ? "" : pair ? pair.join("–") : `family ${family}`;
    const anchor = x < 60 ? "start" : x > width - 60 ? "end" : "middle";
    return text === "" ? [] : [textShape(x, y - 9, text, "scale", { "text-anchor": anchor })];
}

/**
 * How many branches are above each step.
 *
 * @param {import("./branches.mjs").Step[]} steps
 * @returns {number[]}
 */
function depthsOf(steps) {
    /** @type {number[]} */
    const depths = [];
    for (const { above } of steps) {
        depths.push(above < 0 ? 0 : depths[above] + 1);
    }
    return depths;
}

/**
 * Where each step is from the left to the right, from 0 to 1: leaves one beside the other, a branch between its two cases.
 *
 * @param {import("./branches.mjs").Step[]} steps
 * @param {number} leaves
 * @returns {number[]}
 */
function acrossOf(steps, leaves) {
    const found = steps.map(({ leaf }) => (leaf < 0 ? 0 : leaves === 1 ? 0.5 : leaf / (leaves - 1)));
    for (let at = steps.length - 1; at > 0; at -= 1) {
        found[steps[at].above] += found[at] / 2; // (both cases come behind their branch)
    }
    return found;
}

/**
 * The numbers of the steps from a leaf up to the root.
 *
 * @param {import("./branches.mjs").Step[]} steps
 * @param {number} leaf
 * @returns {number[]}
 */
function wayTo(steps, leaf) {
    /** @type {number[]} */
    const way = [];
    for (let at = steps.findIndex((step) => step.leaf === leaf); at >= 0; at = steps[at].above) {
        way.push(at);
    }
    return way;
}
