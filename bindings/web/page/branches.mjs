// The families and the tree of a certificate of branches, for its drawing. The library judges the certificate, and nothing here
// has to be trusted. outcome.mjs and tree.mjs use it.

import { rowsOf } from "./sections.mjs";

/**
 * @typedef {object} Decision what a leaf takes for granted
 * @property {[number, number] | null} pair of nodes that is branched on
 * @property {number | null} family that is branched on, from 1
 * @property {number} limit of the crossings of the family
 * @property {boolean} isUsed whether the pair is an edge, or the family is crossed at most 2 * limit times
 *
 * @typedef {object} Step a branch or a leaf of the tree
 * @property {number} above the number of the branch above it, from 0; -1 for the root
 * @property {boolean} isFirst whether it is the first of the two below that branch
 * @property {[number, number] | null} pair
 * @property {number | null} family
 * @property {number} limit
 * @property {number} leaf its number from 0; -1 for a branch
 *
 * @typedef {object} Branches
 * @property {number[][][]} families the sets of each; of a comb the first is the handle
 * @property {Step[]} steps in the order of the file
 * @property {number} leaves how many there are
 */

/**
 * The families and the tree of a canonical text; null where it isn't one of TYPE BRANCHES.
 *
 * @param {string} text
 * @param {number} nodes of the instance
 * @returns {Branches | null}
 */
export function branchesOf(text, nodes) {
    if (!/^TYPE : BRANCHES$/m.test(text)) {
        return null;
    }
    const steps = stepsOf(rowsOf(text, "BRANCH_SECTION").flat(), nodes);
    return { families: familiesOf(rowsOf(text, "COMB_SECTION").flat()), steps, leaves: steps.filter(({ leaf }) => leaf >= 0).length };
}

/**
 * The sets of each family. One -1 ends a set, one more the family, and one in its place the list.
 *
 * @param {number[]} words
 * @returns {number[][][]}
 */
function familiesOf(words) {
    /** @type {number[][][]} */
    const families = [];
    /** @type {number[][]} */
    let sets = [];
    /** @type {number[]} */
    let set = [];
    for (const word of words) {
        if (word !== -1) {
            set.push(word);
        } else if (set.length > 0) {
            sets.push(set);
            set = [];
        } else {
            families.push(sets);
            sets = [];
        }
    }
    return families.filter((family) => family.length > 0);
}

/**
 * The steps of a tree: a branch, the tree of its first case, and that of its second.
 *
 * @param {number[]} words
 * @param {number} nodes
 * @returns {Step[]}
 */
function stepsOf(words, nodes) {
    /** @type {Step[]} */
    const steps = [];
    /** @type {number[]} the branches that still want a second case */
    const open = [];
    let [at, leaves, above, isFirst] = [0, 0, -1, true];
    while (at < words.length) {
        const [word, second] = [words[at], words[at + 1]];
        if (word !== 0) {
            const isPair = word <= nodes;
            steps.push({ above, isFirst, pair: isPair ? [word, second] : null, family: isPair ? null : word - nodes, limit: isPair ? 0 : second, leaf: -1 });
            open.push(steps.length - 1);
            [above, isFirst, at] = [steps.length - 1, true, at + 2];
            continue;
        }
        steps.push({ above, isFirst, pair: null, family: null, limit: 0, leaf: leaves++ });
        at += 1;
        while (at < words.length && words[at] !== -1) {
            at += 2; // (an index and its difference, which may be -1)
        }
        at += 1;
        const next = open.pop();
        if (next === undefined) {
            break;
        }
        [above, isFirst] = [next, false];
    }
    return steps;
}

/**
 * What a leaf takes for granted, from the root on.
 *
 * @param {Branches} branches
 * @param {number} leaf from 0
 * @returns {Decision[]}
 */
export function decisionsOf({ steps }, leaf) {
    /** @type {Decision[]} */
    const found = [];
    for (let step = steps.find((one) => one.leaf === leaf); step && step.above >= 0; step = steps[step.above]) {
        const { pair, family, limit } = steps[step.above];
        found.unshift({ pair, family, limit, isUsed: step.isFirst });
    }
    return found;
}

/**
 * A decision in words.
 *
 * @param {Decision} decision
 * @returns {string}
 */
export function wordsOfDecision({ pair, family, limit, isUsed }) {
    if (pair) {
        return `edge ${pair.join("–")} is ${isUsed ? "used" : "not used"}`;
    }
    return `family ${family} is crossed ${isUsed ? `at most ${2 * limit}` : `at least ${2 * limit + 2}`} times`;
}
