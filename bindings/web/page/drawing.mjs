// What the pictures of the page show in a state: the drawing with its legend, the certificate of branches, and potentials that
// rise. view.mjs joins it with the rest.

import { canRise } from "./ascent.mjs";
import { decisionsOf, wordsOfDecision } from "./branches.mjs";
import { pictureOf } from "./map.mjs";
import { barOf, curveOf, oneTreePicture } from "./plots.mjs";
import { colourOf } from "./shapes.mjs";
import { givenOf } from "./state.mjs";
import { MOST_LEAVES, treePicture } from "./tree.mjs";
import { WHOLE } from "./zoom.mjs";

/**
 * @typedef {import("./state.mjs").State} State
 * @typedef {import("./view.mjs").View} View
 * @typedef {import("./view.mjs").Item} Item
 * @typedef {import("./scene.mjs").Scene} Scene
 */

/** So many families are drawn at once at most. */
const MOST_FAMILIES = 12;

/** So many routes are named in the legend at most. */
const MOST_ROUTES = 200;

/**
 * The drawing, its legend, and the bar of length and bound.
 *
 * @param {State} state
 * @returns {View}
 */
export function drawingView(state) {
    const { outcome, width, zoom, route } = state;
    const bar = outcome?.report ? barOf(outcome.report, width) : null;
    const barPart = bar ? { hidden: false, picture: bar } : { hidden: true };
    const scene = outcome?.scene ?? null;
    if (scene === null || outcome === null) {
        return { bar: barPart, figure: { hidden: true } };
    }
    const kind = outcome.report === null ? "plain" : outcome.report.yes ? "yes" : "no";
    const [sets, decisions] = [setsOf(state), outcome.branches ? decisionsOf(outcome.branches, state.leaf) : []];
    const others = againstItems(state);
    return {
        bar: barPart,
        figure: { hidden: false },
        map: { picture: pictureOf(scene, { room: width, kind, zoom, route, sets, decisions }), kind: zoom.scale > 1 ? "zoomed" : "" },
        "zoom-whole": { hidden: zoom === WHOLE || zoom.scale === 1 },
        legend: { text: legendOf(scene, outcome.report) },
        routes: { hidden: scene.depot === null || scene.tours.length === 0, items: routeItems(scene, route) },
        "against-field": { hidden: others.length === 0 },
        against: { items: others },
        difference: { hidden: scene.other === null, items: differenceItems(scene) },
    };
}

/**
 * What the drawing shows, in words.
 *
 * @param {Scene} scene
 * @param {import("../../javascript/report.mjs").Report | null} report
 * @returns {string}
 */
function legendOf(scene, report) {
    const { points, tours, marks, missing, fixed, depot, note } = scene;
    const walks = depot === null && tours.length === 1 ? " and the tour" : ` and ${tours.length} ${depot === null ? "tours" : "routes"}`;
    return [
        `${(points.length / 2).toLocaleString("en")} nodes${tours.length ? walks : ""}.`,
        depot === null ? "" : "The square is the depot.",
        fixed.length ? "Thick lines are fixed edges." : "",
        marks.nodes.length || marks.route ? `Red marks the place of ${report?.reason}.` : "",
        missing.length ? "Red points are in no tour." : "",
        note,
    ]
        .filter(Boolean)
        .join(" ");
}

/**
 * The legend of routes: the colour of each, its customers and its load. The button of one picks it.
 *
 * @param {Scene} scene
 * @param {number | null} picked
 * @returns {Item[]}
 */
function routeItems({ depot, tours, loads, capacity }, picked) {
    if (depot === null) {
        return [];
    }
    const named = tours.slice(0, MOST_ROUTES).map((tour, at) => {
        const [customers, load] = [tour.length - 1, loads[at] ?? 0];
        const isOver = load > capacity;
        const words = `Route ${at + 1}: ${customers} ${customers === 1 ? "customer" : "customers"}, load ${load} of ${capacity}`;
        const swatch = { name: "svg", attributes: { width: 14, height: 14, "aria-hidden": "true" }, items: [{ name: "rect", attributes: { width: 14, height: 14, rx: 3, fill: colourOf(at) } }] };
        const bar = { name: "meter", attributes: { min: 0, max: capacity, value: Math.min(load, capacity), "aria-hidden": "true" } };
        const items = [swatch, { name: "span", text: words + (isOver ? ": too much" : "") }, bar];
        return { name: "button", attributes: { type: "button", "data-do": "pick-route", "data-at": at, "aria-pressed": String(at === picked), ...(isOver ? { class: "over-load" } : {}) }, items };
    });
    const rest = tours.length - named.length;
    return [...named, ...(rest > 0 ? [{ name: "span", text: `and ${rest} more` }] : [])].map((item) => ({ name: "li", items: [item] }));
}

/**
 * The solutions that the one that is shown can be compared with.
 *
 * @param {State} state
 * @returns {Item[]}
 */
function againstItems({ files, chosen, against }) {
    const list = files.solution;
    if (list.length < 2) {
        return [];
    }
    const options = list.flatMap(({ name }, at) => (at === chosen.solution ? [] : [{ at: String(at), name }]));
    return [{ at: "", name: "none" }, ...options].map(({ at, name }) => ({
        name: "option",
        attributes: { value: at, ...(String(against ?? "") === at ? { selected: "" } : {}) },
        text: name,
    }));
}

/**
 * What the colours of a comparison of edges mean.
 *
 * @param {Scene} scene
 * @returns {Item[]}
 */
function differenceItems({ other }) {
    if (other === null) {
        return [];
    }
    const line = (/** @type {string} */ words) => ({ name: "svg", attributes: { width: 30, height: 10, "aria-hidden": "true" }, items: [{ name: "path", attributes: { d: "M2 5H28", class: words } }] });
    const entry = (/** @type {string} */ words, /** @type {string} */ text) => ({ name: "li", items: [line(words), { name: "span", text }] });
    return [
        entry("tour shared", `${other.shared.toLocaleString("en")} edges of both`),
        entry("edge own", `${other.own.length.toLocaleString("en")} only of the tour that is shown`),
        entry("edge gone", `${other.gone.length.toLocaleString("en")} only of ${other.name}`),
    ];
}

/**
 * The sets of the families that are shown.
 *
 * @param {State} state
 * @returns {{ nodes: number[], isTooth: boolean }[]}
 */
function setsOf({ outcome, family, leaf }) {
    const branches = outcome?.branches;
    if (!branches) {
        return [];
    }
    const { families } = branches;
    const decided = decisionsOf(branches, leaf).flatMap((decision) => (decision.family === null ? [] : families.slice(decision.family - 1, decision.family)));
    const shown = family > 0 ? families.slice(family - 1, family) : families.length <= MOST_FAMILIES ? families : decided;
    return shown.flatMap((sets) => sets.map((nodes, at) => ({ nodes, isTooth: at > 0 })));
}

/**
 * The certificate of branches: its tree, and which leaf and family are shown.
 *
 * @param {State} state
 * @returns {View}
 */
export function branchesView({ outcome, leaf, family, width }) {
    const branches = outcome?.branches ?? null;
    if (branches === null) {
        return { branching: { hidden: true } };
    }
    const { families, leaves } = branches;
    const [isDrawn, hasMap] = [leaves > 1 && leaves <= MOST_LEAVES, Boolean(outcome?.scene)];
    const taken = decisionsOf(branches, leaf).map(wordsOfDecision).join("; ");
    const counted = `${leaves.toLocaleString("en")} ${leaves === 1 ? "leaf" : "leaves"} and ${families.length.toLocaleString("en")} ${families.length === 1 ? "family" : "families"}`;
    return {
        branching: { hidden: false },
        "branching-words": { text: `The certificate has ${counted}.${leaves > MOST_LEAVES ? " A tree with so many leaves isn't drawn." : ""}` },
        "branch-tree": isDrawn ? { hidden: false, picture: treePicture(branches, leaf, width) } : { hidden: true },
        "leaf-field": { hidden: leaves < 2 },
        leaf: { value: String(leaf + 1), attributes: { max: String(leaves) } },
        "leaf-words": { text: `Leaf ${leaf + 1} of ${leaves}: ${taken || "nothing is decided"}.`, hidden: leaves < 2 },
        "family-field": { hidden: families.length === 0 || !hasMap },
        family: { value: String(family), attributes: { max: String(families.length) } },
        "family-words": { text: wordsOfFamily(families, family), hidden: families.length === 0 || !hasMap },
    };
}

/**
 * Which family is drawn, in words.
 *
 * @param {number[][][]} families
 * @param {number} family
 * @returns {string}
 */
function wordsOfFamily(families, family) {
    if (family === 0) {
        return families.length <= MOST_FAMILIES ? "All families are drawn." : "The families that this leaf branches on are drawn, if any.";
    }
    const [handle, ...teeth] = families[family - 1];
    const set = `${handle.length} ${handle.length === 1 ? "node" : "nodes"}`;
    return `Family ${family} of ${families.length}: ${teeth.length === 0 ? `a set of ${set}` : `a handle of ${set} and ${teeth.length} ${teeth.length === 1 ? "tooth" : "teeth"}`}.`;
}

/**
 * Potentials that rise, step by step.
 *
 * @param {State} state
 * @returns {View}
 */
export function risingView(state) {
    const { outcome, rising, step, isPlaying, width } = state;
    const scene = outcome?.scene ?? null;
    const canShow = scene !== null && scene.depot === null && canRise(scene.weights, scene.points.length / 2);
    if (rising === null || scene === null) {
        return { rise: { hidden: !canShow || givenOf(state, "instance") === null }, rising: { hidden: true } };
    }
    const { steps, best } = rising.ascent;
    const { bound, degrees } = steps[step];
    const others = degrees.filter((degree) => degree !== 2).length;
    const rest = others === 0 ? "Each node has two edges: the 1-tree is a tour." : `The ${others} marked nodes don't have two edges: their potentials rise or fall.`;
    return {
        rise: { hidden: true },
        rising: { hidden: false },
        tree: { picture: oneTreePicture(scene, steps[step], width) },
        curve: { picture: curveOf(steps, step, outcome?.report?.length ?? null, width) },
        step: { value: String(step), attributes: { max: String(steps.length - 1) } },
        play: { text: isPlaying ? "Pause" : "Play" },
        "step-words": { text: `Step ${step}: the least 1-tree gives the bound ${bound.toFixed(2)}. ${rest} The dashed edges are those of node 1.` },
        "rising-bound": { text: `The library, whose code is proved, computes from the potentials of step ${best}: every tour is at least ${rising.bound} long.` },
    };
}
