// All that the page shows follows from one value, the state. Here are its beginning and its changes, each a function from a
// state to the next one. view.mjs shows a state, and page.mjs keeps the one that holds.

import { By } from "../../javascript/codes.mjs";
import { verbOf } from "./command.mjs";
import { roleOf } from "./roles.mjs";
import { WHOLE } from "./zoom.mjs";

/**
 * @typedef {import("./roles.mjs").Slot} Slot
 * @typedef {import("./command.mjs").Given} Given
 *
 * @typedef {object} Told what is shown in place of an outcome
 * @property {"yes" | "no" | "fault" | "none"} kind
 * @property {string} word
 * @property {string} meaning
 *
 * @typedef {object} State
 * @property {Readonly<Record<Slot, readonly Given[]>>} files that are given. Of several instances or certificates one is chosen;
 *     several tours are compared, and one is shown
 * @property {Readonly<Record<Slot, number>>} chosen
 * @property {number} by how the certificate gives a bound
 * @property {string} claimed what is put in as the published length
 * @property {string} best what is put in as the best-known length
 * @property {boolean} claims
 * @property {boolean} strict
 * @property {number | null} against the tour whose edges are compared with those of the one that is shown
 * @property {Told} told
 * @property {import("./outcome.mjs").Outcome | null} outcome
 * @property {import("./outcome.mjs").Progress | null} work what is done now
 * @property {number} seconds for how long
 * @property {import("./rising.mjs").Rising | null} rising how potentials rise, where that is shown
 * @property {number} step of it
 * @property {boolean} isPlaying
 * @property {import("./zoom.mjs").Zoom} zoom
 * @property {number | null} route that is picked
 * @property {number} family that is shown, from 1; with 0 all are, where they aren't too many
 * @property {number} leaf that is shown
 * @property {number} width that the pictures have
 * @property {Slot | "page" | null} over where files are held over the page
 * @property {string} version
 * @property {string} link what is told of a link
 */

export const SLOTS = /** @type {const} */ (["instance", "solution", "certificate"]);

const [LEAST_LENGTH, MOST_LENGTH] = [-(2n ** 63n), 2n ** 63n - 1n];

/** @type {Told} */
const NOTHING_TOLD = { kind: "none", word: "", meaning: "" };

/** What is forgotten when something else is judged. */
const FRESH = { outcome: null, work: null, seconds: 0, rising: null, step: 0, isPlaying: false, zoom: WHOLE, route: null, family: 0, leaf: 0, link: "" };

/** @type {State} */
export const BEGINNING = {
    files: { instance: [], solution: [], certificate: [] },
    chosen: { instance: 0, solution: 0, certificate: 0 },
    by: By.POTENTIALS,
    claimed: "",
    best: "",
    claims: true,
    strict: false,
    against: null,
    told: NOTHING_TOLD,
    ...FRESH,
    width: 0,
    over: null,
    version: "",
};

/**
 * The file of a slot that is chosen.
 *
 * @param {State} state
 * @param {Slot} slot
 * @returns {Given | null}
 */
export function givenOf({ files, chosen }, slot) {
    return files[slot][chosen[slot]] ?? null;
}

/**
 * Puts files into a slot, in the place of those before.
 *
 * @param {State} state
 * @param {Slot} slot
 * @param {readonly Given[]} list
 * @returns {State}
 */
export function withSlot(state, slot, list) {
    const against = slot === "solution" ? (list.length === 2 ? 1 : null) : state.against;
    return { ...state, files: { ...state.files, [slot]: list }, chosen: { ...state.chosen, [slot]: 0 }, against };
}

/**
 * Takes files: to a slot, or each to where it belongs.
 *
 * @param {State} state
 * @param {readonly Given[]} files
 * @param {Slot | null} slot
 * @returns {State}
 */
export function withFiles(state, files, slot) {
    const roles = files.map(({ name, bytes }) => roleOf(name, bytes));
    let next = state;
    for (const one of SLOTS) {
        const list = files.filter((_, at) => (slot ?? roles[at].slot) === one);
        next = list.length > 0 ? withSlot(next, one, list) : next;
    }
    return { ...next, by: byIn(next) };
}

/**
 * How the chosen certificate gives a bound, where it says so itself.
 *
 * @param {State} state
 * @returns {number}
 */
function byIn(state) {
    const certificate = givenOf(state, "certificate");
    return (certificate && roleOf(certificate.name, certificate.bytes).by) ?? state.by;
}

/**
 * Chooses one of several files of a slot.
 *
 * @param {State} state
 * @param {Slot} slot
 * @param {number} at
 * @returns {State}
 */
export function choosing(state, slot, at) {
    const against = slot === "solution" && state.against === at ? state.chosen.solution : state.against;
    const next = { ...state, chosen: { ...state.chosen, [slot]: at }, against };
    return { ...next, by: slot === "certificate" ? byIn(next) : state.by };
}

/**
 * The whole number of 64 bits that is put in; null where nothing is, undefined where it is no such number.
 *
 * @param {string} words
 * @returns {bigint | null | undefined}
 */
export function lengthOf(words) {
    const word = words.trim();
    if (word === "") {
        return null;
    }
    const number = /^[+-]?\d{1,30}$/.test(word) ? BigInt(word.replace("+", "")) : null;
    return number !== null && number >= LEAST_LENGTH && number <= MOST_LENGTH ? number : undefined;
}

/**
 * What the library is asked; null where a length is none, or the files ask for nothing.
 *
 * @param {State} state
 * @returns {import("./command.mjs").Job | null}
 */
export function jobOf(state) {
    const [claimed, best] = [lengthOf(state.claimed), lengthOf(state.best)];
    const [instance, solution, certificate] = SLOTS.map((slot) => givenOf(state, slot));
    const { by, claims, strict, files } = state;
    const other = state.against === null || state.against === state.chosen.solution ? null : files.solution[state.against] ?? null;
    if (claimed === undefined || best === undefined || verbOf({ instance, solution, certificate }) === null) {
        return null;
    }
    return { instance, solution, certificate, by, claimed, best, tours: [...files.solution], other, foreign: true, claims, strict };
}

/**
 * Begins to judge what is given, or says what is missing.
 *
 * @param {State} state
 * @returns {State}
 */
export function judging(state) {
    if (jobOf(state) !== null) {
        return { ...state, ...FRESH, told: { kind: "none", word: "Checking …", meaning: "" }, work: { words: "reading", done: 0, all: 0 } };
    }
    const hasFault = [state.claimed, state.best].some((words) => lengthOf(words) === undefined);
    const isEmpty = SLOTS.every((slot) => givenOf(state, slot) === null);
    if (hasFault) {
        return { ...state, work: null };
    }
    return { ...state, ...FRESH, told: isEmpty ? NOTHING_TOLD : { kind: "none", word: "No instance", meaning: "Choose the instance too." } };
}

/**
 * Says something in place of an outcome.
 *
 * @param {State} state
 * @param {Told} told
 * @returns {State}
 */
export function telling(state, told) {
    return { ...state, ...FRESH, told };
}

/**
 * Shows what was found.
 *
 * @param {State} state
 * @param {import("./outcome.mjs").Outcome} outcome
 * @returns {State}
 */
export function showing(state, outcome) {
    return { ...state, ...FRESH, outcome };
}

/**
 * Shows a step of the ascent, the first where none follows.
 *
 * @param {State} state
 * @param {number} step
 * @returns {State}
 */
export function atStep(state, step) {
    const last = (state.rising?.ascent.steps.length ?? 1) - 1;
    return { ...state, step: Math.min(Math.max(step, 0), last), isPlaying: state.isPlaying && step < last };
}
