// What each element of the page shows in a state: a function without effects. dom.mjs puts its result into the document.

import { By, Status } from "../../javascript/codes.mjs";
import { branchesView, drawingView, risingView } from "./drawing.mjs";
import { misplaced } from "./roles.mjs";
import { columnsOf } from "./rows.mjs";
import { SLOTS, givenOf, lengthOf } from "./state.mjs";
import { cautionsOf, headlineOf, noteOfCommand, partsOf } from "./verdict.mjs";

/**
 * @typedef {import("./state.mjs").State} State
 *
 * @typedef {object} Item an element that is made anew
 * @property {string} name
 * @property {Record<string, string | number>} [attributes]
 * @property {string} [text]
 * @property {Item[]} [items]
 *
 * @typedef {object} Part what an element with an id shows; what isn't named stays
 * @property {boolean} [hidden]
 * @property {string} [text]
 * @property {string} [kind] its classes
 * @property {Record<string, string | null>} [attributes] null takes one away
 * @property {boolean} [checked]
 * @property {string} [value]
 * @property {Item[]} [items]
 * @property {import("./shapes.mjs").Picture} [picture]
 *
 * @typedef {Record<string, Part>} View the parts by their ids
 */

/**
 * What the page shows.
 *
 * @param {State} state
 * @returns {View}
 */
export function viewOf(state) {
    const body = [state.work ? "busy" : "", state.over ? "over" : ""].filter(Boolean).join(" ");
    return {
        page: { kind: body },
        version: { text: state.version || "(loading)" },
        ...filesView(state),
        ...workView(state),
        ...verdictView(state),
        ...rowsView(state),
        ...drawingView(state),
        ...branchesView(state),
        ...risingView(state),
    };
}

/** A text, hidden where it is empty. */
const shownText = (/** @type {string} */ text) => ({ text, hidden: text === "" });

/**
 * A button, whose `data-do` names what it does.
 *
 * @param {string} text
 * @param {string} action
 * @param {Record<string, string | number>} [attributes]
 * @returns {Item}
 */
function buttonOf(text, action, attributes = {}) {
    return { name: "button", attributes: { type: "button", "data-do": action, ...attributes }, text };
}

/**
 * The slots, and what else is put in.
 *
 * @param {State} state
 * @returns {View}
 */
function filesView(state) {
    const hasFiles = SLOTS.some((slot) => state.files[slot].length > 0);
    return {
        ...Object.assign({}, ...SLOTS.map((slot) => slotView(state, slot))),
        "by-potentials": { checked: state.by !== By.BRANCHES },
        "by-branches": { checked: state.by === By.BRANCHES },
        claims: { checked: state.claims },
        strict: { checked: state.strict },
        ...lengthView(state, "claimed"),
        ...lengthView(state, "best"),
        share: { hidden: !hasFiles },
        "link-told": shownText(state.link),
    };
}

/**
 * A slot: its file, and those that it may have in its place.
 *
 * @param {State} state
 * @param {import("./roles.mjs").Slot} slot
 * @returns {View}
 */
function slotView(state, slot) {
    const [list, one] = [state.files[slot], givenOf(state, slot)];
    const name = one === null ? "none" : `${one.name}, ${one.bytes.length.toLocaleString("en")} bytes`;
    const isOffered = slot !== "solution" && list.length > 1;
    const offered = list.map((given, at) =>
        buttonOf(given.name, "choose", { "data-slot": slot, "data-at": at, "aria-pressed": String(at === state.chosen[slot]) }),
    );
    return {
        [`${slot}-name`]: { text: list.length > 1 ? `${list.length} ${slot === "solution" ? "tours" : "files, of which one is judged:"}` : name },
        [`${slot}-remove`]: { hidden: one === null },
        [`${slot}-offered`]: { hidden: !isOffered, items: isOffered ? offered : [] },
        [`${slot}-slot`]: { attributes: { "data-over": state.over === slot ? "" : null } },
    };
}

/**
 * A length that is put in.
 *
 * @param {State} state
 * @param {"claimed" | "best"} id
 * @returns {View}
 */
function lengthView(state, id) {
    const isFault = lengthOf(state[id]) === undefined;
    return { [id]: { value: state[id], attributes: { "aria-invalid": String(isFault) } }, [`${id}-fault`]: { hidden: !isFault } };
}

/**
 * What is done now, and how far it is: for files that are read, and for what takes more than a second.
 *
 * @param {State} state
 * @returns {View}
 */
function workView({ work, seconds }) {
    if (work === null) {
        return { doing: { hidden: true }, progress: { hidden: true }, stop: { hidden: true } };
    }
    const { words, done, all } = work;
    const isReading = words.startsWith("reading ");
    const count = all === 0 ? "" : isReading ? `: ${Math.round((100 * done) / all)} %` : `, ${done + 1} of ${all}`;
    const isShown = isReading || seconds > 0;
    return {
        doing: { text: `${words}${count}${seconds > 0 ? `, ${seconds} s` : ""}`, hidden: !isShown },
        progress: { hidden: !isShown, attributes: { value: all > 0 ? String(done) : null, max: all > 0 ? String(all) : null } },
        stop: { hidden: false },
    };
}

/**
 * The verdict and all that is said of it.
 *
 * @param {State} state
 * @returns {View}
 */
function verdictView(state) {
    const { outcome, told } = state;
    if (outcome === null) {
        const none = { hidden: true };
        return {
            verdict: { kind: told.kind, text: told.word },
            meaning: { text: told.meaning },
            cautions: none,
            explanation: none,
            "own-claim": none,
            made: none,
            details: none,
            "no-drawing": none,
        };
    }
    const { meaning, rest } = partsOf(outcome.explanation);
    const [kind, word, means] = headlineOf(outcome, meaning);
    const [instance, one, certificate] = SLOTS.map((slot) => givenOf(state, slot));
    const cautions = [misplaced({ instance, solution: one, certificate }), ...cautionsOf(outcome)].filter(Boolean);
    const said = outcome.status === Status.FAULT ? rest : outcome.explanation;
    return {
        verdict: { kind, text: word },
        meaning: { text: outcome.rows.length > 0 && one ? `${one.name}: ${means}` : means },
        cautions: { hidden: cautions.length === 0, items: cautions.map((text) => ({ name: "li", text })) },
        explanation: shownText(said.replace(/^  /gm, "").trimEnd()),
        "own-claim": shownText(outcome.claim === null ? "" : `The file claims the length ${outcome.claim}.`),
        made: { hidden: outcome.made.length === 0, items: outcome.made.map(madeItem) },
        details: { hidden: false },
        report: { text: outcome.text },
        command: { text: outcome.command },
        "command-note": shownText(noteOfCommand(outcome)),
        "no-drawing": { hidden: outcome.scene !== null || instance === null || outcome.status !== Status.YES },
    };
}

/**
 * A file that was made, with the button that saves it.
 *
 * @param {import("./made.mjs").Made} made
 * @param {number} at
 * @returns {Item}
 */
function madeItem({ from, form, given }, at) {
    return { name: "p", items: [{ name: "span", text: `${from} was read as ${form}. ` }, buttonOf(`Save ${given.name}`, "save-made", { "data-at": at })] };
}

/**
 * What comes of several tours. The button of one shows it.
 *
 * @param {State} state
 * @returns {View}
 */
function rowsView({ outcome, chosen }) {
    const rows = outcome?.rows ?? [];
    const columns = columnsOf(rows);
    const cellOf = (/** @type {import("./rows.mjs").Row} */ row, /** @type {number} */ at) =>
        columns.map(({ title, part }) => {
            const text = part === "name" ? "" : row[part];
            const items = part === "name" ? [buttonOf(row.name, "choose", { "data-slot": "solution", "data-at": at })] : [];
            return { name: "td", attributes: { "data-title": title, class: text || items.length > 0 ? "" : "empty" }, text, items };
        });
    return {
        rows: { hidden: rows.length === 0 },
        "save-rows": { hidden: rows.length === 0 },
        "rows-head": { items: columns.map(({ title }) => ({ name: "th", text: title })) },
        "rows-body": {
            items: rows.map((row, at) => ({
                name: "tr",
                attributes: /** @type {Record<string, string>} */ (at === chosen.solution ? { "aria-current": "true" } : {}),
                items: cellOf(row, at),
            })),
        },
    };
}
