// What comes of each of several solutions, as rows of a table. outcome.mjs makes them; view.mjs shows them, and page.mjs saves
// them.

import { Status } from "../../javascript/codes.mjs";
import { percentOf, reportOf, verdictOf } from "../../javascript/report.mjs";

/**
 * @typedef {object} Row what comes of one of several solutions
 * @property {string} name
 * @property {string} word
 * @property {string} length empty where there is none
 * @property {string} gap
 * @property {string} percent the gap in percent of the bound
 * @property {string} routes how many there are
 * @property {string} over by how many percent the length is above the best-known one
 */

/** The columns: the title of each, what it is called in a file, and which part of a row it shows. */
const COLUMNS = /** @type {const} */ ([
    ["Tour", "solution", "name"],
    ["Verdict", "verdict", "word"],
    ["Length", "length", "length"],
    ["Routes", "routes", "routes"],
    ["Gap", "gap", "gap"],
    ["Gap in %", "gap_percent", "percent"],
    ["Above the best known in %", "best_percent", "over"],
]);

/** The order of the columns in a file, which stays as it was first. */
const SAVED = /** @type {const} */ (["name", "word", "length", "gap", "percent", "routes", "over"]);

/**
 * The row of a solution.
 *
 * @param {string} name
 * @param {import("../../javascript/answers.mjs").Judged} judged
 * @param {bigint | null} best the best-known length
 * @returns {Row}
 */
export function rowOf(name, { status, bytes, result }, best) {
    const text = new TextDecoder().decode(bytes);
    if (status !== Status.YES && status !== Status.NO) {
        return { name, word: text.trim() || "Out of memory", length: "", gap: "", percent: "", routes: "", over: "" };
    }
    const report = reportOf(result, text);
    const word = report.yes ? verdictOf(report).word : [`No: ${report.reason}`, ...report.numbers].join(" ");
    const [length, gap, routes] = [report.length, report.gap, report.routes].map((number) => String(number ?? ""));
    return { name, word, length, gap, percent: percentOf(report), routes, over: percentOf({ length: report.length, bound: best }) };
}

/**
 * The columns that aren't empty in all rows.
 *
 * @param {Row[]} rows
 * @returns {{ title: string, part: keyof Row }[]}
 */
export function columnsOf(rows) {
    return COLUMNS.filter(([, , part]) => rows.some((row) => row[part] !== "")).map(([title, , part]) => ({ title, part }));
}

/**
 * The rows as a text, a tab between the cells.
 *
 * @param {Row[]} rows
 * @returns {string}
 */
export function tableOf(rows) {
    const head = SAVED.map((part) => COLUMNS.find(([, , one]) => one === part)?.[1] ?? "");
    const lines = rows.map((row) => SAVED.map((part) => row[part].replace(/[\t\n]/g, " ")));
    return [head, ...lines].map((line) => `${line.join("\t")}\n`).join("");
}
