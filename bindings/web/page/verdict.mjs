// An outcome in words: its verdict in large letters, what the verdict means and ignores, and what to do before running the
// command. view.mjs shows them.

import { Status } from "../../javascript/codes.mjs";
import { verdictOf } from "../../javascript/report.mjs";

/**
 * What has to be done before the command.
 *
 * @param {import("./outcome.mjs").Outcome} outcome
 * @returns {string}
 */
export function noteOfCommand({ made }) {
    return made.length === 0 ? "" : `First save ${made.map(({ given }) => given.name).join(" and ")} next to the other files, with the buttons above.`;
}

/**
 * What the verdict doesn't speak of, or speaks of only in part.
 *
 * @param {import("./outcome.mjs").Outcome} outcome
 * @returns {string[]}
 */
export function cautionsOf({ report, made, caution }) {
    const unknown = report?.notJudged.join(", ") ?? "";
    return [
        unknown && `Not judged: ${unknown}. The verdict ignores these lines.`,
        made.some(({ slot }) => slot === "instance") ? "The distances on the globe were turned into weights, and the verdict is about these weights." : "",
        caution,
    ].filter(Boolean);
}

/**
 * What an explanation says the fault means, without its place, and the rest of it.
 *
 * @param {string} explanation
 * @returns {{ meaning: string, rest: string }}
 */
export function partsOf(explanation) {
    const lines = explanation.split("\n");
    const start = lines.findIndex((line) => /^  \S/.test(line));
    const count = lines.slice(start).findIndex((line) => !/^  \S/.test(line));
    const meant = start < 0 ? [] : lines.splice(start, count < 0 ? lines.length : count);
    return { meaning: meant.map((line) => line.trim()).join(" "), rest: lines.join("\n") };
}

/**
 * The kind of an outcome, its verdict in large letters, and what it means.
 *
 * @param {import("./outcome.mjs").Outcome} outcome
 * @param {string} explained what a fault means
 * @returns {[string, string, string]}
 */
export function headlineOf({ status, report, text }, explained) {
    if (report) {
        const { word, meaning } = verdictOf(report);
        return [report.yes ? "yes" : "no", word, meaning];
    }
    if (status === Status.OUT_OF_MEMORY) {
        return ["fault", "Out of memory", "The browser doesn't have enough memory. Use the program tsp."];
    }
    if (status === Status.FAULT) {
        return ["fault", "Fault", explained || text.trim()];
    }
    return ["none", "A valid file", "For a verdict, choose an instance and a tour, or an instance and a certificate."];
}
