// `Comparison`, the result of the call `compare`: a report or an error of each solution of one instance, and its text.
// Imported by yokecairn.mjs alone.

import { Fault } from "./errors.mjs";
import { Status, Verdict } from "./codes.mjs";
import { percentOf, reasonOf, reportOf } from "./report.mjs";

/**
 * @typedef {import("../node/index.mjs").Basis} Basis
 * @typedef {import("./reporting.mjs").Report} Report
 */

/** A solution without a tour: its check says what is wrong with the instance. */
const NO_TOUR = new TextEncoder().encode("TYPE : TOUR\nTOUR_SECTION\nEOF\n");

/** The reasons that are of the instance alone. */
const OF_INSTANCE = ["TooFewNodes", "NotSymmetric", "DepotCount", "DepotDemand", "FixedEdgesInRoutes"];

/** The fields that every instance uses, or that only draw it, and the end of a text. */
const USED = [
    "NAME",
    "TYPE",
    "COMMENT",
    "DIMENSION",
    "EDGE_WEIGHT_TYPE",
    "NODE_COORD_TYPE",
    "DISPLAY_DATA_TYPE",
    "NODE_COORD_SECTION",
    "DISPLAY_DATA_SECTION",
    "FIXED_EDGES_SECTION",
    "EOF",
];

/**
 * What holds for all solutions, before any is read; null where a text has a fault.
 *
 * @param {import("./library.mjs").Library} library
 * @param {import("./judge.mjs").Judge} judge
 * @param {Uint8Array} instance
 * @param {boolean} [strict] whether lines of the instance that aren't judged are a reason
 * @returns {Basis | null}
 */
export function basisOf(library, judge, instance, strict = false) {
    if (!judge.isRead) {
        return null;
    }
    const { status, bytes, result } = judge.check(NO_TOUR, null);
    if (status !== Status.YES && status !== Status.NO) {
        return null;
    }
    const report = reportOf(result, new TextDecoder().decode(bytes));
    const { type, notJudged } = report;
    /** @type {Basis} */
    const basis = { type, nodes: result.nodes, notJudged, least: null, bound: null, noTour: false, reason: null, numbers: [], field: null };
    if (OF_INSTANCE.includes(report.reason)) {
        return { ...basis, reason: report.reason, numbers: report.numbers };
    }
    if (judge.bound !== null && judge.bound.reason !== 0) {
        return { ...basis, ...reasonOf(judge.bound) };
    }
    if (strict && notJudged.length > 0) {
        return { ...basis, reason: "NotJudged" };
    }
    const text = strict || type === "CVRP" ? new TextDecoder().decode(library.convert(instance).bytes) : "";
    const field = strict ? unusedIn(text) : null;
    if (field !== null) {
        return { ...basis, reason: "NotUsed", field };
    }
    const least = type === "CVRP" ? leastOf(text) : null;
    const known = { ...basis, least };
    return judge.bound === null ? known : { ...known, bound: judge.bound.bound, noTour: judge.bound.verdict === Verdict.NO_TOUR };
}

/**
 * The first field of an instance that its TYPE or its EDGE_WEIGHT_TYPE doesn't use, if there is one.
 *
 * @param {string} text of an instance without unknown keywords, as the library writes it
 * @returns {string | null}
 */
function unusedIn(text) {
    const used = new Set(USED);
    if (/^TYPE : CVRP$/m.test(text)) {
        ["CAPACITY", "DEMAND_SECTION", "DEPOT_SECTION"].forEach((it) => used.add(it));
    }
    if (/^EDGE_WEIGHT_(TYPE : EXPLICIT|FORMAT : FUNCTION)$/m.test(text)) {
        ["EDGE_WEIGHT_FORMAT", "EDGE_WEIGHT_SECTION"].forEach((it) => used.add(it));
    }
    const keywords = Array.from(text.matchAll(/^[A-Z][A-Z_]*/gm), ([word]) => word);
    return keywords.find((word) => !used.has(word)) ?? null;
}

/**
 * The least number of routes whose capacities sum to all demands.
 *
 * @param {string} text of a CVRP, as the library writes it
 * @returns {number}
 */
function leastOf(text) {
    const capacity = BigInt(/^CAPACITY : (\d+)$/m.exec(text)?.[1] ?? "0") || 1n;
    const [, demands = ""] = /^DEMAND_SECTION\n((?:\d+ \d+\n)*)/m.exec(text) ?? [];
    const all = demands.split("\n").reduce((sum, line) => sum + BigInt(line.split(" ")[1] ?? "0"), 0n);
    return Number((all + capacity - 1n) / capacity);
}

/** What comes of each of several solutions. */
export class Comparison {
    /**
     * @param {Basis} basis
     * @param {string[]} names of the solutions
     * @param {(Report | Error)[]} outcomes
     */
    constructor(basis, names, outcomes) {
        this.basis = basis;
        this.names = names;
        this.outcomes = outcomes;
    }

    /** What `tsp compare` prints. */
    toString() {
        const { type, nodes, notJudged, least, bound, noTour, reason, numbers, field } = this.basis;
        const lines = [`type ${type}`, `nodes ${nodes}`, ...notJudged.map((it) => `not judged ${it}`)];
        if (reason !== null) {
            lines.push(["no", reason, ...numbers, ...(reason === "NotJudged" ? notJudged.slice(0, 1) : field === null ? [] : [field])].join(" "));
        } else if (noTour) {
            lines.push("bound none");
        } else {
            lines.push(...(least === null ? [] : [`least ${least}`]), ...(bound === null ? [] : [`bound ${bound}`]));
        }
        return [...lines, ...this.outcomes.map((outcome, at) => lineOf(this.names[at], outcome)), ""].join("\n");
    }

    /** The rows of a table, with a tab between the cells. Its columns and verdicts are named as in the package for Python. */
    toTSV() {
        const known = this.basis.bound ?? "";
        const rows = this.outcomes.map((outcome, at) => {
            if (outcome instanceof Error) {
                const verdict = outcome instanceof Fault ? "fault" : "unread";
                const detail = outcome instanceof Fault ? outcome.told.replace(/^file \d+: /, "") : outcome.message;
                return [this.names[at], verdict, "", known, "", "", "", detail];
            }
            const { yes, length, gap, optimal, routes, reason, numbers } = outcome;
            const verdict = optimal ? "optimal" : yes ? "yes" : "no";
            const detail = [reason ?? "", ...numbers].join(" ");
            return [this.names[at], verdict, length ?? "", known, gap ?? "", percentOf(outcome), routes ?? "", detail];
        });
        const head = ["solution", "verdict", "length", "bound", "gap", "gap_percent", "routes", "detail"];
        return [head, ...rows].map((row) => `${row.map((it) => String(it).replace(/[\t\n]/g, " ")).join("\t")}\n`).join("");
    }
}

/**
 * The line of `tsp compare` for a solution.
 *
 * @param {string} name
 * @param {Report | Error} outcome
 * @returns {string}
 */
function lineOf(name, outcome) {
    if (outcome instanceof Fault) {
        return `${outcome.told.replace(/^file \d+: /, "")} ${name}`;
    }
    if (outcome instanceof Error) {
        return `device ${name}`;
    }
    const { yes, length, gap, optimal, routes, reason, numbers } = outcome;
    if (!yes) {
        return ["no", reason, ...numbers, name].join(" ");
    }
    const words = routes === null ? [length] : [length, "routes", routes];
    return [...words, ...(optimal ? ["optimal"] : gap === null ? [] : ["gap", gap]), name].join(" ");
}
