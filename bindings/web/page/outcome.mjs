// What comes of the files of a job: it is made in the worker, by the library, and tells how far it is. worker.mjs calls it.

import { Judge } from "../../javascript/judge.mjs";
import { By, Call, Status } from "../../javascript/codes.mjs";
import { reportOf } from "../../javascript/report.mjs";
import { branchesOf } from "./branches.mjs";
import { commandOf, oneOf, verbOf } from "./command.mjs";
import { madeOfGeo, ownClaimOf, readOf } from "./made.mjs";
import { rowOf } from "./rows.mjs";
import { sceneOf } from "./scene.mjs";
import { textOfAnswer } from "./sections.mjs";

/**
 * @typedef {import("./command.mjs").Given} Given
 * @typedef {import("./command.mjs").Job} Job
 * @typedef {import("../../javascript/library.mjs").Library} Library
 *
 * @typedef {object} Outcome
 * @property {string} command the same call of the program
 * @property {number} status
 * @property {Uint8Array} bytes the report, what is shown of the file, or the line of a fault
 * @property {string} text the same as a text
 * @property {string} explanation
 * @property {import("../../javascript/report.mjs").Report | null} report of a check or a bound
 * @property {import("./scene.mjs").Scene | null} scene
 * @property {import("./branches.mjs").Branches | null} branches of the certificate
 * @property {import("./made.mjs").Made[]} made
 * @property {string} caution what is wrong with a solution that seems to be of another program
 * @property {bigint | null} claim the length that the solution claims itself, where that counts
 * @property {import("./rows.mjs").Row[]} rows
 *
 * @typedef {object} Progress
 * @property {string} words what is done now
 * @property {number} done how much of it is done
 * @property {number} all 0 where that isn't known
 *
 * @typedef {(words: string, done?: number, all?: number) => void} Tell
 */

const NO_TEXT = new Uint8Array();

/**
 * Does what the files ask for.
 *
 * @param {Library} library
 * @param {Job} given whose verb isn't null
 * @param {Tell} [tell]
 * @returns {Outcome}
 */
export function run(library, given, tell = () => {}) {
    tell("reading");
    const weights = given.instance ? madeOfGeo(given.instance) : null;
    const job = weights ? { ...given, instance: weights.given } : given;
    const { made: tour, caution } = readOf(library, job, job.solution);
    const solution = tour?.given ?? job.solution;
    const claim = solution && job.instance ? ownClaimOf(job, solution.bytes) : null;
    const whole = { ...job, solution, claimed: job.claimed ?? claim };
    tell("judging");
    const answer = answerOf(library, whole);
    tell("explaining");
    const explanation = new TextDecoder().decode(explanationOf(library, whole));
    const rows = rowsOfTours(library, job, tell);
    tell("drawing");
    return {
        ...answer,
        ...drawnOf(library, { ...whole, other: job.other ? readOf(library, job, job.other).made?.given ?? job.other : null }, answer.report, weights !== null),
        command: commandOf(whole),
        explanation,
        made: [weights, tour].flatMap((it) => it ?? []),
        caution,
        claim,
        rows,
    };
}

/**
 * What comes of each solution, where there are several.
 *
 * @param {Library} library
 * @param {Job} job
 * @param {Tell} tell
 * @returns {import("./rows.mjs").Row[]}
 */
function rowsOfTours(library, job, tell) {
    const tours = job.instance && (job.tours ?? []).length > 1 ? (job.tours ?? []) : [];
    if (job.instance === null || tours.length === 0) {
        return [];
    }
    const judge = new Judge(library, job.instance.bytes, job.certificate?.bytes ?? NO_TEXT, byOf(job));
    const rows = tours.map((solution, at) => {
        tell(`judging ${solution.name}`, at, tours.length);
        const { bytes } = readOf(library, job, solution).made?.given ?? solution;
        return rowOf(solution.name, judge.check(bytes, job.claimed ?? ownClaimOf(job, bytes), job.strict), job.best ?? null);
    });
    judge.close();
    return rows;
}

/**
 * What is drawn of a job.
 *
 * @param {Library} library
 * @param {Job} job
 * @param {import("../../javascript/report.mjs").Report | null} report
 * @param {boolean} isGeo
 * @returns {Pick<Outcome, "scene" | "branches">}
 */
function drawnOf(library, { instance, solution, other, certificate, by }, report, isGeo) {
    if (instance === null) {
        return { scene: null, branches: null };
    }
    const scene = sceneOf(library, { instance: instance.bytes, solution: solution?.bytes ?? null, report, other, isGeo });
    const text = certificate && by === By.BRANCHES ? textOfAnswer(library.convert(certificate.bytes)) : "";
    const nodes = Number(/^nodes (\d+)$/m.exec(textOfAnswer(library.show(instance.bytes)))?.[1] ?? 0);
    return { scene, branches: branchesOf(text, nodes) };
}

/**
 * What a verb answers: with its report, where files are judged.
 *
 * @param {Library} library
 * @param {Job} job
 * @returns {Pick<Outcome, "status" | "bytes" | "text" | "report">}
 */
function answerOf(library, job) {
    const verb = verbOf(job);
    if (verb === "show") {
        const { status, bytes } = library.show(oneOf(job).bytes);
        return { status, bytes, text: new TextDecoder().decode(bytes), report: null };
    }
    const [instance, solution, certificate] = textsOf(job);
    const { status, bytes, result } =
        verb === "check"
            ? library.check(instance, solution, certificate, byOf(job), job.claimed, job.strict)
            : library.bound(instance, certificate, byOf(job), job.strict);
    const text = new TextDecoder().decode(bytes);
    return { status, bytes, text, report: status === Status.YES || status === Status.NO ? reportOf(result, text) : null };
}

/**
 * @param {Library} library
 * @param {Job} job
 * @returns {Uint8Array}
 */
function explanationOf(library, job) {
    const verb = verbOf(job);
    if (verb === "show") {
        const one = oneOf(job);
        return library.explain(Call.SHOW, [one.bytes, NO_TEXT, NO_TEXT], [one.name, "", ""], 0, null).bytes;
    }
    const names = [job.instance, job.solution, job.certificate].map((given) => given?.name ?? "");
    const call = verb === "check" ? Call.CHECK : Call.BOUND;
    return library.explain(call, textsOf(job), names, byOf(job), job.claimed, job.strict).bytes;
}

/**
 * @param {Job} job
 * @returns {Uint8Array[]} the texts of the instance, the solution and the certificate
 */
function textsOf(job) {
    return [job.instance, job.solution, job.certificate].map((given) => given?.bytes ?? NO_TEXT);
}

/**
 * @param {Job} job
 * @returns {number} how the job gets its bound
 */
function byOf(job) {
    return job.certificate ? job.by : By.NOTHING;
}
