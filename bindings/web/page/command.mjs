// What the given files ask for: the verb of the program, and the call of the program that does the same. outcome.mjs and
// state.mjs use it.

import { By } from "../../javascript/codes.mjs";

/**
 * @typedef {object} Given
 * @property {string} name of the file
 * @property {Uint8Array} bytes
 *
 * @typedef {object} Job
 * @property {Given | null} instance
 * @property {Given | null} solution
 * @property {Given | null} certificate
 * @property {number} by how the certificate gives a bound
 * @property {bigint | null} claimed the length that the solution is said to have
 * @property {bigint | null} [best] the best-known length
 * @property {Given[]} [tours] all solutions, where there are several
 * @property {Given | null} [other] a solution whose edges are compared with those of the one that is shown
 * @property {boolean} [foreign] whether a solution may have the form of another program
 * @property {boolean} [claims] whether the length that a solution claims itself counts, where none is claimed otherwise
 * @property {boolean} [strict] whether lines of the instance that aren't judged are a reason
 * @property {string} [program] what the program is called where it is installed
 */

/**
 * The verb that these files ask for; null where they ask for none.
 *
 * @param {Pick<Job, "instance" | "solution" | "certificate">} job
 * @returns {"check" | "bound" | "show" | null}
 */
export function verbOf({ instance, solution, certificate }) {
    if (instance && solution) {
        return "check";
    }
    if (instance && certificate) {
        return "bound";
    }
    return [instance, solution, certificate].filter(Boolean).length === 1 ? "show" : null;
}

/**
 * The call of the program that does the same as a job, in a folder with its files.
 *
 * @param {Job} job
 * @returns {string}
 */
export function commandOf(job) {
    const verb = verbOf(job);
    const program = job.program ?? "tsp";
    if (verb === "show") {
        return `${program} show ${pathOf(oneOf(job))}`;
    }
    const words = [job.instance, job.solution].flatMap((given) => (given ? [pathOf(given)] : []));
    if (job.certificate) {
        words.push(job.by === By.BRANCHES ? "--branches" : "--potentials", pathOf(job.certificate));
    }
    if (job.claimed !== null && verb === "check") {
        words.push(`--length=${job.claimed}`);
    }
    return [program, verb, ...words, ...(job.strict ? ["--strict"] : [])].join(" ");
}

/**
 * @param {Job} job
 * @returns {Given} the first file that is given
 */
export function oneOf(job) {
    return job.instance ?? job.solution ?? /** @type {Given} */ (job.certificate);
}

/**
 * A file as a word of a shell, which the program doesn't take for an option or for standard input.
 *
 * @param {Given} given
 * @returns {string}
 */
function pathOf({ name }) {
    const path = name.startsWith("-") ? `./${name}` : name;
    return /^[\w.\/+-]+$/.test(path) ? path : `'${path.replaceAll("'", "'\\''")}'`;
}
