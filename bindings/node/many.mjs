// The call `checkMany`: many checks at once, each by a worker of Node (worker.mjs). index.mjs exports it; browser.mjs has
// one without workers.

import { once } from "node:events";
import { availableParallelism } from "node:os";
import { Worker } from "node:worker_threads";

import { Fault, NodeError, OutOfMemory } from "../javascript/errors.mjs";
import { Problem, Report } from "../javascript/yokecairn.mjs";

/**
 * @typedef {import("./index.mjs").Job} Job
 * @typedef {import("./index.mjs").Source} Source
 * @typedef {import("./index.mjs").Solution} Solution
 *
 * What a worker answers: the fields of a report, or an error.
 *
 * @typedef {{ report?: object, fault?: { told: string, explanation: string, path: string }, error?: Error, name?: string }} Answer
 */

/**
 * @param {Iterable<Job>} jobs
 * @param {import("./index.mjs").ManyOptions} [options]
 * @returns {Promise<(Report | Error)[]>}
 */
export async function checkMany(jobs, options = {}) {
    const { workers = availableParallelism(), progress } = options;
    const all = [...jobs].map(posted);
    /** @type {(Report | Error)[]} */
    const found = new Array(all.length);
    let following = 0;
    let done = 0;
    const serve = async () => {
        const worker = new Worker(new URL("./worker.mjs", import.meta.url));
        try {
            while (following < all.length) {
                const number = following++;
                worker.postMessage(all[number]);
                const [answer] = await once(worker, "message");
                found[number] = outcomeOf(answer);
                progress?.(++done, all.length, found[number]);
            }
        } finally {
            await worker.terminate();
        }
    };
    await Promise.all(Array.from({ length: Math.max(1, Math.min(workers, all.length)) }, serve));
    return found;
}

/**
 * A job as a worker can take it.
 *
 * @param {Job} job
 * @returns {Job}
 */
function posted(job) {
    /**
     * @template {Source | Solution | undefined} T
     * @param {T} source
     */
    const plain = (source) => (source instanceof Problem ? source.bytes : source instanceof URL ? source.pathname : source);
    const { instance, solution, potentials, branches, ...options } = job;
    const parts = { instance: plain(instance), solution: plain(solution), potentials: plain(potentials), branches: plain(branches) };
    return /** @type {Job} */ ({ ...options, ...Object.fromEntries(Object.entries(parts).filter(([, it]) => it !== undefined)) });
}

/**
 * @param {Answer} answer
 * @returns {Report | Error}
 */
function outcomeOf({ report, fault, error, name }) {
    if (report) {
        return Object.assign(Object.create(Report.prototype), report);
    }
    if (fault) {
        return new Fault(fault.told, fault.explanation, fault.path);
    }
    const message = error?.message ?? "a worker failed";
    const kind = [NodeError, OutOfMemory].find((it) => it.name === name);
    return kind ? new kind(message) : error ?? new Error(message);
}
