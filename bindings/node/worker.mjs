// A worker that many.mjs starts for `checkMany`: each message is a job, and gets one answer, a report or an error.

import { parentPort } from "node:worker_threads";

import { Fault, check } from "./index.mjs";

parentPort?.on("message", (/** @type {import("./index.mjs").Job} */ { instance, solution, ...options }) => {
    parentPort?.postMessage(answerOf(() => check(instance, solution, options)));
});

/**
 * @param {() => import("./index.mjs").Report} call
 * @returns {import("./many.mjs").Answer}
 */
function answerOf(call) {
    try {
        return { report: { ...call() } };
    } catch (error) {
        if (error instanceof Fault) {
            const { told, explanation, path } = error;
            return { fault: { told, explanation, path } };
        }
        return error instanceof Error ? { error, name: error.constructor.name } : { error: new Error(String(error)) };
    }
}
