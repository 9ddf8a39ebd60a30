// The package for a browser and for bundlers: texts alone, without files. The module is compiled when this is loaded.
// It exports the names of index.mjs, and imports nothing of Node. bindings/node/build writes module.mjs beside it: the
// library as WebAssembly, in base64.

import { system } from "../javascript/sources.mjs";
import { check } from "../javascript/yokecairn.mjs";
import { LIBRARY } from "./module.mjs";

const module = await WebAssembly.compile(Uint8Array.from(atob(LIBRARY), (letter) => letter.charCodeAt(0)));
system.module = () => module;

export * from "../javascript/yokecairn.mjs";

/**
 * @param {Iterable<import("./index.mjs").Job>} jobs
 * @param {import("./index.mjs").ManyOptions} [options]
 * @returns {Promise<(import("../javascript/yokecairn.mjs").Report | Error)[]>}
 */
export async function checkMany(jobs, options = {}) {
    const { progress } = options;
    const all = [...jobs];
    const found = [];
    for (const { instance, solution, ...options } of all) {
        found.push(outcomeOf(() => check(instance, solution, options)));
        progress?.(found.length, all.length, found[found.length - 1]);
        await new Promise((done) => setTimeout(done)); // (so that the page lives)
    }
    return found;
}

/**
 * @template T
 * @param {() => T} call
 * @returns {T | Error}
 */
function outcomeOf(call) {
    try {
        return call();
    } catch (error) {
        return error instanceof Error ? error : new Error(String(error));
    }
}
