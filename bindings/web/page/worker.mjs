// The worker of the page, which runs jobs (outcome.mjs) outside of the page's own thread. The first message is the module,
// each later one a job. bindings/web/build joins it and what it imports into tsp.html.

import { Library } from "../../javascript/library.mjs";
import { run } from "./outcome.mjs";
import { risingOf } from "./rising.mjs";

/** @type {Promise<WebAssembly.Module> | null} */
let module = null;

addEventListener("message", async ({ data }) => {
    try {
        if (module === null) {
            module = WebAssembly.compile(data);
            postMessage({ version: (await Library.of(await module)).version() });
        } else if (data.scene) {
            postMessage({ rising: risingOf(await Library.of(await module), data) });
        } else {
            // (a new memory for each job)
            const library = await Library.of(await module);
            postMessage({ outcome: run(library, data, (words, done = 0, all = 0) => postMessage({ progress: { words, done, all } })) });
        }
    } catch (error) {
        postMessage({ failed: String(error) });
    }
});
