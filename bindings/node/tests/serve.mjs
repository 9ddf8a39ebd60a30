// Runs in one process of Node. Each line of standard input is a run, {"words": [..], "folder": PATH}, and for each one
// line is written, {"status": N, "out": TEXT, "err": TEXT}, with texts in base64.
// bindings/node/test runs the two programs that use it, in the suite `node` of ./check.

import { createInterface } from "node:readline";

/**
 * @param {(words: string[]) => { status: number, out: Uint8Array, err: Uint8Array }} run in the current folder
 */
export async function serve(run) {
    for await (const line of createInterface({ input: process.stdin })) {
        const { words, folder } = JSON.parse(line);
        process.chdir(folder);
        const { status, out, err } = run(words);
        const [first, second] = [out, err].map((bytes) => Buffer.from(bytes).toString("base64"));
        process.stdout.write(`${JSON.stringify({ status, out: first, err: second })}\n`);
    }
}
