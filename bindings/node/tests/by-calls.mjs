// The program's verbs by the package's calls: node by-calls.mjs PACKAGE
// bindings/node/test runs it, in the suite `node` of ./check.

import { join } from "node:path";
import { pathToFileURL } from "node:url";

import { lengthOf, sorted } from "../../web/tests/words.mjs";
import { serve } from "./serve.mjs";

const api = await import(pathToFileURL(join(process.argv[2], "node/index.mjs")).href);
const REFUSED = 4;

/** What the calls of a verb write, and the status. */
function judged(verb, [first, ...others], options, explain) {
    const certificate = Object.fromEntries(["potentials", "branches"].flatMap((name) => (options.has(name) ? [[name, options.get(name)]] : [])));
    const strict = options.has("strict");
    if (verb === "compare") {
        const compared = api.compare(first, others, { ...certificate, strict });
        const isYes = compared.basis.reason === null && compared.outcomes.every((it) => it.yes);
        const worst = compared.outcomes.reduce((most, it) => Math.max(most, it instanceof api.Report ? Number(!it.yes) : 2), 0);
        return { status: isYes ? 0 : compared.basis.reason === null ? worst : 1, out: String(compared), err: "" };
    }
    const claimed = options.has("length") ? { length: lengthOf(options.get("length")) } : {};
    const asked = { ...certificate, ...claimed, explain, strict };
    const report = verb === "bound" ? api.bound(first, { ...certificate, explain, strict }) : api.check(first, others[0], asked);
    return { status: Number(!report.yes), out: report.text, err: report.explanation && `${report.explanation}\n` };
}

/** What a run writes, and its status. */
function ran([verb, ...rest]) {
    const { options, paths } = sorted(rest);
    const explain = options.has("explain");
    if (options.has("length") && lengthOf(options.get("length")) === null) {
        return { status: REFUSED, out: "", err: "not a length\n" };
    }
    try {
        if (verb === "show") {
            return { status: 0, out: api.show(paths[0]), err: "" };
        }
        if (verb === "convert") {
            return { status: 0, out: api.convert(paths[0], options.get("layout")), err: "" };
        }
        return judged(verb, paths, options, explain);
    } catch (error) {
        if (error instanceof RangeError) {
            return { status: REFUSED, out: "", err: "unknown layout\n" };
        }
        if (!(error instanceof api.Fault)) {
            throw error;
        }
        const told = explain && error.explanation ? `${error.explanation}\n` : "";
        return { status: error.told.startsWith("relayout") ? 1 : 2, out: "", err: `${error.told}\n${told}` };
    }
}

await serve((words) => {
    const { status, out, err } = ran(words);
    return { status, out: Buffer.from(out), err: Buffer.from(err) };
});
