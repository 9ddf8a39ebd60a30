// The program's verbs over the module of a built page: node program.mjs PAGE [WORD..]
//
// With words it is one run of the program in this folder. Else each line of standard input is a run,
// {"words": [..], "folder": PATH}, and for each one line is written, {"status": N, "out": TEXT, "err": TEXT}, with texts in base64.
// bindings/web/test runs it, in the suite `bindings` of ./check.

import { existsSync, readFileSync } from "node:fs";
import { join } from "node:path";
import { createInterface } from "node:readline";

import { By, LAYOUTS, Status } from "../../javascript/codes.mjs";
import { run } from "../page/outcome.mjs";
import { libraryOf } from "./module.mjs";
import { lengthOf, sorted } from "./words.mjs";

const REFUSED = 4;
const NOTHING = Buffer.alloc(0);

/**
 * @param {import("../../javascript/library.mjs").Library} library
 * @param {string[]} words
 * @param {string} folder
 */
function called(library, words, folder) {
    const [verb, ...rest] = words;
    const { options, paths } = sorted(rest);
    const given = (path) => (path === undefined ? null : { name: path, bytes: readFileSync(join(folder, path)) });
    if (verb === "convert") {
        return converted(library, given(paths[0]), options.get("layout"));
    }
    const claimed = options.has("length") ? lengthOf(options.get("length") ?? "") : null;
    if (options.has("length") && claimed === null) {
        return { status: REFUSED, out: NOTHING, err: Buffer.from("not a length\n") };
    }
    const by = options.has("branches") ? By.BRANCHES : By.POTENTIALS;
    const certificate = given(options.get("branches") ?? options.get("potentials"));
    const job = { instance: given(paths[0]), solution: given(paths[1]), certificate, by, claimed, strict: options.has("strict") };
    return judged(library, job, options.has("explain"));
}

/**
 * @param {import("../../javascript/library.mjs").Library} library
 * @param {import("../page/command.mjs").Job} job
 * @param {boolean} explains
 */
function judged(library, job, explains) {
    const { status, bytes, explanation } = run(library, job);
    const isReport = status === Status.YES || status === Status.NO;
    const told = explains ? Buffer.from(explanation) : NOTHING;
    return isReport
        ? { status, out: bytes, err: told }
        : { status, out: NOTHING, err: Buffer.concat([bytes, told]) };
}

/**
 * @param {import("../../javascript/library.mjs").Library} library
 * @param {import("../page/command.mjs").Given} file
 * @param {string | undefined} layout
 */
function converted(library, file, layout) {
    const number = layout === undefined ? 0 : LAYOUTS.indexOf(layout) + 1;
    if (layout !== undefined && number === 0) {
        return { status: REFUSED, out: NOTHING, err: Buffer.from("unknown layout\n") };
    }
    const { status, bytes } = library.convert(file.bytes, number);
    return status === Status.YES ? { status, out: bytes, err: NOTHING } : { status, out: NOTHING, err: bytes };
}

const [page, ...words] = process.argv.slice(2);
if (!page || !existsSync(page)) {
    process.stderr.write("usage: node program.mjs PAGE [WORD..]\n");
    process.exit(4);
}
const library = await libraryOf(page);
if (words.length > 0) {
    const { status, out, err } = called(library, words, process.cwd());
    process.stdout.write(out);
    process.stderr.write(err);
    process.exit(status);
}
for await (const line of createInterface({ input: process.stdin })) {
    const { words, folder } = JSON.parse(line);
    const { status, out, err } = called(library, words, folder);
    const [first, second] = [out, err].map((bytes) => Buffer.from(bytes).toString("base64"));
    process.stdout.write(`${JSON.stringify({ status, out: first, err: second })}\n`);
}
