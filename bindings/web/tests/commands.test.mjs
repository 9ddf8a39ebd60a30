// Each command that the page prints, run by a shell in a folder with the files that it is about, ends and prints as the page
// says: PAGE=PATH [TSP=PROGRAM] node --test commands.test.mjs
// bindings/web/test runs it, in the suite `bindings` of ./check.

import assert from "node:assert/strict";
import { spawnSync } from "node:child_process";
import { mkdtempSync, readFileSync, rmSync, writeFileSync } from "node:fs";
import { tmpdir } from "node:os";
import { join } from "node:path";
import { test } from "node:test";
import { fileURLToPath } from "node:url";

import { By } from "../../javascript/codes.mjs";
import { run } from "../page/outcome.mjs";
import { libraryOf } from "./module.mjs";

const { PAGE = "", TSP = "" } = process.env;
const EXAMPLES = new URL("../../../examples/", import.meta.url);
const PROGRAM = TSP === "" ? ["node", fileURLToPath(new URL("program.mjs", import.meta.url)), PAGE] : [TSP];
const example = (name) => ({ name: name.split("/").at(-1), bytes: new Uint8Array(readFileSync(new URL(name, EXAMPLES))) });
const named = (name, words) => ({ name, bytes: new TextEncoder().encode(words) });

const NOTHING = { instance: null, solution: null, certificate: null, by: By.POTENTIALS, claimed: null, foreign: true, claims: true };
const HARBOUR = { ...NOTHING, instance: example("harbour.tsp"), solution: example("harbour.tour") };
const ORCHARD = { ...NOTHING, instance: example("orchard.tsp"), solution: example("orchard.tour"), certificate: example("orchard.branches"), by: By.BRANCHES };
const DAIRY = { ...NOTHING, instance: example("dairy.vrp"), solution: example("solvers/dairy.cvrplib.sol") };
const GEO = named("globe.tsp", "NAME : globe\nTYPE : TSP\nDISTANCE : 5\nDIMENSION : 3\nEDGE_WEIGHT_TYPE : GEO\nNODE_COORD_SECTION\n1 0 0\n2 0.0 9e1\n3 90.00 0\nEOF\n");
const TOUR = named("globe.tour", "TYPE : TOUR\nTOUR_SECTION\n1 2 3 -1\nEOF\n");

const JOBS = {
    "a tour": HARBOUR,
    "a tour with potentials": { ...HARBOUR, certificate: example("harbour-zero.potentials") },
    "a tour with branches": ORCHARD,
    "a bound": { ...ORCHARD, solution: null },
    "a bound, strictly": { ...ORCHARD, solution: null, strict: true },
    "a claimed length": { ...HARBOUR, claimed: 225n },
    "a claimed length below 0": { ...HARBOUR, claimed: -15n },
    "an instance alone": { ...HARBOUR, solution: null },
    "a tour alone": { ...HARBOUR, instance: null },
    "a certificate alone": { ...ORCHARD, instance: null, solution: null },
    "routes of CVRPLIB, with their cost": DAIRY,
    "routes of CVRPLIB alone": { ...DAIRY, instance: null },
    "a tour of Concorde": { ...HARBOUR, solution: example("solvers/harbour.concorde.sol") },
    "a list in JSON": { ...HARBOUR, solution: named("tour.json", "[1, 2, 3, 4, 8, 5, 6, 7]") },
    "JSON that is cut off": { ...HARBOUR, solution: named("tour.json", '{"tour": [1, 2, 3') },
    "GEO": { ...NOTHING, instance: GEO, solution: TOUR },
    "GEO, strictly": { ...NOTHING, instance: GEO, solution: TOUR, strict: true },
    "GEO and a list": { ...NOTHING, instance: GEO, solution: named("tour.txt", "1 2 3\n") },
    "GEO alone": { ...NOTHING, instance: GEO },
    "a no": { ...HARBOUR, solution: named("twice.tour", "TYPE : TOUR\nTOUR_SECTION\n1 2 3 4 8 3 6 7 -1\nEOF\n") },
    "a fault": { ...HARBOUR, solution: named("zero.tour", "TYPE : TOUR\nTOUR_SECTION\n0 1 -1\nEOF\n") },
    "a program that is installed under another name": { ...HARBOUR, program: "yokecairn" },
    "an instance alone, by such a program": { ...HARBOUR, solution: null, program: "yokecairn" },
    "names that a shell or the program would take otherwise": {
        ...HARBOUR,
        instance: { ...HARBOUR.instance, name: "-it's a $(harbour) `x`.tsp" },
        solution: { ...HARBOUR.solution, name: "-" },
        certificate: { ...example("harbour.potentials"), name: "--strict" },
    },
};

/** A folder with files, and a program of this name on the path. */
function folderWith(files, program) {
    const folder = mkdtempSync(join(tmpdir(), "tsp-command-"));
    for (const { name, bytes } of files) {
        writeFileSync(join(folder, name), bytes);
    }
    const quoted = PROGRAM.map((word) => `'${word}'`).join(" ");
    const bin = mkdtempSync(join(tmpdir(), "tsp-bin-"));
    writeFileSync(join(bin, program), `#!/bin/sh\nexec ${quoted} "$@"\n`, { mode: 0o755 });
    return { folder, bin };
}

for (const [name, job] of Object.entries(JOBS)) {
    test(`the command for ${name}`, async () => {
        const outcome = run(await libraryOf(PAGE), job);
        const given = [job.instance, job.solution, job.certificate].filter((file) => file !== null);
        const { folder, bin } = folderWith([...given, ...outcome.made.map((made) => made.given)], job.program ?? "tsp");
        const ran = spawnSync("sh", ["-c", outcome.command], { cwd: folder, env: { ...process.env, PATH: `${bin}:${process.env.PATH}` }, encoding: "utf8" });
        rmSync(folder, { recursive: true });
        rmSync(bin, { recursive: true });
        assert.equal(ran.status, outcome.status, `${outcome.command}: ${ran.stderr}`);
        const isReport = outcome.status <= 1;
        assert.equal(ran.stdout, isReport ? outcome.text : "", outcome.command);
        assert.ok(isReport || ran.stderr.startsWith(outcome.text), ran.stderr);
    });
}

test("the page says which files the command wants", async () => {
    const library = await libraryOf(PAGE);
    const made = (job) => run(library, job).made.map(({ given, from }) => [from, given.name]);
    assert.deepEqual(made(JOBS["GEO and a list"]), [["globe.tsp", "globe.weights.tsp"], ["tour.txt", "tour.tour"]]);
    assert.deepEqual(made(HARBOUR), []);
    const { caution } = run(library, JOBS["JSON that is cut off"]);
    assert.equal(caution, "tour.json begins as JSON, but ends inside of it: is the file cut off?");
    assert.match(run(library, { ...HARBOUR, solution: named("a.json", "{}") }).caution, /^a\.json isn't read as another program's solution: line 1 word 1: NoList\.$/);
});
