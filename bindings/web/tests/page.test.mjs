// The parts of the page, and the library in it: PAGE=PATH node --test page.test.mjs
// bindings/web/test runs it, in the suite `bindings` of ./check.

import assert from "node:assert/strict";
import { readFileSync } from "node:fs";
import { test } from "node:test";

import { By, FORMS, Section, Status, Verdict } from "../../javascript/codes.mjs";
import { percentOf, reportOf, verdictOf } from "../../javascript/report.mjs";
import { ascentOf, canRise } from "../page/ascent.mjs";
import { verbOf } from "../page/command.mjs";
import { withoutGeo } from "../page/geo.mjs";
import { claimOf, readOf } from "../page/made.mjs";
import { pictureOf } from "../page/map.mjs";
import { run } from "../page/outcome.mjs";
import { barOf, curveOf } from "../page/plots.mjs";
import { risingOf } from "../page/rising.mjs";
import { roleOf } from "../page/roles.mjs";
import { tableOf } from "../page/rows.mjs";
import { marksOf, missingOf } from "../page/scene.mjs";
import { rowsOf, toursOf } from "../page/sections.mjs";
import { WHOLE } from "../page/zoom.mjs";
import { instanceOf, optionsOf, table, textOf } from "../../../tests/support/solutions.mjs";
import { libraryOf } from "./module.mjs";

const PAGE = process.env.PAGE ?? "";
const EXAMPLES = new URL("../../../examples/", import.meta.url);
const bytesOf = (text) => new TextEncoder().encode(text);
const example = (name) => ({ name, bytes: new Uint8Array(readFileSync(new URL(name, EXAMPLES))) });
const text = (words) => ({ name: "text", bytes: bytesOf(words) });
const alone = { instance: null, solution: null, certificate: null, by: By.POTENTIALS, claimed: null };
const NUMBERS = { kind: 1, nodes: 8, verdict: Verdict.TOUR, reason: 0, first: 0n, second: 0n, length: 0n, bound: null, routes: 0 };
const reportWith = (numbers, words = "") => reportOf({ ...NUMBERS, ...numbers }, words);
const tourReport = (length, bound = null) => reportWith({ length, bound });
const refusedReport = (reason, first = 0n, second = 0n) => reportWith({ verdict: Verdict.REJECTED, reason, first, second });
const HARBOUR = { ...alone, instance: example("harbour.tsp"), solution: example("harbour.tour") };

test("a report of a result in numbers", () => {
    const words = "type TSP\nnodes 8\nnot judged DISTANCE\nlength 226\nbound 220\ngap 6\nyes\n";
    const report = reportWith({ length: 226n, bound: 220n }, words);
    assert.deepEqual([report.yes, report.type, report.length, report.bound, report.gap], [true, "TSP", 226n, 220n, 6n]);
    assert.deepEqual([report.optimal, report.noTour, report.routes], [false, false, null]);
    assert.deepEqual(report.notJudged, ["DISTANCE"]);
    const refused = refusedReport(3, 1n, 2n);
    assert.deepEqual([refused.yes, refused.reason, refused.numbers], [false, "NotSymmetric", [1, 2]]);
    assert.deepEqual([refused.length, refused.bound, refused.gap, refused.optimal], [null, null, null, false]);
    assert.deepEqual([tourReport(5n, 5n).gap, tourReport(5n).gap], [0n, null], "a gap of 0, and none");
    const table = readFileSync(new URL("../../reasons.tsv", import.meta.url), "utf8");
    const [, number, name, numbers] = table.split("\n").filter((line) => line.startsWith("reason\t")).at(-1).split("\t");
    const last = refusedReport(Number(number), 4n);
    assert.deepEqual([last.reason, last.numbers], [name, numbers.split(" ").filter(Boolean).map((_, at) => (at === 0 ? 4 : 0))]);
    assert.equal(reportWith({ kind: 3 }).type, "CVRP");
});

test("numbers above 2^53 aren't rounded", () => {
    const large = 2n ** 53n + 1n;
    assert.notEqual(BigInt(Number(large)), large, "a number would be rounded");
    assert.deepEqual([refusedReport(16, large).numbers, refusedReport(16, -large).numbers, refusedReport(16, 14n).numbers], [[large], [-large], [14n]]);
    assert.equal(verdictOf(refusedReport(16, large)).meaning, "The reason is LengthClaimed 9007199254740993.");
    const { length, bound, gap } = tourReport(2n * large, large);
    assert.deepEqual([length, bound, gap], [2n * large, large, large]);
    assert.match(verdictOf(tourReport(large)).meaning, /length is 9007199254740993\.$/);
    const texts = (picture) => picture.layers.flat().map(({ text }) => text).filter(Boolean);
    assert.deepEqual(texts(barOf(tourReport(large, large - 1n), 600)), ["bound 9007199254740992", "length 9007199254740993: gap 1"]);
    const steps = [{ bound: 1, edges: [], degrees: [] }];
    assert.ok(texts(curveOf(steps, 0, large, 600)).includes("length 9007199254740993"));
    for (const kind of [3, 11, 12, 14, 15, 22, 25]) {
        assert.equal(typeof refusedReport(kind, 7n).numbers[0], "number", "a node, a place or an index");
    }
});

test("what a verdict means", () => {
    const word = (numbers) => verdictOf(reportWith(numbers)).word;
    assert.equal(word({ length: 5n }), "Yes: a tour");
    assert.equal(word({ length: 5n, bound: 5n }), "Yes: optimal");
    assert.equal(word({ length: 0n, bound: 0n }), "Yes: optimal");
    assert.equal(word({ length: 5n, bound: -1n }), "Yes: gap 6");
    assert.equal(word({ verdict: Verdict.BOUND, bound: 5n }), "Yes: a bound");
    assert.equal(word({ verdict: Verdict.NO_TOUR }), "Yes: no tour");
    assert.equal(word({ verdict: Verdict.ROUTES, routes: 2, length: 9n }), "Yes");
    assert.equal(word({ verdict: Verdict.REJECTED, reason: 6 }), "No");
    const { meaning } = verdictOf(tourReport(300n, 299n));
    assert.match(meaning, /No tour is more than 1 shorter: a gap of 0\.3344 % of the bound\.$/, "the percent of the tables");
    assert.match(verdictOf(reportWith({ length: 5n, bound: -1n })).meaning, /No tour is more than 6 shorter\.$/);
});

test("sections of a canonical text", () => {
    const canonical = "COMMENT : TOUR_SECTION\nTYPE : TOUR\nTOUR_SECTION\n1\n2\n-1\n3\n-1\nEOF\n";
    assert.deepEqual(toursOf(canonical), [[1, 2], [3]]);
    assert.deepEqual(rowsOf("TYPE : TSP\nFIXED_EDGES_SECTION\n1 3\n-1\nEOF\n", "FIXED_EDGES_SECTION"), [[1, 3], [-1]]);
    assert.deepEqual(rowsOf("TYPE : TSP\nEOF\n", "FIXED_EDGES_SECTION"), []);
});

test("what a reason is about", () => {
    const marks = (...numbers) => marksOf(refusedReport(...numbers), [[1, 3], [3, 4]], [[2, 4]]);
    assert.deepEqual(marks(12, 3n).nodes, [3], "RepeatedNode");
    assert.deepEqual(marks(14, 2n).nodes, [2], "Unserved");
    assert.deepEqual(marks(13, 1n).pair, [2, 4], "FixedEdgeUnused");
    assert.deepEqual(marks(3, 1n, 2n).pair, [1, 2], "NotSymmetric");
    assert.equal(marks(15, 2n).route, 2, "Overload");
    assert.deepEqual(marks(6), { nodes: [], pair: null, route: null }, "TourLength");
    assert.deepEqual(missingOf(5, [[1, 3], [3, 4]], null), [2, 5]);
    assert.deepEqual(missingOf(5, [[3, 4]], 1), [2, 5]);
    assert.deepEqual(missingOf(5, [], null), [], "without a tour no node is missing");
});

test("what a file is for", () => {
    assert.equal(roleOf("x", bytesOf("NAME : a\n TYPE: ATSP\n")).slot, "instance");
    assert.equal(roleOf("x", bytesOf("TYPE : TOUR\n")).slot, "solution");
    assert.deepEqual(roleOf("x", bytesOf("TYPE : BRANCHES\n")), { slot: "certificate", by: By.BRANCHES });
    assert.deepEqual(roleOf("a.potentials", bytesOf("")), { slot: "certificate", by: By.POTENTIALS });
    assert.equal(roleOf("a.tour", bytesOf("")).slot, "solution");
    assert.equal(roleOf("a", bytesOf("")).slot, "instance");
    for (const start of ["8\n0 1", "[0, 1]", "Route #1: 2", "1,2,3", '{"tour": [1]}', "order,node\n0,1\n", "x, Cost: 2\n1 2 1 (#1)\n"]) {
        assert.equal(roleOf("a.txt", bytesOf(start)).slot, "solution", start);
    }
    for (const start of ["NODE_COORD_SECTION\n1 0 0\n", "NAME : a\n1\n", "words\nalone\n"]) {
        assert.equal(roleOf("a.txt", bytesOf(start)).slot, "instance", start);
    }
});

test("the solutions that the program reads", async () => {
    const library = await libraryOf(PAGE);
    for (const row of table("solutions")) {
        const { form, first = -1, depot = 0 } = optionsOf(row);
        const { status, bytes } = library.solution(bytesOf(row.text), bytesOf(instanceOf(row)), form ? FORMS.indexOf(form) + 1 : 0, first + 1, depot);
        const told = new TextDecoder().decode(bytes);
        assert.deepEqual([status, told], row.fault ? [Status.FAULT, `file 1: ${row.fault}\n`] : [Status.YES, textOf(row)], row.name);
    }
    for (const { name, text: words, claim } of table("claims")) {
        assert.equal(claimOf(bytesOf(words)), claim === null ? null : BigInt(claim), name);
    }
});

test("what the page makes of a solution", async () => {
    const library = await libraryOf(PAGE);
    const read = (words, instance = null) => readOf(library, { instance, foreign: true }, { name: "a.sol", bytes: bytesOf(words) });
    const { made, caution } = read("Route #1: 1 2\nCost 5\n");
    assert.deepEqual([made.given.name, made.form, caution], ["a.tour", "another program's solution. Customer k of CVRPLIB is node k + 1", ""]);
    assert.match(new TextDecoder().decode(made.given.bytes), /^COMMENT : Cost 5$[^]*^TOUR_SECTION\n2\n3\n-1\nEOF\n$/m);
    const copies = "TYPE : TOUR\nTOUR_SECTION\n1 5 6 4 7 9 2 8 3 -1\nEOF\n";
    assert.match(read(copies, example("dairy.vrp")).made.form, /^a tour of LKH-3/);
    for (const words of [copies, "", " \n", "<!DOCTYPE html>\n", "TYPE : TOUR\nTOUR_SECTION\n1 x\n"]) {
        assert.deepEqual(read(words), { made: null, caution: "" }, words);
    }
    assert.match(read("Route #1: 1 2\n3\n").caution, /^a\.sol isn't read as another program's solution: line 2 word 1: UnknownLine\.$/);
    assert.match(read('{"routes": [[1, 2], [3]').caution, /cut off\?$/);
});

test("the length that a file claims", async () => {
    const library = await libraryOf(PAGE);
    const dairy = { ...alone, instance: example("dairy.vrp"), foreign: true };
    const solution = (cost) => text(`Route #1: 4 5 3 6\nRoute #2: 1 7 2\nCost ${cost}\n`);
    const outcome = (more) => run(library, { ...dairy, ...more });
    assert.deepEqual(outcome({ solution: solution(230), claims: true }).text, "type CVRP\nnodes 8\nno LengthClaimed 231\n");
    assert.equal(outcome({ solution: solution(231), claims: true }).claim, 231n);
    assert.match(outcome({ solution: solution(231), claims: true }).command, / --length=231$/);
    assert.equal(outcome({ solution: solution(230) }).report.yes, true, "without claims");
    assert.equal(outcome({ solution: solution(230), claims: true, claimed: 231n }).report.yes, true, "another claim");
    const tours = [solution(231), solution(230)];
    assert.deepEqual(outcome({ solution: tours[0], tours, claims: true }).rows.map(({ word }) => word), ["Yes", "No: LengthClaimed 231"]);
});

test("which verb the files ask for", () => {
    assert.equal(verbOf(alone), null);
    assert.equal(verbOf(HARBOUR), "check");
    assert.equal(verbOf({ ...HARBOUR, solution: null }), "show");
    assert.equal(verbOf({ ...HARBOUR, solution: null, certificate: HARBOUR.solution }), "bound");
    assert.equal(verbOf({ ...HARBOUR, instance: null, certificate: HARBOUR.solution }), null);
});

test("a gap in percent", () => {
    const percent = (length, bound) => percentOf(tourReport(length, bound));
    assert.equal(percent(16n, 14n), "14.2857"); // 100 * 2 / 14 = 14.28571..
    assert.equal(percent(14n, 14n), "0.0000");
    assert.equal(percent(3n, 2n), "50.0000");
    assert.equal(percent(200003n, 200000n), "0.0015");
    assert.equal(percent(14n, 16n), "-12.5000");
    assert.deepEqual([percent(5n, -1n), percent(5n, 0n), percent(5n)], ["", "", ""]);
});

test("a table that is saved", () => {
    const row = { name: "a b", word: "Yes: gap 2", length: "16", gap: "2", percent: "14.2857", routes: "", over: "60.0000" };
    const head = "solution\tverdict\tlength\tgap\tgap_percent\troutes\tbest_percent\n";
    assert.equal(tableOf([row]), `${head}a b\tYes: gap 2\t16\t2\t14.2857\t\t60.0000\n`);
});

test("a check, from files to the drawing", async () => {
    const library = await libraryOf(PAGE);
    const certificate = example("harbour-zero.potentials");
    const outcome = run(library, { ...HARBOUR, certificate, claimed: 226n });
    assert.equal(outcome.command, "tsp check harbour.tsp harbour.tour --potentials harbour-zero.potentials --length=226");
    assert.equal(outcome.status, Status.YES);
    assert.equal(outcome.report.length, 226n);
    assert.ok(outcome.report.gap > 0n);
    const { scene } = outcome;
    assert.deepEqual(scene.tours, [[1, 2, 3, 4, 8, 5, 6, 7]]);
    assert.deepEqual([...scene.points.slice(0, 4)], [12.5, 40, 30, 71.25]);
    assert.deepEqual([scene.fixed, scene.depot, scene.missing], [[], null, []]);
    const { layers, width, height } = pictureOf(scene, { room: 600, kind: "yes", zoom: WHOLE, route: null, sets: [], decisions: [] });
    const numbers = layers.flat().flatMap(({ attributes: { d = "" } }) => [...d.matchAll(/[ML](\S+) ([^MLZh]+)/g)]);
    assert.equal(numbers.length, 16, "each node is drawn, and is in the tour");
    assert.ok(numbers.every(([, x, y]) => x >= 0 && x <= width && y >= 0 && y <= height));
});

test("a bound below 0, and a claimed length", async () => {
    const library = await libraryOf(PAGE);
    const instance = text("TYPE : TSP\nDIMENSION : 4\nEDGE_WEIGHT_TYPE : EUC_2D\nNODE_COORD_SECTION\n1 0 0\n2 3 0\n3 3 4\n4 0 4.5\nEOF\n");
    const certificate = text("TYPE : POTENTIALS\nDIMENSION : 4\nNODE_POTENTIAL_SECTION\n1 1000\n2 -1000\n3 0\n4 0\nEOF\n");
    const job = { ...alone, instance, certificate, solution: text("TYPE : TOUR\nTOUR_SECTION\n1 2 3 4 -1\nEOF\n") };
    // 2-3 and 2-4 weigh 4 - 1000 and 5 - 1000, 1-2 weighs 3, and 1-3 weighs 5 + 1000
    const { report } = run(library, job);
    assert.deepEqual([report.length, report.bound, report.gap], [15n, -983n, 998n]);
    assert.equal(run(library, { ...job, solution: null }).report.bound, -983n);
    const claimed = run(library, { ...job, certificate: null, claimed: 14n });
    assert.deepEqual([claimed.report.reason, claimed.report.numbers, claimed.report.length], ["LengthClaimed", [15n], null]);
});

test("a tour of Concorde is read by itself, and can be saved", async () => {
    const library = await libraryOf(PAGE);
    const outcome = run(library, { ...HARBOUR, foreign: true, solution: { ...example("solvers/harbour.concorde.sol"), name: "harbour.sol" } });
    assert.deepEqual([outcome.status, outcome.report.length], [Status.YES, 226n]);
    assert.equal(outcome.command, "tsp check harbour.tsp harbour.tour");
    const [{ slot, form, given }] = outcome.made;
    assert.deepEqual([slot, form, given.name], ["solution", "another program's solution", "harbour.tour"]);
    assert.deepEqual(toursOf(new TextDecoder().decode(given.bytes)), [[1, 2, 3, 4, 8, 5, 6, 7]]);
    assert.deepEqual(run(library, { ...HARBOUR, foreign: true }).made, []);
    const dairy = { ...alone, foreign: true, instance: example("dairy.vrp") };
    const copies = text("TYPE : TOUR\nTOUR_SECTION\n1 5 6 4 7 9 2 8 3 -1\nEOF\n");
    const routes = run(library, { ...dairy, solution: copies });
    assert.deepEqual([routes.report.length, routes.report.routes], [231n, 2]);
    const unserved = run(library, { ...dairy, solution: text("Route #1: 4 5 3 6\nRoute #2: 1 2\n") });
    assert.deepEqual([unserved.report.reason, unserved.report.numbers], ["Unserved", [8]]);
    assert.match(unserved.explanation, /customer 7/);
});

test("several tours are a table", async () => {
    const library = await libraryOf(PAGE);
    const bad = { ...text("1 2 3\n"), name: "bad" };
    const none = { ...text("TYPE : TOUR\n"), name: "none" };
    const { rows } = run(library, { ...HARBOUR, foreign: true, tours: [HARBOUR.solution, bad, none] });
    assert.deepEqual(rows.map(({ word, length }) => [word, length]),
        [["Yes: a tour", "226"], ["No: TourLength", ""], ["file 2: end: Missing TOUR_SECTION", ""]]);
    assert.deepEqual(run(library, HARBOUR).rows, []);
    const over = (best) => run(library, { ...HARBOUR, tours: [HARBOUR.solution, bad], best }).rows.map((row) => row.over);
    assert.deepEqual([over(200n), over(null)], [["13.0000", ""], ["", ""]]);
    const dairy = { ...alone, instance: example("dairy.vrp"), solution: example("solvers/dairy.cvrplib.sol"), foreign: true };
    const { rows: routes } = run(library, { ...dairy, tours: [dairy.solution, dairy.solution] });
    assert.deepEqual(routes.map((row) => [row.routes, row.gap, row.percent]), [["2", "", ""], ["2", "", ""]]);
});

test("an instance of type GEO is one of weights", async () => {
    // a quarter of a great circle is 6378.388 * 3.141592 / 2 = 10019.14, and one is added
    const geo = (points) => `NAME : a quarter\nTYPE : TSP\nDIMENSION : 3\nEDGE_WEIGHT_TYPE : GEO\nNODE_COORD_SECTION\n${points}EOF\n`;
    const points = "1 0 0\n2 0.0 9e1\n3 90.00 0\n";
    const weights = new TextDecoder().decode(withoutGeo(bytesOf(geo(points))));
    assert.match(weights, /^NAME : a quarter$[^]*^EDGE_WEIGHT_SECTION\n10020 10020\n10020\nEOF$/m);
    for (const at of ["DIMENSION", "EOF"]) {
        const kept = new TextDecoder().decode(withoutGeo(bytesOf(geo(points).replace(at, `DISTANCE : 5\n VEHICLES :\n${at}`))));
        assert.match(kept, /^DISTANCE : 5\nVEHICLES :$/m, "lines with an unknown keyword stay");
        assert.equal(kept.replace("DISTANCE : 5\nVEHICLES :\n", ""), weights);
    }
    const library = await libraryOf(PAGE);
    const outcome = run(library, { ...alone, instance: text(geo(points)), solution: text("TYPE : TOUR\nTOUR_SECTION\n1 2 3 -1\nEOF\n") });
    assert.deepEqual([outcome.made[0].given.name, outcome.report.length, outcome.scene.points.length], ["text.weights.tsp", 30060n, 6]);
    assert.match(outcome.scene.note, /^Longitude/, "not the places of a section that the file doesn't have");
    const other = geo(points).replace("DIMENSION", "DISTANCE : 5\nCOMMENT : kept\nDIMENSION").replace("EOF\n", "FIXED_EDGES_SECTION\n1 2\n-1\nEOF\n");
    const kept = new TextDecoder().decode(withoutGeo(bytesOf(other)));
    assert.match(kept, /^DISTANCE : 5\nCOMMENT : kept\nDIMENSION : 3$[^]*^FIXED_EDGES_SECTION\n1 2\n-1\nEOF\n$/m, "what isn't of GEO stays");
    const strict = { ...alone, instance: text(other), solution: text("TYPE : TOUR\nTOUR_SECTION\n1 2 3 -1\nEOF\n"), strict: true };
    assert.deepEqual([run(library, strict).report.reason, run(library, { ...strict, strict: false }).report.yes], ["NotJudged", true]);
    for (const other of [geo("1 0 0\n2 0 90\n"), geo("1 0 0\n2 0 90\n2 90 0\n"), geo(points).replace("GEO", "EUC_2D")]) {
        assert.equal(withoutGeo(bytesOf(other)), null, other);
    }
    assert.deepEqual(run(library, HARBOUR).made, []);
});

test("potentials rise, and the library says what they are worth", async () => {
    const library = await libraryOf(PAGE);
    const outcome = run(library, HARBOUR);
    const { ascent, bound } = risingOf(library, { instance: HARBOUR.instance, scene: outcome.scene, length: 226n });
    // potentials 0 give 222 for the harbour, whose shortest tour is 226 long
    assert.equal(Math.ceil(ascent.steps[0].bound), 222);
    assert.ok(bound >= 224n && bound <= 226n, String(bound));
    assert.equal(BigInt(Math.ceil(ascent.steps[ascent.best].bound)), bound, "the bound of the best step");
    for (const { bound: other, edges, degrees } of ascent.steps) {
        assert.ok(other <= 226 && other <= ascent.steps[ascent.best].bound, "no bound is above the shortest tour, or the best one");
        assert.deepEqual([edges.length, degrees.reduce((sum, degree) => sum + degree)], [8, 16], "as many edges as nodes");
        assert.deepEqual([edges[0][0], edges[1][0], edges.slice(2).flat().includes(1)], [1, 1, false], "node 1 has two of them");
    }
    const dairy = { ...alone, instance: example("dairy.vrp") };
    assert.equal(risingOf(library, { instance: dairy.instance, scene: run(library, dairy).scene, length: null }), null, "routes");
    assert.deepEqual([canRise("EUC_2D", 2), canRise("EUC_2D", 300), canRise("EUC_2D", 301), canRise("EUC_3D", 8)], [false, true, false, false]);
});

test("the least 1-tree of four nodes", () => {
    // the sides are 3 and 4, the diagonals 5: a tree of 3 + 4 over nodes 2, 3 and 4, and 3 + 4 at node 1
    const { steps } = ascentOf(Float64Array.from([0, 0, 3, 0, 3, 4, 0, 4]), "EUC_2D", null);
    assert.equal(steps[0].bound, 14);
    assert.deepEqual([steps[0].degrees, steps.length], [[2, 2, 2, 2], 1], "a tour: there is no further step");
});

test("rounded distances are told", async () => {
    const library = await libraryOf(PAGE);
    const instance = text("TYPE : TSP\nDIMENSION : 3\nEDGE_WEIGHT_TYPE : EUC_2D\nNODE_COORD_SECTION\n1 0 0\n2 0.1 0\n3 0 0.1\nEOF\n");
    const { explanation } = run(library, { ...alone, foreign: true, instance, solution: text("1 2 3") });
    assert.match(explanation, /every distance along the solution is 0 or 1/);
});

test("a refused tour has its place marked", async () => {
    const library = await libraryOf(PAGE);
    const solution = text("TYPE : TOUR\nTOUR_SECTION\n1 2 3 4 8 3 6 7 -1\nEOF\n");
    const { status, report, scene, explanation } = run(library, { ...HARBOUR, solution });
    assert.deepEqual([status, report.reason, report.numbers], [Status.NO, "RepeatedNode", [6]]);
    assert.deepEqual([scene.marks.nodes, scene.missing], [[3], [5]]);
    assert.match(explanation, /Place 6 has node 3, which is also at place 3/);
});

test("a faulty tour is explained, and the instance drawn", async () => {
    const library = await libraryOf(PAGE);
    const solution = text("TYPE : TOUR\nTOUR_SECTION\n0 1 -1\nEOF\n");
    const { status, text: line, report, scene, explanation } = run(library, { ...HARBOUR, solution });
    assert.deepEqual([status, line, report], [Status.FAULT, "file 2: line 3 word 1: Number OutOfRange\n", null]);
    assert.equal(scene.points.length, 16);
    assert.match(explanation, /^text:3: word 1/);
});

test("routes begin at the depot, and fixed edges are drawn", async () => {
    const library = await libraryOf(PAGE);
    const solution = text("TYPE : TOUR\nTOUR_SECTION\n5 6 4 7 -1 2 8 3 -1\nEOF\n");
    const { scene, report } = run(library, { ...alone, instance: example("dairy.vrp"), solution });
    assert.deepEqual([report.routes, scene.depot], [2, 1]);
    assert.deepEqual(scene.tours, [[1, 5, 6, 4, 7], [1, 2, 8, 3]]);
    const fixed = run(library, { ...alone, instance: example("rectangle-fixed.tsp") });
    assert.deepEqual([fixed.text.split("\n")[1], fixed.scene.fixed], ["type TSP", [[1, 3]]]);
});

test("a matrix has no drawing", async () => {
    const library = await libraryOf(PAGE);
    assert.equal(run(library, { ...alone, instance: example("three-node.atsp") }).scene, null);
});

test("out of memory is an answer, and what was taken is given back", async () => {
    const library = await libraryOf(PAGE);
    assert.equal(library.points(HARBOUR.instance.bytes, Section.COORDS, 1e9), null);
    const taken = [];
    for (let size = 2n ** 31n; size >= 16n; ) {
        const address = library.exports.heap_take(size - 16n);
        if (address === 0n) {
            size /= 2n;
        } else {
            taken.push(address);
        }
    }
    assert.equal(run(library, HARBOUR).status, Status.OUT_OF_MEMORY);
    taken.forEach((address) => library.exports.heap_free(address));
    assert.equal(run(library, HARBOUR).status, Status.YES);
});

test("checks again and again take no more memory", async () => {
    const library = await libraryOf(PAGE);
    const job = { ...alone, instance: example("orchard.tsp"), solution: example("orchard.tour") };
    const certified = { ...job, certificate: example("orchard.branches"), by: By.BRANCHES };
    assert.ok(run(library, certified).report.optimal);
    const bytes = library.exports.memory.buffer.byteLength;
    for (let turn = 0; turn < 20; turn++) {
        run(library, certified);
    }
    assert.equal(library.exports.memory.buffer.byteLength, bytes);
});
