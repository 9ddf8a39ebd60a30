// The calls of the package, on the repository's examples: PACKAGE=FOLDER node --test. Expected values are worked out by
// hand, or come from the pages.
// bindings/node/test runs it, in the suite `node` of ./check.

import assert from "node:assert/strict";
import { readFileSync, readdirSync } from "node:fs";
import { join } from "node:path";
import { test } from "node:test";
import { pathToFileURL } from "node:url";

import { instanceOf, optionsOf, table, textOf } from "../../../tests/support/solutions.mjs";

const PACKAGE = process.env.PACKAGE ?? "";
const ROOT = join(import.meta.dirname ?? new URL(".", import.meta.url).pathname, "../../..");
const load = (name) => import(pathToFileURL(join(PACKAGE, "node", name)).href);
const api = await load("index.mjs");
const { check, bound, compare, checkMany, show, convert, readSolution, version, Problem, Fault, NodeError, SolutionError } = api;

const file = (name) => join(ROOT, "examples", name);
const bytes = (name) => new Uint8Array(readFileSync(file(name)));
const RECTANGLE = "TYPE : TSP\nDIMENSION : 4\nEDGE_WEIGHT_TYPE : EUC_2D\nNODE_COORD_SECTION\n1 0 0\n2 3 0\n3 3 4\n4 0 4\nEOF\n";
const thrown = (call) => {
    try {
        call();
    } catch (error) {
        return error;
    }
    return assert.fail("nothing is thrown");
};

test("a check in numbers", () => {
    const report = check(file("harbour.tsp"), file("harbour.tour"), { potentials: file("harbour.potentials") });
    assert.deepEqual({ ...report }, {
        yes: true,
        type: "TSP",
        nodes: 8,
        length: 226n,
        bound: 226n,
        gap: 0n,
        optimal: true,
        noTour: false,
        routes: null,
        least: null,
        reason: null,
        numbers: [],
        notJudged: [],
        text: "type TSP\nnodes 8\nlength 226\nbound 226\noptimal\nyes\n",
        explanation: "",
    });
    assert.equal(report.gapPercent, 0);
    assert.equal(report.percentOver(200), 13);
    assert.equal(JSON.parse(JSON.stringify(report)).length, 226);
});

test("files as paths, URLs, bytes, texts, problems and lists", () => {
    for (const instance of [file("harbour.tsp"), pathToFileURL(file("harbour.tsp")), bytes("harbour.tsp"), Problem.load(file("harbour.tsp"))]) {
        assert.equal(check(instance, bytes("harbour.tour")).length, 226n);
    }
    assert.equal(check({ text: RECTANGLE }, [1, 2, 3, 4]).length, 14n);
    assert.equal(check({ text: RECTANGLE }, Uint32Array.of(1, 3, 2, 4)).length, 18n);
    assert.throws(() => check(7, [1]), TypeError);
    assert.throws(() => check({ text: RECTANGLE }, [1, 2.5]), TypeError);
    assert.throws(() => check(file("none.tsp"), [1]), { code: "ENOENT" });
});

test("claims, reasons and explanations", () => {
    const claimed = check({ text: RECTANGLE }, [1, 2, 3, 4], { length: 15 });
    assert.deepEqual([claimed.yes, claimed.reason, claimed.numbers], [false, "LengthClaimed", [14n]]);
    assert.equal(check({ text: RECTANGLE }, [1, 2, 3, 4], { length: 14n }).yes, true);
    const limited = RECTANGLE.replace("DIMENSION", "DISTANCE : 9\nDIMENSION");
    const strict = check({ text: limited }, [1, 2, 3, 4], { strict: true, length: 14 });
    assert.deepEqual([strict.yes, strict.reason, strict.numbers, strict.notJudged], [false, "NotJudged", [], ["DISTANCE"]]);
    assert.equal(check({ text: limited }, [1, 2, 3, 4]).yes, true);
    assert.equal(check({ text: RECTANGLE }, [1, 2, 3, 4], { strict: true }).yes, true);
    const zeros = { text: "TYPE : POTENTIALS\nDIMENSION : 4\nNODE_POTENTIAL_SECTION\n1 0\n2 0\n3 0\n4 0\nEOF\n" };
    assert.deepEqual([true, false].map((strict) => bound({ text: limited }, { potentials: zeros, strict }).reason), ["NotJudged", null]);
    const compared = [true, false].map((strict) => compare({ text: limited }, [[1, 2, 3, 4]], { strict }));
    assert.deepEqual(compared.map((it) => [it.basis.reason, it.outcomes.length]), [["NotJudged", 0], [null, 1]]);
    assert.match(String(compared[0]), /\nno NotJudged DISTANCE\n$/);
    const unused = RECTANGLE.replace("DIMENSION", "CAPACITY : 9\nDIMENSION");
    assert.equal(check({ text: unused }, [1, 2, 3, 4], { strict: true }).reason, "NotUsed");
    assert.equal(check({ text: unused }, [1, 2, 3, 4]).yes, true);
    const narrow = [true, false].map((strict) => compare({ text: unused }, [[1, 2, 3, 4]], { strict }));
    assert.deepEqual(narrow.map((it) => [it.basis.reason, it.basis.field, it.outcomes.length]), [["NotUsed", "CAPACITY", 0], [null, null, 1]]);
    assert.match(String(narrow[0]), /\nnodes 4\nno NotUsed CAPACITY\n$/);
    assert.equal(compare({ text: RECTANGLE }, [[1, 2, 3, 4]], { strict: true }).basis.field, null);
    const twice = check({ text: RECTANGLE }, [1, 2, 3, 3], { explain: true });
    assert.deepEqual([twice.reason, twice.numbers, twice.length], ["RepeatedNode", [4], null]);
    assert.match(twice.explanation, /Node 4 is missing/);
    assert.throws(() => check({ text: RECTANGLE }, [1, 2, 3, 4], { length: 1.5 }), TypeError);
    assert.throws(() => check({ text: RECTANGLE }, [1, 2, 3, 4], { length: 2n ** 63n }), RangeError);
    assert.throws(() => check({ text: RECTANGLE }, [1], { potentials: { text: "" }, branches: { text: "" } }), TypeError);
});

test("numbers above 2^53 are bigints, and texts in JSON", () => {
    const large = 2n ** 53n + 1n;
    const none = { kind: 1, nodes: 3, reason: 0, first: 0n, second: 0n, length: 0n, bound: null, routes: 0, least: 0n };
    const accepted = new api.Report({ ...none, verdict: 1, length: 2n * large, bound: large }, "", "");
    assert.deepEqual([accepted.length, accepted.bound, accepted.gap], [2n * large, large, large]);
    const written = JSON.parse(JSON.stringify(accepted));
    assert.deepEqual([written.length, written.bound, written.gap], ["18014398509481986", "9007199254740993", "9007199254740993"]);
    const claimed = new api.Report({ ...none, verdict: 3, reason: 16, first: large }, "", "");
    assert.deepEqual([claimed.reason, claimed.numbers], ["LengthClaimed", [large]]);
    assert.deepEqual(JSON.parse(JSON.stringify(claimed)).numbers, ["9007199254740993"]);
    for (const [length, plain] of [[2n ** 53n - 1n, 2 ** 53 - 1], [2n ** 53n, "9007199254740992"], [-large, "-9007199254740993"]]) {
        assert.equal(JSON.parse(JSON.stringify(new api.Report({ ...none, verdict: 1, length }, "", ""))).length, plain);
    }
    const basis = { type: "TSP", nodes: 3, notJudged: [], least: null, bound: null, noTour: false, reason: null, numbers: [] };
    const found = new api.Comparison(basis, ["a", "b"], [accepted, claimed]);
    assert.equal(String(found), "type TSP\nnodes 3\n18014398509481986 gap 9007199254740993 a\nno LengthClaimed 9007199254740993 b\n");
    assert.deepEqual(found.toTSV().split("\n").slice(1, 3).map((row) => row.split("\t").at(-1)), ["", "LengthClaimed 9007199254740993"]);
    assert.throws(() => check({ text: RECTANGLE }, [1, 2, 3, 4], { length: 2 ** 53 }), TypeError, "a rounded length isn't taken");
    assert.equal(check({ text: RECTANGLE }, [1, 2, 3, 4], { length: large }).reason, "LengthClaimed");
});

test("routes, bounds and branches", () => {
    const routes = check(file("dairy.vrp"), join(ROOT, "bindings/web/examples/dairy.tour"));
    assert.deepEqual([routes.yes, routes.type, routes.routes !== null, routes.bound], [true, "CVRP", true, null]);
    const found = bound(file("orchard.tsp"), { branches: file("orchard.branches") });
    assert.deepEqual([found.yes, found.bound, found.length], [true, 2461n, null]);
    assert.throws(() => bound(file("orchard.tsp"), {}), TypeError);
});

test("faults", () => {
    const fault = thrown(() => show({ text: "TYPE : TSP\nx\n" }));
    assert.ok(fault instanceof Fault && fault instanceof api.YokecairnError);
    assert.deepEqual([fault.file, fault.line, fault.fault, fault.path], [1, 2, "UnknownLine", ""]);
    assert.match(fault.explanation, /./);
    const second = thrown(() => check(file("harbour.tsp"), { text: "TYPE : TOUR\nTOUR_SECTION\n1 x\n" }));
    assert.deepEqual([second.file, second.line, second.word], [2, 3, 2]);
    const kind = thrown(() => check(file("harbour.tour"), [1]));
    assert.deepEqual([kind.fault, kind.path], ["WrongKind", file("harbour.tour")]);
    assert.equal(thrown(() => Problem.load(file("harbour.tour"))).fault, "WrongKind");
    const certificate = thrown(() => bound(file("harbour.tsp"), { potentials: { text: "x" } }));
    assert.equal(certificate.file, 2);
});

test("problems", () => {
    const problem = Problem.parse(RECTANGLE);
    assert.equal(problem.nodes, 4);
    assert.deepEqual([problem.weight(1, 2), problem.weight(1, 3)], [3n, 5n]);
    assert.deepEqual([...problem.weights([[2, 3], [4, 4]])], [4n, 0n]);
    assert.deepEqual([...problem.matrix()], [0n, 3n, 5n, 4n, 3n, 0n, 4n, 5n, 5n, 4n, 0n, 3n, 4n, 5n, 3n, 0n]);
    assert.deepEqual([...problem.rows(2, 1)], [3n, 0n, 4n, 5n]);
    assert.equal(problem.length([1, 2, 3, 4]), 14n);
    assert.deepEqual([...problem.traceTours([[1, 2], [1, 3, 2, 4], []])], [6n, 18n, 0n]);
    assert.deepEqual(problem.points(), [[0, 0, 0], [3, 0, 0], [3, 4, 0], [0, 4, 0]]);
    assert.equal(problem.points("DISPLAY_DATA_SECTION"), null);
    assert.equal(problem.check([1, 2, 3, 4]).length, 14n);
    assert.match(problem.render(), /^TYPE : TSP\nDIMENSION : 4\n/);
    for (const call of [() => problem.weight(1, 5), () => problem.weight(0, 1), () => problem.length([1, 1.5]), () => problem.rows(3, 3)]) {
        assert.throws(call, NodeError);
    }
    problem.close();
    problem.close();
    assert.throws(() => problem.weight(1, 2), NodeError);
});

test("points and matrices", () => {
    const unit = Problem.fromPoints([[0, 0], [0.3, 0], ["0.3", 0.4], [0n, 0.4]], { scale: 10, name: "small" });
    assert.deepEqual([unit.weight(1, 2), unit.weight(1, 3)], [3n, 5n]);
    assert.match(unit.render(), /NAME : small\n[^]*COMMENT : Coordinates multiplied by 10\n/);
    assert.deepEqual(Problem.fromPoints([[1e-7, 2.5e2, -1]], { edgeWeightType: "EUC_3D" }).points(), [[1e-7, 250, -1]]);
    // half to even
    const rounded = Problem.fromPoints([[0.125, 0.135], [-0.125, 2]], { decimals: 2 }).points();
    assert.deepEqual(rounded, [[0.12, 0.14, 0], [-0.12, 2, 0]]);
    const fine = thrown(() => Problem.fromPoints([[1 / 3, 0]]));
    assert.ok(fine instanceof Fault && fine.details.includes("TooFine"));
    assert.throws(() => Problem.fromPoints([[1, 2, 3]]), RangeError);
    assert.throws(() => Problem.fromPoints([[NaN, 2]]), TypeError);
    assert.throws(() => Problem.fromPoints([[1, 2]], { scale: 0 }), RangeError);
    assert.match(Problem.fromMatrix([[9, 2], [2, 9]]).render(), /TYPE : TSP/);
    const arcs = Problem.fromMatrix([[0, 1, 2], [3, 0, 4], [5, 6, 0]]);
    assert.match(arcs.render(), /TYPE : ATSP/);
    assert.equal(arcs.weight(3, 1), 5n);
    assert.equal(Problem.fromMatrix([[0, 1.5], [1.5, 0]], { scale: 2 }).weight(1, 2), 3n);
    assert.deepEqual([...Problem.fromMatrix([[0, 2.5], [3.5, 0]], { rounded: true }).matrix()], [0n, 2n, 4n, 0n]);
    assert.throws(() => Problem.fromMatrix([[0, 1.5], [1.5, 0]]), RangeError);
    assert.throws(() => Problem.fromMatrix([[0, 1]]), RangeError);
});

test("many solutions of one instance", () => {
    const [a, b] = [file("rectangle-1-2-3-4.tour"), file("rectangle-1-3-4-2.tour")];
    const found = compare(file("rectangle.tsp"), [a, file("none.tour"), b, [1, 2, 3, 3], { text: "x" }], { potentials: file("rectangle-zero.potentials") });
    assert.deepEqual(found.names.slice(3), ["solution 4", "solution 5"]);
    assert.deepEqual(found.outcomes.map((it) => it.length ?? it.reason ?? it.code ?? it.fault), [14n, "ENOENT", 16n, "RepeatedNode", "UnknownLine"]);
    const lines = ["type TSP", "nodes 4", "bound 14", `14 optimal ${a}`, `device ${file("none.tour")}`, `16 gap 2 ${b}`];
    assert.equal(String(found), [...lines, "no RepeatedNode 4 solution 4", "line 1 word 0: UnknownLine solution 5", ""].join("\n"));
    const cells = found.toTSV().split("\n").map((line) => line.split("\t"));
    assert.deepEqual(cells[0], ["solution", "verdict", "length", "bound", "gap", "gap_percent", "routes", "detail"]);
    assert.deepEqual(cells[1], [a, "optimal", "14", "14", "0", "0.0000", "", ""]);
    assert.deepEqual(cells.slice(2, 6).map((row) => row[1]), ["unread", "yes", "no", "fault"]);
    assert.deepEqual(cells[5], ["solution 5", "fault", "", "14", "", "", "", "line 1 word 0: UnknownLine"]);
    assert.equal(cells.length, 7);
    const routes = compare(file("dairy.vrp"), [join(ROOT, "bindings/web/examples/dairy.tour")]);
    assert.match(String(routes), /^type CVRP\nnodes \d+\nleast \d+\n\d+ routes \d+ /);
    assert.throws(() => compare(file("rectangle-1-2-3-4.tour"), [a]), Fault);
    const refused = compare(file("rectangle.tsp"), [a], { potentials: a });
    assert.deepEqual([refused.basis.reason, refused.outcomes], ["NotPotentials", []]);
});

test("solutions of other programs", () => {
    const text = (source, options) => new TextDecoder().decode(readSolution({ text: source }, options));
    const tour = (...nodes) => `TYPE : TOUR\nTOUR_SECTION\n${[...nodes, -1].join("\n")}\nEOF\n`;
    assert.equal(text("3\n0 2 1\n", { of: { text: RECTANGLE } }), tour(4, 1, 3, 2));
    assert.equal(text("3\n0 2 1\n", { form: "concorde" }), tour(1, 3, 2));
    assert.equal(text("1 2", { first: 0 }), tour(2, 3));
    assert.equal(text("Route #1: 1", { depot: 2, first: 1 }), tour(1));
    assert.equal(text(tour(1)), tour(1));
    assert.throws(() => text("1 b"), (error) => error instanceof SolutionError && error.told === "file 1: line 1 word 2: NotANode" && error.fault === "NotANode");
    assert.throws(() => text("1 2", { of: { text: "x" } }), (error) => error instanceof Fault && !(error instanceof SolutionError) && error.file === 2);
    assert.throws(() => text("1 2", { form: "lists" }), RangeError);
    const found = compare({ text: RECTANGLE }, [{ text: "0 1 2 3" }, { text: "{}" }], { foreign: true });
    assert.deepEqual([found.outcomes[0].length, found.outcomes[1] instanceof SolutionError], [14n, true]);
    assert.match(String(found), /^14 solution 1\nline 1 word 1: NoList solution 2$/m);
});

test("the solutions that the program reads", () => {
    for (const row of table("solutions")) {
        const read = () => {
            const of = row.nodes === undefined ? undefined : { text: instanceOf(row) };
            return new TextDecoder().decode(readSolution({ text: row.text }, { ...optionsOf(row), of }));
        };
        if (row.fault) {
            assert.equal(thrown(read).told, `file 1: ${row.fault}`, row.name);
        } else {
            assert.equal(read(), textOf(row), row.name);
        }
    }
});

test("many checks at once", async () => {
    const instance = Problem.parse(RECTANGLE);
    const jobs = Array.from({ length: 9 }, (_, at) => ({ instance, solution: at % 2 ? [1, 3, 2, 4] : [1, 2, 3, 4] }));
    const ended = [];
    const found = await checkMany([...jobs, { instance, solution: { text: "x" } }, { instance: file("none.tsp"), solution: [1] }], {
        workers: 3,
        progress: (done, all) => ended.push([done, all]),
    });
    assert.deepEqual(found.slice(0, 9).map(({ length }) => length), [14n, 18n, 14n, 18n, 14n, 18n, 14n, 18n, 14n]);
    assert.ok(found[0] instanceof api.Report && found[9] instanceof Fault && found[10] instanceof Error);
    assert.deepEqual(ended, Array.from({ length: 11 }, (_, at) => [at + 1, 11]));
    assert.deepEqual(await checkMany([]), []);
});

test("texts and layouts", () => {
    assert.match(show(file("rectangle.tsp")), /^name rectangle\ntype TSP\nnodes 4\n/);
    assert.match(new TextDecoder().decode(convert(file("star.tsp"), "LOWER_DIAG_ROW")), /EDGE_WEIGHT_FORMAT : LOWER_DIAG_ROW\n/);
    assert.throws(() => convert(file("star.tsp"), "ROW"), RangeError);
    assert.throws(() => convert(file("rectangle.tsp"), "FULL_MATRIX"), Fault);
    assert.match(version(), /^\d+\.\d+\.\d+$/);
    assert.equal(JSON.parse(readFileSync(join(PACKAGE, "package.json"), "utf8")).version, version());
});

test("memory is given back", () => {
    const instance = Problem.load(file("orchard.tsp"));
    for (let turn = 0; turn < 300; turn++) {
        Problem.load(file("orchard.tsp"));
        instance.weights([[1, 2]]);
    }
    assert.ok(process.memoryUsage().rss < 1 << 30);
});

test("the entry without files", async () => {
    const browser = await load("browser.mjs");
    assert.deepEqual(Object.keys(browser).sort(), Object.keys(api).sort());
    const [report, fault] = await browser.checkMany([{ instance: { text: RECTANGLE }, solution: [1, 2, 3, 4] }, { instance: { text: "x" }, solution: [1] }]);
    assert.deepEqual([report.length, fault.fault], [14n, "UnknownLine"]);
    const texts = readdirSync(join(PACKAGE, "javascript")).concat("../node/browser.mjs");
    assert.deepEqual(texts.filter((name) => readFileSync(join(PACKAGE, "javascript", name), "utf8").includes('"node:')), []);
});

test("the names of reasons are those of tsp.h, in its order", async () => {
    const { reasonOf } = await import(pathToFileURL(join(PACKAGE, "javascript/report.mjs")).href);
    const header = readFileSync(join(ROOT, "bindings/c/tsp.h"), "utf8");
    const [, list] = /enum \{\n(    TSP_NOT_A_SOLUTION = 1,[^}]*)\};/.exec(header) ?? [];
    const named = list.split("\n").flatMap((line) => [.../TSP_(\w+) = (\d+)/g[Symbol.matchAll](line)].map(([, name, number]) => [name, Number(number)]));
    assert.ok(named.length >= 27);
    for (const [name, number] of named) {
        const { reason } = reasonOf({ reason: number, first: 0n, second: 0n });
        assert.equal(reason.toUpperCase(), name.replaceAll("_", ""));
    }
    assert.equal(reasonOf({ reason: named.length + 1, first: 0n, second: 0n }).reason, "");
});
