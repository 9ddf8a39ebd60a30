// The state of the page, and what it shows of it, without the library and without a browser: node --test state.test.mjs
// bindings/web/test runs it, in the suite `bindings` of ./check.

import assert from "node:assert/strict";
import { readFileSync } from "node:fs";
import { test } from "node:test";

import { By, Status } from "../../javascript/codes.mjs";
import { carriedBy, linkOf } from "../page/link.mjs";
import { isCutJson } from "../page/made.mjs";
import { misplaced } from "../page/roles.mjs";
import { BEGINNING, atStep, choosing, givenOf, jobOf, judging, lengthOf, showing, telling, withFiles, withSlot } from "../page/state.mjs";
import { viewOf } from "../page/view.mjs";

const file = (name, text) => ({ name, bytes: new TextEncoder().encode(text) });
const [A, B] = ["a", "b"].map((name) => file(`${name}.tsp`, "TYPE : TSP\n"));
const [FIRST, SECOND, THIRD] = ["1", "2", "3"].map((name) => file(`${name}.tour`, "TYPE : TOUR\n"));
const POTENTIALS = file("a.potentials", "TYPE : POTENTIALS\n");
const BRANCHES = file("a.branches", "TYPE : BRANCHES\n");
const REPORT = { yes: true, type: "TSP", length: 5n, bound: null, gap: null, optimal: false, noTour: false, routes: null, reason: "", numbers: [], notJudged: [] };
const OUTCOME = { command: "tsp check a.tsp 1.tour", status: Status.YES, bytes: new Uint8Array(), text: "yes\n", explanation: "", report: REPORT, scene: null, branches: null, made: [], caution: "", claim: null, rows: [] };
const ROW = { name: "1.tour", word: "Yes: a tour", length: "5", gap: "", percent: "", routes: "", over: "" };
const MARKS = { nodes: [], pair: null, route: null };
const SCENE = { points: Float64Array.of(0, 0, 1, 0, 1, 1), weights: "EUC_2D", note: "", tours: [[1, 2, 3]], fixed: [], depot: null, loads: [], capacity: 0, missing: [], marks: MARKS, other: null };

test("files find their slots, and changes leave the state before as it was", () => {
    const state = withFiles(BEGINNING, [BRANCHES, FIRST, A], null);
    assert.deepEqual(["instance", "solution", "certificate"].map((slot) => givenOf(state, slot)?.name), ["a.tsp", "1.tour", "a.branches"]);
    assert.equal(state.by, By.BRANCHES);
    assert.deepEqual(BEGINNING.files.instance, []);
    assert.equal(givenOf(withFiles(state, [SECOND], "certificate"), "certificate").name, "2.tour", "a slot takes what is put into it");
    assert.equal(givenOf(withSlot(state, "solution", []), "solution"), null);
});

test("of two instances in one drop both are offered", () => {
    const state = withFiles(BEGINNING, [A, FIRST, B], null);
    const view = viewOf(state);
    assert.deepEqual([view["instance-offered"].hidden, view["instance-offered"].items.map(({ text }) => text)], [false, ["a.tsp", "b.tsp"]]);
    assert.match(view["instance-name"].text, /^2 files/);
    assert.equal(jobOf(state).instance, A);
    const other = choosing(state, "instance", 1);
    assert.equal(jobOf(other).instance, B);
    assert.deepEqual(viewOf(other)["instance-offered"].items.map(({ attributes }) => attributes["aria-pressed"]), ["false", "true"]);
    const certificates = withFiles(state, [POTENTIALS, BRANCHES], null);
    assert.deepEqual([certificates.by, choosing(certificates, "certificate", 1).by], [By.POTENTIALS, By.BRANCHES]);
});

test("several tours are compared, two of them edge by edge", () => {
    const two = withFiles(BEGINNING, [A, FIRST, SECOND], null);
    assert.deepEqual([jobOf(two).solution, jobOf(two).other, jobOf(two).tours.length], [FIRST, SECOND, 2]);
    const swapped = choosing(two, "solution", 1);
    assert.deepEqual([jobOf(swapped).solution, jobOf(swapped).other], [SECOND, FIRST]);
    const three = withFiles(BEGINNING, [A, FIRST, SECOND, THIRD], null);
    assert.equal(jobOf(three).other, null);
    assert.equal(jobOf({ ...three, against: 2 }).other, THIRD);
    assert.equal(viewOf(two)["instance-offered"].hidden, true);
    assert.match(viewOf(three)["solution-name"].text, /^3 tours$/);
});

test("lengths that are put in", () => {
    assert.deepEqual(["", " 7 ", "+7", "-7"].map(lengthOf), [null, 7n, 7n, -7n]);
    assert.deepEqual(["x", "1.5", String(2n ** 63n)].map(lengthOf), [undefined, undefined, undefined]);
    assert.equal(lengthOf(String(2n ** 53n + 1n)), 2n ** 53n + 1n);
    const wrong = { ...withFiles(BEGINNING, [A, FIRST], null), claimed: "1.5" };
    assert.equal(jobOf(wrong), null);
    assert.deepEqual([viewOf(wrong)["claimed-fault"].hidden, viewOf(wrong)["best-fault"].hidden], [false, true]);
});

test("what is told while nothing is judged", () => {
    assert.equal(viewOf(judging(BEGINNING)).verdict.text, "");
    assert.equal(viewOf(judging(withFiles(BEGINNING, [FIRST, POTENTIALS], null))).verdict.text, "No instance");
    const state = judging(withFiles(BEGINNING, [A, FIRST], null));
    assert.deepEqual([viewOf(state).verdict.text, viewOf(state).stop.hidden, viewOf(state).page.kind], ["Checking …", false, "busy"]);
    assert.deepEqual([viewOf(state).doing.hidden, viewOf(state).progress.hidden], [true, true], "not for what is quick");
    const slow = viewOf({ ...state, seconds: 3, work: { words: "judging 2.tour", done: 1, all: 4 } });
    assert.deepEqual([slow.doing.text, slow.doing.hidden, slow.progress.attributes], ["judging 2.tour, 2 of 4, 3 s", false, { value: "1", max: "4" }]);
    const reading = viewOf({ ...BEGINNING, work: { words: "reading a.tsp", done: 1, all: 4 } });
    assert.deepEqual([reading.doing.text, reading.doing.hidden], ["reading a.tsp: 25 %", false]);
    assert.equal(viewOf({ ...state, work: { words: "judging", done: 0, all: 0 }, seconds: 1 }).progress.attributes.value, null, "how far it is isn't known");
    assert.equal(viewOf(telling(state, { kind: "none", word: "Stopped", meaning: "" })).stop.hidden, true);
});

test("what is shown of an outcome", () => {
    const state = showing(withFiles(BEGINNING, [A, FIRST], null), OUTCOME);
    const view = viewOf(state);
    assert.deepEqual([view.verdict, view.report.text, view.command.text], [{ kind: "yes", text: "Yes: a tour" }, "yes\n", "tsp check a.tsp 1.tour"]);
    assert.deepEqual([view.made.hidden, view["command-note"].hidden, view.cautions.hidden, view.rows.hidden], [true, true, true, true]);
    assert.equal(view["no-drawing"].hidden, false);
    const made = { slot: "solution", given: FIRST, from: "1.sol", form: "a list" };
    const other = viewOf(showing(state, { ...OUTCOME, made: [made], caution: "cut off", report: { ...REPORT, notJudged: ["DISTANCE"] } }));
    assert.match(other["command-note"].text, /^First save 1\.tour /);
    assert.deepEqual(other.cautions.items.map(({ text }) => text), ["Not judged: DISTANCE. The verdict ignores these lines.", "cut off"]);
    assert.equal(other.made.items[0].items[1].attributes["data-do"], "save-made");
});

test("files in the wrong slots", () => {
    const put = (instance, solution, certificate) => misplaced({ instance, solution, certificate });
    assert.equal(put(A, FIRST, POTENTIALS), "");
    assert.equal(put(FIRST, A, null), "1.tour is of TYPE TOUR, which is no instance, and a.tsp is of TYPE TSP, which is no tour. Are the two exchanged?");
    assert.equal(put(A, FIRST, SECOND), "2.tour is of TYPE TOUR, which is no certificate.");
    assert.equal(put(file("x", "TYPE : HCP\n"), file("y", "1 2 3"), null), "", "the library says what these are");
    const state = withSlot(withSlot(BEGINNING, "instance", [FIRST]), "solution", [A]);
    const view = viewOf(showing(state, { ...OUTCOME, status: Status.FAULT, report: null, text: "file 1: wrong kind\n" }));
    assert.match(view.cautions.items[0].text, /exchanged\?$/);
});

test("a table of tours, whose cells have the titles of their columns", () => {
    const state = showing(withFiles(BEGINNING, [A, FIRST, SECOND], null), { ...OUTCOME, rows: [ROW, { ...ROW, name: "2.tour", length: "" }] });
    const view = viewOf(state);
    assert.deepEqual(view["rows-head"].items.map(({ text }) => text), ["Tour", "Verdict", "Length"]);
    const [first, second] = view["rows-body"].items;
    assert.deepEqual([first.attributes["aria-current"], second.attributes["aria-current"]], ["true", undefined]);
    assert.deepEqual(second.items.map(({ attributes }) => attributes["data-title"]), ["Tour", "Verdict", "Length"]);
    assert.equal(second.items[2].attributes.class, "empty");
});

test("the legend of routes says their loads", () => {
    const scene = { ...SCENE, depot: 1, tours: [[1, 2], [1, 3]], loads: [4, 9], capacity: 8 };
    const view = viewOf({ ...showing(withFiles(BEGINNING, [A, FIRST], null), { ...OUTCOME, scene }), width: 600, route: 1 });
    const [first, second] = view.routes.items.map(({ items: [button] }) => button);
    assert.equal(first.items[1].text, "Route 1: 1 customer, load 4 of 8");
    assert.equal(second.items[1].text, "Route 2: 1 customer, load 9 of 8: too much");
    assert.deepEqual([first.attributes["aria-pressed"], second.attributes["aria-pressed"], second.attributes.class], ["false", "true", "over-load"]);
    assert.equal(view.rise.hidden, true, "routes have no potentials");
});

test("the keys of two tours that differ", () => {
    const scene = { ...SCENE, other: { name: "2.tour", own: [[1, 2]], gone: [[2, 3]], shared: 2 } };
    const view = viewOf({ ...showing(withFiles(BEGINNING, [A, FIRST, SECOND], null), { ...OUTCOME, scene }), width: 600 });
    assert.deepEqual(view.difference.items.map(({ items }) => items[1].text), ["2 edges of both", "1 only of the tour that is shown", "1 only of 2.tour"]);
    assert.deepEqual(view.against.items.map(({ text }) => text), ["none", "2.tour"]);
    assert.equal(view["against-field"].hidden, false);
});

test("a certificate of branches is told, with the leaf that is shown", () => {
    const leaf = (above, isFirst, number) => ({ above, isFirst, pair: null, family: null, limit: 0, leaf: number });
    const branches = { families: [[[1, 2], [1, 3]]], steps: [{ above: -1, isFirst: true, pair: [1, 2], family: null, limit: 0, leaf: -1 }, leaf(0, true, 0), leaf(0, false, 1)], leaves: 2 };
    const state = { ...showing(withFiles(BEGINNING, [A, FIRST], null), { ...OUTCOME, branches, scene: SCENE }), width: 600 };
    const view = viewOf({ ...state, leaf: 1, family: 1 });
    assert.equal(view["branching-words"].text, "The certificate has 2 leaves and 1 family.");
    assert.equal(view["leaf-words"].text, "Leaf 2 of 2: edge 1–2 is not used.");
    assert.equal(view["family-words"].text, "Family 1 of 1: a handle of 2 nodes and 1 tooth.");
    assert.equal(viewOf(state)["family-words"].text, "All families are drawn.");
    assert.equal(viewOf(showing(state, OUTCOME)).branching.hidden, true);
});

test("steps of an ascent", () => {
    const steps = Array.from({ length: 3 }, (_, at) => ({ bound: at, edges: [], degrees: [2, 2, 2] }));
    const state = { ...showing(withFiles(BEGINNING, [A, FIRST], null), { ...OUTCOME, scene: SCENE }), width: 600, rising: { ascent: { steps, best: 2, potentials: "" }, bound: 2n }, isPlaying: true };
    assert.deepEqual([atStep(state, 1).step, atStep(state, 1).isPlaying, atStep(state, 9).step, atStep(state, 2).isPlaying], [1, true, 2, false]);
    const view = viewOf(atStep(state, 1));
    assert.deepEqual([view.step.value, view.step.attributes.max, view.play.text, view.rise.hidden], ["1", "2", "Pause", true]);
    assert.match(view["step-words"].text, /^Step 1: the least 1-tree gives the bound 1\.00\. Each node has two edges/);
});

test("a link carries small files", async () => {
    const asked = { by: By.BRANCHES, claimed: "7", best: "", claims: false, strict: true };
    const files = [file("a ü.tsp", "TYPE : TSP\n"), { name: "raw.tour", bytes: Uint8Array.of(0, 255, 128, 10) }];
    const link = await linkOf({ files, asked });
    assert.match(link, /^#files=[\w-]+$/);
    assert.deepEqual(await carriedBy(link), { files, asked });
    let seed = 1;
    const random = Uint8Array.from({ length: 20_000 }, () => (seed = (seed * 48271) % 2147483647) >> 8);
    assert.equal(await linkOf({ files: [{ name: "large", bytes: random }], asked }), null, "too long");
    assert.equal(await linkOf({ files: [{ name: "large", bytes: new Uint8Array((1 << 20) + 1) }], asked }), null, "too much to unpack");
    for (const hash of ["", "#orchard", "#files=", "#files=%%%", link.slice(0, -9), `${link.slice(0, 20)}AAAA${link.slice(24)}`]) {
        assert.equal(await carriedBy(hash), null, hash);
    }
});

test("JSON that is cut off", () => {
    for (const text of ["[1, 2, 3", '{"tour": [1, 2', '{"tour": [1, 2]', '{"name": "x, 1]', '[[1, 2], [3']) {
        assert.ok(isCutJson(new TextEncoder().encode(text)), text);
    }
    for (const text of ["[1, 2]", '{"tour": [1, 2]}', '{"a": "}["}', "1 2 3", "[1] 1 3\n[3] 2\n", "TYPE : TOUR\n", '["\\"", 1]']) {
        assert.equal(isCutJson(new TextEncoder().encode(text)), false, text);
    }
});

test("what the page shows has its element, and each button does something", () => {
    const read = (name) => readFileSync(new URL(`../page/${name}`, import.meta.url), "utf8");
    const html = read("page.html");
    const ids = new Set([...html.matchAll(/ id="([\w-]+)"/g)].map(([, id]) => id));
    const given = withFiles(BEGINNING, [A, FIRST, SECOND], null);
    const branches = { families: [], steps: [{ above: -1, isFirst: true, pair: null, family: null, limit: 0, leaf: 0 }], leaves: 1 };
    const steps = [{ bound: 1, edges: [], degrees: [2, 2, 2] }];
    const full = { ...showing(given, { ...OUTCOME, scene: SCENE, branches }), rising: { ascent: { steps, best: 0, potentials: "" }, bound: 1n }, width: 600 };
    for (const state of [BEGINNING, judging(given), showing(given, OUTCOME), full]) {
        assert.deepEqual(Object.keys(viewOf(state)).filter((id) => !ids.has(id)), []);
    }
    const [, actions] = /^const ACTIONS = \{\n([^]*?)^\};/m.exec(read("page.mjs"));
    const known = new Set([...actions.matchAll(/^    "?([\w-]+)"?[:,]/gm)].map(([, name]) => name));
    const asked = [...html.matchAll(/data-do="([\w-]+)"/g), ...`${read("view.mjs")}${read("drawing.mjs")}`.matchAll(/"(choose|save-made|pick-route)"/g)];
    assert.deepEqual(asked.map(([, name]) => name).filter((name) => !known.has(name)), []);
    assert.ok(asked.length >= 10 && known.size > 20);
});
