// The pictures of the page, and what is zoomed: node --test pictures.test.mjs
// bindings/web/test runs it, in the suite `bindings` of ./check.

import assert from "node:assert/strict";
import { test } from "node:test";

import { branchesOf, decisionsOf, wordsOfDecision } from "../page/branches.mjs";
import { hullOf, pictureOf } from "../page/map.mjs";
import { barOf, curveOf, ticksOf } from "../page/plots.mjs";
import { differenceOf, loadsOf } from "../page/scene.mjs";
import { colourOf } from "../page/shapes.mjs";
import { treePicture } from "../page/tree.mjs";
import { WHOLE, boxOf, movedBy, zoomByKey, zoomedBy } from "../page/zoom.mjs";

const MARKS = { nodes: [], pair: null, route: null };
const SCENE = { points: Float64Array.of(0, 0, 3, 4), weights: "EUC_2D", note: "", tours: [], fixed: [], depot: null, loads: [], capacity: 0, missing: [], marks: MARKS, other: null };
const LOOK = { room: 600, kind: "yes", zoom: WHOLE, route: null, sets: [], decisions: [] };
const barWith = (length, bound, room = 100) => barOf({ length, bound, gap: bound === null ? null : length - bound, optimal: length === bound }, room);
const classed = (picture, word) => picture.layers.flat().filter(({ attributes }) => String(attributes.class ?? "").split(" ").includes(word));
const textsOf = (picture) => picture.layers.flat().flatMap(({ text }) => text ?? []);

test("a page that isn't shown has pictures of some width", () => {
    const { width, height } = pictureOf(SCENE, { ...LOOK, room: 0, kind: "plain" });
    assert.ok(width > 0 && height > 0);
    const bar = barWith(10n, 9n, 0);
    assert.ok(bar.layers.flat().every(({ attributes }) => attributes.width === undefined || attributes.width >= 0));
});

test("a bar of length, bound and gap", () => {
    assert.deepEqual(barWith(10n, 9n).layers[0].slice(0, 2).map((it) => it.attributes.width), [90, 10]);
    assert.equal(barWith(10n, 10n).layers[0][0].attributes.width, 100);
    assert.deepEqual([barWith(10n, null), barWith(10n, -1n)], [null, null]);
});

test("a long tour is drawn in parts", () => {
    const nodes = 2500;
    const tour = Array.from({ length: nodes }, (_, at) => at + 1);
    const scene = { ...SCENE, points: new Float64Array(2 * nodes).map((_, at) => at), tours: [tour] };
    const lines = classed(pictureOf(scene, LOOK), "tour").map(({ attributes }) => attributes.d.slice(1).split("L"));
    assert.deepEqual(lines.map(({ length }) => length), [1001, 1001, 501], "edges and one");
    assert.deepEqual(lines.map((line) => line.at(-1)), [lines[1][0], lines[2][0], lines[0][0]], "each begins where another ends");
});

test("the curve of an ascent has axes with round numbers", () => {
    assert.deepEqual(ticksOf(0, 100, 5), [0, 20, 40, 60, 80, 100]);
    assert.deepEqual(ticksOf(222.3, 225.9, 5), [223, 224, 225]);
    assert.deepEqual(ticksOf(0.11, 0.32, 4), [0.2, 0.3]);
    assert.equal(ticksOf(7, 7, 5).length, 1, "numbers that are equal");
    const steps = Array.from({ length: 41 }, (_, at) => ({ bound: 100 + at, edges: [], degrees: [] }));
    const picture = curveOf(steps, 20, 150n, 800);
    const said = textsOf(picture);
    for (const word of ["step", "bound", "0", "20", "40", "100", "120", "length 150"]) {
        assert.ok(said.includes(word), word);
    }
    const [{ attributes: here }] = classed(picture, "here");
    const [{ attributes: rise }] = classed(picture, "rise");
    assert.ok(rise.d.includes(`${here.cx} ${here.cy}`), "the step that is shown is on the curve");
    const inside = picture.layers.flat().filter(({ name }) => name === "text").every(({ attributes }) => attributes.x >= 0 && attributes.x <= 800);
    assert.ok(inside);
});

test("zooming stays inside the drawing", () => {
    const drawing = { width: 100, height: 80 };
    assert.deepEqual(boxOf(WHOLE, drawing), [0, 0, 100, 80]);
    assert.deepEqual(boxOf(zoomedBy(WHOLE, 2), drawing), [25, 20, 50, 40]);
    assert.deepEqual(boxOf(zoomedBy(WHOLE, 2, [0, 1]), drawing), [0, 40, 50, 40], "the corner stays where it is");
    assert.deepEqual(zoomedBy(zoomedBy(WHOLE, 2), 0.1), { scale: 1, x: 0, y: 0 });
    const moved = movedBy(zoomedBy(WHOLE, 4), 9, -9);
    assert.deepEqual([moved.x, moved.y], [0.75, 0]);
    assert.ok(zoomedBy(WHOLE, 1e9).scale <= 1000);
    assert.deepEqual(["+", "0", "ArrowLeft", "x"].map((key) => zoomByKey({ scale: 2, x: 0.25, y: 0.25 }, key)?.scale), [3, 1, 2, undefined]);
    assert.ok(zoomByKey({ scale: 2, x: 0.25, y: 0.25 }, "ArrowRight").x > 0.25);
});

test("what is seen of a zoomed drawing has labels, and the ground isn't drawn again", () => {
    const count = 200;
    const points = new Float64Array(2 * count).map((_, at) => (at % 2 ? at % 7 : at));
    const scene = { ...SCENE, points };
    const whole = pictureOf(scene, LOOK);
    const near = pictureOf(scene, { ...LOOK, zoom: zoomedBy(WHOLE, 20, [0, 0.5]) });
    assert.equal(classed(whole, "label").length, 0);
    assert.ok(classed(near, "label").length > 0 && classed(near, "label").length <= 60);
    assert.equal(whole.layers[0], near.layers[0]);
    assert.ok(Math.abs(classed(near, "label")[0].attributes["font-size"] - 12 / 20) < 1e-9);
});

test("routes have colours and loads", () => {
    const text = "TYPE : CVRP\nDIMENSION : 4\nCAPACITY : 5\nDEMAND_SECTION\n1 0\n2 3\n3 4\n4 1\nDEPOT_SECTION\n1\n-1\nEOF\n";
    assert.deepEqual(loadsOf(text, [[2, 3], [4]]), { capacity: 5, loads: [7, 1] });
    assert.deepEqual(loadsOf("TYPE : TSP\n", [[1, 2]]), { capacity: 0, loads: [] });
    const scene = { ...SCENE, points: Float64Array.of(0, 0, 1, 0, 1, 1, 0, 1), depot: 1, tours: [[1, 2, 3], [1, 4]] };
    const [first, second] = classed(pictureOf(scene, LOOK), "route").map(({ attributes }) => attributes.stroke);
    assert.deepEqual([first, second], [colourOf(0), colourOf(1)]);
    assert.equal(new Set(Array.from({ length: 30 }, (_, at) => colourOf(at))).size, 30);
    assert.ok(Array.from({ length: 30 }, (_, at) => colourOf(at)).every((colour) => /^#[0-9a-f]{6}$/.test(colour)));
    const picked = classed(pictureOf(scene, { ...LOOK, route: 1 }), "picked");
    assert.deepEqual(picked.map(({ attributes }) => attributes.stroke), [colourOf(1)]);
});

test("the edges in which two solutions differ", () => {
    const found = differenceOf([[1, 2, 3, 4]], [[1, 3, 2, 4]], false);
    assert.deepEqual([found.own, found.gone, found.shared], [[[1, 2], [3, 4]], [[1, 3], [2, 4]], 2]);
    assert.deepEqual(differenceOf([[1, 2, 3]], [[3, 2, 1]], false), { own: [], gone: [], shared: 3 }, "the same tour, backwards");
    assert.equal(differenceOf([[1, 2, 3]], [[3, 2, 1]], true).shared, 0, "arcs have a direction");
    const routes = differenceOf([[1, 2], [1, 3]], [[1, 2, 3]], false);
    assert.deepEqual([routes.own, routes.gone, routes.shared], [[[2, 1], [3, 1]], [[2, 3]], 2], "a customer alone uses its edge twice");
    const scene = { ...SCENE, points: Float64Array.of(0, 0, 1, 0, 1, 1, 0, 1), tours: [[1, 2, 3, 4]], other: { name: "b", ...found } };
    const picture = pictureOf(scene, LOOK);
    assert.deepEqual([classed(picture, "own").length, classed(picture, "gone").length, classed(picture, "shared").length], [1, 1, 1]);
});

test("the shape around a set of nodes", () => {
    const square = [[0, 0], [2, 0], [2, 2], [0, 2], [1, 1], [1, 0]];
    assert.deepEqual(hullOf(square).sort(), [[0, 0], [0, 2], [2, 0], [2, 2]]);
    assert.deepEqual(hullOf([[1, 1]]), [[1, 1]]);
    assert.equal(hullOf([[0, 0], [1, 1], [2, 2]]).length, 2, "points on a line");
});

const TREE = "TYPE : BRANCHES\nDIMENSION : 5\nCOMB_SECTION\n1 2 3 -1\n1 4 -1\n2 5 -1\n-1\n4 5 -1\n-1\n-1\nBRANCH_SECTION\n1 2\n0 3 -1 4 -7 -1\n7 2\n0 -1\n0 1 1 -1\nEOF\n";

test("families and the tree of branches", () => {
    const branches = branchesOf(TREE, 5);
    assert.deepEqual(branches.families, [[[1, 2, 3], [1, 4], [2, 5]], [[4, 5]]]);
    assert.deepEqual(branches.steps.map(({ above, leaf }) => [above, leaf]), [[-1, -1], [0, 0], [0, -1], [2, 1], [2, 2]]);
    assert.equal(branches.leaves, 3);
    const words = [0, 1, 2].map((leaf) => decisionsOf(branches, leaf).map(wordsOfDecision).join("; "));
    assert.deepEqual(words, [
        "edge 1–2 is used",
        "edge 1–2 is not used; family 2 is crossed at most 4 times",
        "edge 1–2 is not used; family 2 is crossed at least 6 times",
    ]);
    assert.equal(branchesOf("TYPE : POTENTIALS\n", 5), null);
    const picture = treePicture(branches, 1, 600);
    assert.deepEqual(textsOf(picture), ["1–2", "family 2"]);
    assert.equal(classed(picture, "way")[0].attributes.d.split("M").length - 1, 2, "two branches above the leaf that is shown");
    const scene = { ...SCENE, points: Float64Array.of(0, 0, 1, 0, 1, 1, 0, 1, 2, 2) };
    const sets = branches.families[0].map((nodes, at) => ({ nodes, isTooth: at > 0 }));
    const map = pictureOf(scene, { ...LOOK, sets, decisions: decisionsOf(branches, 0) });
    assert.deepEqual([classed(map, "hull").length, classed(map, "tooth").length], [3, 2]);
    assert.equal(classed(map, "used")[0].attributes.d.split("M").length - 1, 1);
});

test("a tree of one leaf, and one that is deep", () => {
    const one = branchesOf("TYPE : BRANCHES\nDIMENSION : 3\nBRANCH_SECTION\n0 -1\nEOF\n", 3);
    assert.deepEqual([one.leaves, decisionsOf(one, 0)], [1, []]);
    assert.ok(treePicture(one, 0, 300).height > 0);
    const depth = 5000;
    const words = `${"1 2\n0 -1\n".repeat(depth)}0 -1\n`;
    const deep = branchesOf(`TYPE : BRANCHES\nDIMENSION : 3\nBRANCH_SECTION\n${words}EOF\n`, 3);
    assert.deepEqual([deep.leaves, decisionsOf(deep, depth).length], [depth + 1, depth]);
    assert.ok(treePicture(deep, 0, 300).height < 600);
});
