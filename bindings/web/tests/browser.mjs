// Opens a built page in Chromium: node browser.mjs PAGE [FOLDER]
//
// Each example has to end in its verdict, and files that are chosen too. Nothing may be said on the console, and
// the page may ask for nothing but itself. FOLDER gets pictures. The last line is 'N passed, M failed'.
// bindings/web/test runs it, in the suite `bindings` of ./check.

import assert from "node:assert/strict";
import { spawn } from "node:child_process";
import { mkdtempSync, readFileSync, rmSync, writeFileSync } from "node:fs";
import { tmpdir } from "node:os";
import { join, resolve } from "node:path";
import { fileURLToPath, pathToFileURL } from "node:url";

const [page, pictures] = process.argv.slice(2).map((path) => resolve(path));
const EXAMPLES = fileURLToPath(new URL("../../../examples/", import.meta.url));
const WIDE = { width: 1100, height: 900, deviceScaleFactor: 1, mobile: false };
const PHONE = { width: 390, height: 844, deviceScaleFactor: 2, mobile: true };
const SECONDS = 30;

/** A browser, to which it speaks over a pipe by the DevTools protocol. */
class Browser {
    /** @param {string} profile */
    constructor(profile) {
        const words = ["--headless=new", "--no-sandbox", "--disable-gpu", "--remote-debugging-pipe"];
        const stdio = ["ignore", "ignore", "ignore", "pipe", "pipe"];
        this.process = spawn("chromium", [...words, `--user-data-dir=${profile}`, "about:blank"], { stdio });
        this.answers = new Map();
        this.events = [];
        this.count = 0;
        this.session = undefined;
        let left = "";
        this.process.stdio[4].on("data", (bytes) => {
            const parts = (left + bytes).split("\0");
            left = parts.pop() ?? "";
            parts.forEach((part) => this.hear(JSON.parse(part)));
        });
    }

    /** @param {object} message */
    hear(message) {
        if (message.id === undefined) {
            this.events.push(message);
            return;
        }
        const { found, failed } = this.answers.get(message.id);
        this.answers.delete(message.id);
        message.error ? failed(new Error(message.error.message)) : found(message.result);
    }

    /**
     * The result of a command.
     *
     * @param {string} method
     * @param {object} [params]
     * @returns {Promise<any>}
     */
    ask(method, params = {}) {
        const id = ++this.count;
        const message = { id, method, params, sessionId: this.session };
        this.process.stdio[3].write(`${JSON.stringify(message)}\0`);
        return new Promise((found, failed) => this.answers.set(id, { found, failed }));
    }

    /** Takes the page that is open. */
    async attach() {
        const { targetInfos } = await this.ask("Target.getTargets");
        const { targetId } = targetInfos.find(({ type }) => type === "page");
        this.session = (await this.ask("Target.attachToTarget", { targetId, flatten: true })).sessionId;
        for (const domain of ["Page", "Runtime", "Log", "Network", "DOM"]) {
            await this.ask(`${domain}.enable`);
        }
    }

    /**
     * The value of an expression.
     *
     * @param {string} expression
     */
    async value(expression) {
        const { result, exceptionDetails } = await this.ask("Runtime.evaluate", { expression, returnByValue: true, awaitPromise: true });
        if (exceptionDetails) {
            throw new Error(`${exceptionDetails.exception?.description ?? exceptionDetails.text}: ${expression}`);
        }
        return result.value;
    }

    /**
     * Waits until an expression is true.
     *
     * @param {string} expression
     */
    async until(expression) {
        for (let tries = 0; tries < 20 * SECONDS; tries++) {
            // (a page that is still being loaded lacks elements)
            if (await this.value(expression).catch(() => false)) {
                return;
            }
            await new Promise((done) => setTimeout(done, 50));
        }
        throw new Error(`never: ${expression}`);
    }

    /**
     * Opens the page anew, with an example or without one.
     *
     * @param {string} name
     */
    async open(name) {
        await this.ask("Page.navigate", { url: "about:blank" });
        await this.ask("Page.navigate", { url: `${pathToFileURL(page)}${name && "#"}${name}` });
        await this.until(`/^\\d/.test(document.getElementById("version")?.textContent)`);
    }

    /** The text of an element. */
    text(id) {
        return this.value(`document.getElementById("${id}").textContent`);
    }

    /** Waits until an element has a text. */
    untilText(id, text) {
        return this.until(`document.getElementById("${id}").textContent === ${JSON.stringify(text)}`);
    }

    /** Clicks a button. */
    click(id) {
        return this.value(`document.getElementById("${id}").click()`);
    }

    /** Puts a value into an input, which tells of it by an event. */
    enter(id, value, event = "change") {
        return this.value(`(() => { const it = document.getElementById("${id}"); it.value = "${value}"; it.dispatchEvent(new Event("${event}")); })()`);
    }

    /** Drops files on the page, each a name and a text. */
    drop(files) {
        return this.value(`(() => { const all = new DataTransfer();
            for (const [name, text] of ${JSON.stringify(files)}) { all.items.add(new File([text], name)); }
            document.dispatchEvent(new DragEvent("drop", { dataTransfer: all })); })()`);
    }

    /** The verdict, once there is one. */
    async verdict() {
        await this.until(`!document.body.classList.contains("busy") && !["", "Checking …"].includes(document.getElementById("verdict").textContent)`);
        return this.text("verdict");
    }

    /**
     * Gives files to an input.
     *
     * @param {string} id
     * @param {string[]} names
     */
    async choose(id, names) {
        const { root } = await this.ask("DOM.getDocument");
        const { nodeId } = await this.ask("DOM.querySelector", { nodeId: root.nodeId, selector: `#${id}` });
        await this.ask("DOM.setFileInputFiles", { nodeId, files: names.map((name) => join(EXAMPLES, name)) });
    }

    /**
     * Presses a key.
     *
     * @param {string} key
     */
    async press(key) {
        const text = key === "Enter" ? "\r" : key.length === 1 ? key : undefined;
        await this.ask("Input.dispatchKeyEvent", { type: text ? "keyDown" : "rawKeyDown", key, text, windowsVirtualKeyCode: key === "Enter" ? 13 : undefined });
        await this.ask("Input.dispatchKeyEvent", { type: "keyUp", key });
    }

    /**
     * A picture of the whole page.
     *
     * @param {string} title
     */
    async picture(title) {
        const { cssContentSize } = await this.ask("Page.getLayoutMetrics");
        const clip = { x: 0, y: 0, width: cssContentSize.width, height: cssContentSize.height, scale: 1 };
        const { data } = await this.ask("Page.captureScreenshot", { clip, captureBeyondViewport: true });
        writeFileSync(join(pictures, `${title}.png`), Buffer.from(data, "base64"));
    }

    /**
     * @param {object} metrics of the window
     * @param {"light" | "dark"} scheme
     */
    async dress(metrics, scheme) {
        await this.ask("Emulation.setDeviceMetricsOverride", metrics);
        await this.ask("Emulation.setEmulatedMedia", { features: [{ name: "prefers-color-scheme", value: scheme }] });
    }
}

/** A file of the examples, to be dropped. */
const own = (name) => [name, readFileSync(join(EXAMPLES, name), "utf8")];

/** Large files, to be dropped. */
const NODES = Array.from({ length: 100_000 }, (_, at) => at + 1);
const large = (end, ...lines) => [`large.${end}`, [...lines, "EOF", ""].join("\n")];
const POINTS = NODES.map((node) => `${node} ${(node * 7919) % 99991} ${(node * 104729) % 99989}`);
const LARGE = large("tsp", "TYPE : TSP", "DIMENSION : 100000", "EDGE_WEIGHT_TYPE : EUC_2D", "NODE_COORD_SECTION", ...POINTS);

/** The tests: a name, and what is done. */
const TESTS = {
    "the examples end in their verdicts": async (browser) => {
        const wanted = { orchard: "Yes: optimal", harbour: /^Yes: gap \d+$/, twice: "No", dairy: "Yes", zero: "Fault" };
        for (const [name, verdict] of Object.entries(wanted)) {
            await browser.open(name);
            const found = await browser.verdict();
            assert.match(found, verdict instanceof RegExp ? verdict : new RegExp(`^${verdict}$`));
        }
    },
    "files that are chosen at once find their places": async (browser) => {
        await browser.open("");
        await browser.choose("all", ["valleys.branches", "valleys.tour", "valleys.tsp"]);
        await browser.untilText("verdict", "Yes: optimal");
        assert.match(await browser.text("command"), /--branches valleys\.branches$/);
        assert.equal(await browser.value(`document.getElementById("no-drawing").hidden`), false);
    },
    "files that are chosen one by one are judged as far as they go": async (browser) => {
        await browser.open("");
        await browser.choose("instance", ["harbour.tsp"]);
        await browser.untilText("verdict", "A valid file");
        await browser.choose("certificate", ["harbour.potentials"]);
        await browser.untilText("verdict", "Yes: a bound");
        await browser.choose("solution", ["harbour.tour"]);
        await browser.untilText("verdict", "Yes: optimal");
        await browser.enter("claimed", "225");
        await browser.untilText("meaning", "The reason is LengthClaimed 226.");
        await browser.click("instance-remove");
        assert.equal(await browser.text("verdict"), "No instance");
        assert.equal(await browser.value(`document.getElementById("figure").hidden`), true);
    },
    "a solution of another program is read, and is saved with the report and the picture": async (browser) => {
        await browser.open("");
        await browser.value(`globalThis.saved = []; globalThis.made = URL.createObjectURL;
            URL.createObjectURL = (blob) => { saved.push({ blob }); return made.call(URL, blob); };
            HTMLAnchorElement.prototype.click = function () { saved.at(-1).name = this.download; }; 0`);
        await browser.choose("all", ["harbour.tsp", "solvers/harbour.concorde.sol"]);
        await browser.untilText("verdict", "Yes: a tour");
        assert.match(await browser.text("made"), /was read as another program's solution\. Save harbour\.concorde\.tour$/);
        assert.match(await browser.text("command-note"), /^First save harbour\.concorde\.tour /);
        for (const action of ["save-made", "save-report", "save-picture"]) {
            await browser.value(`document.querySelector("[data-do=${action}]").click()`);
        }
        const texts = await browser.value(`Promise.all(saved.map(({ blob }) => blob.text()))`);
        assert.deepEqual(await browser.value(`saved.map(({ name }) => name)`), ["harbour.concorde.tour", "harbour.report", "harbour.svg"]);
        assert.equal(texts[0], "TYPE : TOUR\nTOUR_SECTION\n1\n2\n3\n4\n8\n5\n6\n7\n-1\nEOF\n");
        assert.equal(texts[1], "type TSP\nnodes 8\nlength 226\nyes\n");
        assert.match(texts[2], /^<svg [^>]*xmlns="http:\/\/www.w3.org\/2000\/svg".*<style.*<path /s);
        assert.doesNotMatch(texts[2], /var\(/, "each program knows its colours");
    },
    "a table of nodes and routes with copies of the depot are read": async (browser) => {
        await browser.open("");
        await browser.drop([["tour.csv", "order,node\n0,1\n1,2\n2,3\n3,4\n4,8\n5,5\n6,6\n7,7\n"], own("harbour.tsp")]);
        await browser.untilText("verdict", "Yes: a tour");
        assert.match(await browser.text("made"), /^tour\.csv was read as another program's solution\. Save tour\.tour$/);
        await browser.open("");
        await browser.drop([own("dairy.vrp"), ["lkh.tour", "TYPE : TOUR\nTOUR_SECTION\n1 5 6 4 7 9 2 8 3 -1\nEOF\n"]]);
        await browser.untilText("verdict", "Yes");
        assert.match(await browser.text("made"), /copies of the depot\. /);
    },
    "several tours are a table": async (browser) => {
        await browser.open("");
        await browser.choose("all", ["harbour.tsp", "harbour.tour", "rectangle-1-2-3-4.tour"]);
        await browser.untilText("verdict", "Yes: a tour");
        const rows = `[...document.querySelectorAll("#rows-body tr")].map((row) => row.innerText.split(/\\s*\\t\\s*/).slice(0, 2).join("|"))`;
        assert.deepEqual(await browser.value(rows), ["harbour.tour|Yes: a tour", "rectangle-1-2-3-4.tour|No: TourLength"]);
        await browser.value(`document.querySelectorAll("#rows-body button")[1].click()`);
        await browser.untilText("meaning", "rectangle-1-2-3-4.tour: The reason is TourLength.");
        assert.equal(await browser.value(`document.querySelectorAll("#rows-body tr").length`), 2);
        assert.match(await browser.value(`document.querySelector("tr[aria-current]").innerText`), /^rectangle-1-2-3-4\.tour/);
        const heads = `[...document.querySelectorAll("#rows-head th")].map((it) => it.textContent).join("|")`;
        assert.equal(await browser.value(heads), "Tour|Verdict|Length");
        await browser.enter("best", "200");
        await browser.until(`${heads} === "Tour|Verdict|Length|Above the best known in %"`);
    },
    "potentials rise step by step, and are taken as the certificate": async (browser) => {
        await browser.open("");
        await browser.choose("all", ["harbour.tsp", "harbour.tour"]);
        await browser.untilText("verdict", "Yes: a tour");
        await browser.click("rise");
        await browser.until(`document.getElementById("rising").hidden === false`);
        await browser.until(`document.querySelectorAll("#tree .tree").length === 8`);
        await browser.value(`(() => { const step = document.getElementById("step"); step.value = step.max; step.dispatchEvent(new Event("input")); })()`);
        assert.match(await browser.text("step-words"), /^Step [1-9]\d*: the least 1-tree gives the bound 22\d/);
        if (pictures) {
            await browser.picture("rising");
        }
        await browser.click("use-potentials");
        await browser.until(`/^Yes: (optimal|gap \\d)$/.test(document.getElementById("verdict").textContent)`);
        assert.equal(await browser.value(`document.getElementById("rising").hidden`), true);
    },
    "a fault has its meaning above its line": async (browser) => {
        await browser.open("zero");
        assert.equal(await browser.verdict(), "Fault");
        assert.match(await browser.text("meaning"), /^The number is out of range\. TOUR_SECTION lists/);
        assert.match(await browser.text("explanation"), /^zero\.tour:\d+: word \d+: Number OutOfRange\n/);
    },
    "a random tour of 100,000 nodes is drawn while the page answers": async (browser) => {
        await browser.open("");
        await browser.drop([LARGE, large("tour", "TYPE : TOUR", "TOUR_SECTION", ...NODES, -1)]);
        await browser.untilText("verdict", "Yes: a tour");
        const began = Date.now();
        await browser.ask("Page.captureScreenshot", { format: "png" });
        assert.ok(Date.now() - began < 30_000, `painted in ${Date.now() - began} ms`);
        console.log(`bindings/web/tests: a random tour of 100,000 nodes is painted in ${Date.now() - began} ms`);
    },
    "a page that isn't shown draws without a fault": async (browser) => {
        await browser.open("");
        await browser.value(`document.getElementById("result").style.display = "none"`);
        await browser.value(`document.querySelector("[data-value=harbour]").click()`);
        assert.match(await browser.verdict(), /^Yes: gap/);
        assert.match(await browser.value(`document.getElementById("map").getAttribute("viewBox")`), /^0 0 [1-9]\d* [1-9]\d*$/);
    },
    "two instances in one drop are both offered, and the other one is chosen by a key": async (browser) => {
        await browser.open("");
        await browser.choose("all", ["harbour.tsp", "rectangle.tsp", "rectangle-1-2-3-4.tour"]);
        await browser.verdict();
        const names = `[...document.querySelectorAll("#instance-offered button")].map((it) => it.textContent).join("|")`;
        assert.equal(await browser.value(names), "harbour.tsp|rectangle.tsp");
        await browser.value(`document.querySelectorAll("#instance-offered button")[1].focus()`);
        await browser.press("Enter");
        await browser.untilText("verdict", "Yes: a tour");
        assert.match(await browser.text("command"), /^tsp check rectangle\.tsp /);
        assert.equal(await browser.value(`document.activeElement.textContent`), "rectangle.tsp", "the focus stays");
    },
    "the drawing is zoomed and moved by keys, the wheel and the mouse": async (browser) => {
        await browser.open("orchard");
        await browser.verdict();
        const box = async () => (await browser.value(`document.getElementById("map").getAttribute("viewBox")`)).split(" ").map(Number);
        const whole = await box();
        await browser.value(`document.getElementById("map").focus()`);
        await browser.press("+");
        const near = await box();
        assert.ok(Math.abs(near[2] - whole[2] / 1.5) < 0.01, String(near));
        await browser.press("ArrowRight");
        assert.ok((await box())[0] > near[0]);
        await browser.press("0");
        assert.deepEqual(await box(), whole);
        const place = await browser.value(`(() => { const map = document.getElementById("map"); map.scrollIntoView();
            const { left, top, width, height } = map.getBoundingClientRect(); return { x: left + width / 2, y: top + height / 4 }; })()`);
        await browser.ask("Input.dispatchMouseEvent", { type: "mouseWheel", ...place, deltaX: 0, deltaY: -200, modifiers: 2 });
        await browser.until(`document.getElementById("map").classList.contains("zoomed")`);
        const zoomed = await box();
        assert.ok(Math.abs(zoomed[2] - whole[2] / Math.E) < 0.5, String(zoomed));
        await browser.ask("Input.dispatchMouseEvent", { type: "mousePressed", ...place, button: "left", clickCount: 1 });
        await browser.ask("Input.dispatchMouseEvent", { type: "mouseMoved", x: place.x - 50, y: place.y, button: "left", buttons: 1 });
        await browser.ask("Input.dispatchMouseEvent", { type: "mouseReleased", x: place.x - 50, y: place.y, button: "left" });
        assert.ok((await box())[0] > zoomed[0] + 1, "dragging to the left shows what is to the right");
        if (pictures) {
            await browser.picture("zoomed");
        }
        await browser.click("zoom-whole");
        assert.deepEqual(await box(), whole);
    },
    "routes are picked in their legend": async (browser) => {
        await browser.open("dairy");
        await browser.verdict();
        assert.equal(await browser.value(`document.querySelectorAll("#routes li").length`), 2);
        assert.match(await browser.value(`document.querySelector("#routes li").innerText`), /^Route 1: 4 customers, load \d+ of \d+$/);
        await browser.value(`document.querySelectorAll("#routes button")[1].click()`);
        assert.equal(await browser.value(`document.querySelectorAll("#map .picked").length`), 1);
        assert.equal(await browser.value(`document.querySelectorAll("#routes [aria-pressed=true]").length`), 1);
        if (pictures) {
            await browser.picture("picked");
        }
    },
    "the edges in which two tours differ": async (browser) => {
        await browser.open("");
        await browser.choose("all", ["rectangle.tsp", "rectangle-1-2-3-4.tour", "rectangle-1-3-4-2.tour"]);
        await browser.untilText("verdict", "Yes: a tour");
        const key = `[...document.querySelectorAll("#difference li")].map((it) => it.innerText.trim()).join("|")`;
        assert.equal(await browser.value(key), "2 edges of both|2 only of the tour that is shown|2 only of rectangle-1-3-4-2.tour");
        if (pictures) {
            await browser.picture("difference");
        }
        await browser.enter("against", "");
        await browser.until(`document.getElementById("difference").hidden && document.getElementById("verdict").textContent === "Yes: a tour"`);
    },
    "families and the tree of branches are drawn": async (browser) => {
        await browser.open("");
        await browser.choose("all", ["valleys.tsp", "valleys.tour", "valleys.branches"]);
        await browser.untilText("verdict", "Yes: optimal");
        assert.match(await browser.text("branching-words"), /^The certificate has \d+ lea/);
        if (pictures) {
            await browser.picture("branches");
        }
        await browser.open("orchard");
        await browser.verdict();
        assert.ok((await browser.value(`document.querySelectorAll("#map .hull").length`)) >= 2);
        await browser.enter("family", "2", "input");
        assert.match(await browser.text("family-words"), /^Family 2 of 2: a handle of \d+ nodes and \d+ teeth\.$/);
    },
    "a link carries the files": async (browser) => {
        await browser.open("harbour");
        const verdict = await browser.verdict();
        await browser.click("share");
        await browser.until(`location.hash.startsWith("#files=")`);
        await browser.until(`/^The link is /.test(document.getElementById("link-told").textContent)`);
        const hash = (await browser.value("location.hash")).slice(1);
        await browser.open(hash);
        assert.equal(await browser.verdict(), verdict);
        assert.match(await browser.text("command"), /^tsp check harbour\.tsp harbour\.tour --potentials /);
        await browser.open(`${hash.slice(0, 60)}`);
        assert.equal(await browser.verdict(), "No files");
    },
    "JSON that is cut off is told so": async (browser) => {
        await browser.open("");
        await browser.drop([own("harbour.tsp"), ["tour.json", '{"tour": [1, 2, 3']]);
        assert.equal(await browser.verdict(), "Fault");
        assert.match(await browser.text("cautions"), /^tour\.json begins as JSON, but ends inside of it/);
    },
    "files that are held over the page show where they would go": async (browser) => {
        await browser.open("");
        const held = (id) => browser.value(`document.getElementById("${id}").dispatchEvent(new DragEvent("dragover", { bubbles: true, cancelable: true }))`);
        await held("verdict");
        assert.equal(await browser.value("document.body.className"), "over");
        await held("solution-name");
        assert.equal(await browser.value(`document.querySelector("[data-over]").id`), "solution-slot");
        await browser.value(`document.dispatchEvent(new DragEvent("dragleave", { bubbles: true }))`);
        assert.equal(await browser.value("document.body.className"), "");
    },
    "a check that takes long says how long, and is stopped by a key": async (browser) => {
        await browser.open("");
        const zeros = NODES.map((node) => `${node} 0`);
        await browser.drop([LARGE, large("potentials", "TYPE : POTENTIALS", "DIMENSION : 100000", "NODE_POTENTIAL_SECTION", ...zeros)]);
        await browser.until(`/^judging, \\d+ s$/.test(document.getElementById("doing").textContent) || /^Yes/.test(document.getElementById("verdict").textContent)`);
        await browser.press("Escape");
        await browser.until(`["Stopped", "Yes: a bound"].includes(document.getElementById("verdict").textContent)`);
        assert.equal(await browser.value(`document.getElementById("stop").hidden`), true);
    },
    "the table of several tours fits a phone": async (browser) => {
        await browser.dress(PHONE, "light");
        await browser.open("");
        await browser.choose("all", ["harbour.tsp", "harbour.tour", "rectangle-1-2-3-4.tour", "harbour-zero.potentials"]);
        await browser.until(`document.querySelectorAll("#rows-body tr").length === 2`);
        const over = "document.documentElement.scrollWidth - document.documentElement.clientWidth";
        assert.equal(await browser.value(over), 0);
        assert.equal(await browser.value(`getComputedStyle(document.querySelector("#rows-body td:nth-child(2)"), "::before").content`), '"Verdict"');
        if (pictures) {
            await browser.picture("table-phone");
        }
        await browser.dress(WIDE, "light");
    },
    "the policy refuses connections": async (browser) => {
        await browser.open("");
        assert.equal(await browser.value(`fetch("http://127.0.0.1:9/").then(() => "sent", (error) => error.name)`), "TypeError");
        const texts = browser.events.map((event) => JSON.stringify(event));
        assert.ok(texts.some((text) => /Log\.entryAdded.*Content Security Policy/.test(text)), "the console names the policy");
        browser.events = browser.events.filter((_, at) => !/Content Security Policy|127\.0\.0\.1/.test(texts[at]));
    },
    "all inputs have labels, and the page fits a phone": async (browser) => {
        await browser.dress(PHONE, "light");
        await browser.open("orchard");
        await browser.verdict();
        assert.equal(await browser.value(`[...document.querySelectorAll("input, select")].filter((it) => !it.labels.length).length`), 0);
        const over = "document.documentElement.scrollWidth - document.documentElement.clientWidth";
        assert.equal(await browser.value(over), 0);
        await browser.dress(WIDE, "light");
    },
    "a worker that fails is told once": async (browser) => {
        await browser.open("");
        await browser.value(`document.getElementById("module").textContent = "AAAA"`);
        await browser.value(`document.getElementById("claimed").focus()`);
        await browser.choose("all", ["harbour.tsp", "harbour.tour"]);
        await browser.untilText("verdict", "Yes: a tour");
        // (at once, before the worker has ended)
        await browser.value(`(() => { const best = document.getElementById("best"); best.value = "1"; best.dispatchEvent(new Event("change"));
            document.getElementById("stop").click(); })()`);
        await browser.untilText("verdict", "Not judged");
    },
    "100,000 nodes are drawn": async (browser) => {
        await browser.open("");
        await browser.drop([LARGE]);
        await browser.untilText("verdict", "A valid file");
        assert.match(await browser.text("legend"), /^100,000 nodes/);
    },
    "nothing is said on the console, and nothing is asked for": async (browser) => {
        const said = new Set(["Log.entryAdded", "Runtime.consoleAPICalled", "Runtime.exceptionThrown"]);
        const told = browser.events.filter(({ method }) => said.has(method));
        assert.deepEqual(told.map(({ params }) => JSON.stringify(params)), []);
        const asked = browser.events.filter(({ method }) => method === "Network.requestWillBeSent");
        const urls = asked.map(({ params }) => params.request.url);
        const own = [String(pathToFileURL(page)), "blob:", "data:", "about:"];
        assert.deepEqual(urls.filter((url) => !own.some((start) => url.startsWith(start))), []);
    },
};

/** Pictures: an example, the window, and the colours. */
const PICTURES = {
    wide: ["orchard", WIDE, "light"],
    dark: ["harbour", WIDE, "dark"],
    phone: ["twice", PHONE, "light"],
    "phone-dark": ["orchard", PHONE, "dark"],
    routes: ["dairy", WIDE, "light"],
    "routes-phone": ["dairy", PHONE, "dark"],
    fault: ["zero", WIDE, "light"],
    empty: ["", WIDE, "light"],
};

const profile = mkdtempSync(join(tmpdir(), "tsp-page-"));
const browser = new Browser(profile);
let [passed, failed] = [0, 0];
try {
    await browser.attach();
    await browser.dress(WIDE, "light");
    for (const [name, run] of Object.entries(TESTS)) {
        try {
            await run(browser);
            passed += 1;
        } catch (error) {
            failed += 1;
            console.log(`bindings/web/tests: failed: ${name}: ${error.message}`);
        }
    }
    for (const [title, [example, metrics, scheme]] of Object.entries(pictures ? PICTURES : {})) {
        await browser.dress(metrics, scheme);
        await browser.open(example);
        if (example) {
            await browser.verdict();
        }
        await browser.picture(title);
    }
} finally {
    browser.session = undefined;
    const ended = new Promise((done) => browser.process.on("exit", done));
    await browser.ask("Browser.close");
    await ended;
    rmSync(profile, { recursive: true, force: true, maxRetries: 10, retryDelay: 200 });
}
console.log(`${passed} passed, ${failed} failed`);
process.exit(failed === 0 && passed > 0 ? 0 : 1);
