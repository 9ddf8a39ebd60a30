// The page: keeps the state (state.mjs), has the worker (worker.mjs) judge the files, and shows what view.mjs answers. The
// events are in events.mjs. bindings/web/build joins this and what it imports into tsp.html.

import { By } from "../../javascript/codes.mjs";
import { display, fileOfPicture, find, save } from "./dom.mjs";
import { listen } from "./events.mjs";
import { carriedBy, linkOf } from "./link.mjs";
import { tableOf } from "./rows.mjs";
import { BEGINNING, SLOTS, atStep, choosing, givenOf, jobOf, judging, showing, telling, withFiles, withSlot } from "./state.mjs";
import { viewOf } from "./view.mjs";

/** How long a step of an ascent is shown, in milliseconds. */
const STEP_TIME = 120;

/** How far the reading of files is, is shown for more bytes. */
const LARGE = 4 << 20;

/** The state that holds, the worker, and the timers. */
const store = { state: BEGINNING, worker: /** @type {Worker | null} */ (null), isBusy: false, steps: 0, seconds: 0 };

/**
 * Goes on to another state, and shows it.
 *
 * @param {import("./state.mjs").State} next
 */
function go(next) {
    store.state = next;
    display(viewOf(next));
}

/** A text that the page has inside. */
const inside = (/** @type {string} */ id) => find(id).textContent ?? "";

// ---- the worker

/** Begins a worker, which first says which version it is. */
function begin() {
    const worker = new Worker(URL.createObjectURL(new Blob([inside("worker")], { type: "text/javascript" })));
    worker.addEventListener("message", ({ data }) => worker === store.worker && hear(data));
    worker.addEventListener("error", (event) => worker === store.worker && hear({ failed: event.message }));
    worker.postMessage(Uint8Array.from(atob(inside("module")), (letter) => letter.charCodeAt(0)));
    store.worker = worker;
}

/** Ends what is judged now, if anything is. */
function stop() {
    clearInterval(store.seconds);
    if (store.isBusy) {
        store.isBusy = false;
        store.worker?.terminate();
        begin();
    }
}

/**
 * @param {object} message of the worker
 * @param {string} [message.version]
 * @param {import("./outcome.mjs").Progress} [message.progress]
 * @param {import("./outcome.mjs").Outcome} [message.outcome]
 * @param {import("./rising.mjs").Rising | null} [message.rising]
 * @param {string} [message.failed]
 */
function hear({ version, progress, outcome, rising, failed }) {
    const { state } = store;
    if (version !== undefined) {
        go({ ...state, version });
    } else if (progress) {
        go({ ...state, work: progress });
    } else if (outcome) {
        clearInterval(store.seconds);
        store.isBusy = false;
        go(showing(state, outcome));
        find("verdict").scrollIntoView({ block: "nearest" });
    } else if (rising !== undefined) {
        go({ ...state, rising, step: 0 });
        play();
    } else {
        // (a worker that fails without a job would fail again)
        stop();
        go(telling(state, { kind: "fault", word: "Not judged", meaning: `The browser can't do it: ${failed}. Use the program tsp.` }));
    }
}

/**
 * Has the files of a state judged, as far as they are enough.
 *
 * @param {import("./state.mjs").State} state
 */
function judge(state) {
    stop();
    clearInterval(store.steps);
    go(judging(state));
    const job = jobOf(state);
    if (job !== null) {
        store.seconds = setInterval(() => go({ ...store.state, seconds: store.state.seconds + 1 }), 1000);
        store.isBusy = true;
        store.worker?.postMessage({ ...job, program: document.documentElement.dataset.program });
    }
}

// ---- files

/**
 * Takes files: to a slot, or each to where it belongs.
 *
 * @param {Iterable<File>} files
 * @param {import("./roles.mjs").Slot | null} slot
 */
async function take(files, slot) {
    const all = [...files];
    const size = all.reduce((sum, file) => sum + file.size, 0);
    try {
        const read = [];
        let done = 0;
        for (const file of all) {
            size > LARGE && go({ ...store.state, work: { words: `reading ${file.name}`, done, all: size } });
            read.push({ name: file.name, bytes: new Uint8Array(await file.arrayBuffer()) });
            done += file.size;
        }
        judge(withFiles(store.state, read, slot));
    } catch (error) {
        go(telling(store.state, { kind: "fault", word: "Not read", meaning: `The browser can't read the file: ${error}` }));
    }
}

/** Takes what is behind the `#` of the page's address: an example, or files that a link carries. */
async function takeHash() {
    const example = JSON.parse(inside("examples"))[location.hash.slice(1)];
    const carried = await carriedBy(location.hash);
    const empty = { ...BEGINNING, version: store.state.version, width: store.state.width };
    if (example) {
        const files = Object.entries(example.files).map(([name, text]) => ({ name, bytes: new TextEncoder().encode(/** @type {string} */ (text)) }));
        judge(withFiles(empty, files, null));
    } else if (carried) {
        judge({ ...withFiles(empty, carried.files, null), ...carried.asked });
    } else if (location.hash.length > 1) {
        go(telling(store.state, { kind: "fault", word: "No files", meaning: "The link is incomplete, so its files can't be read." }));
    }
}

/** Puts a link with the files into the address, and copies it where the browser lets it. */
async function share() {
    const { state } = store;
    const { by, claimed, best, claims, strict } = state;
    const link = await linkOf({ files: SLOTS.flatMap((slot) => [...state.files[slot]]), asked: { by, claimed, best, claims, strict } });
    if (link === null) {
        go({ ...store.state, link: "These files are too large for a link." });
        return;
    }
    history.replaceState(null, "", link);
    const isCopied = await navigator.clipboard?.writeText(location.href).then(() => true, () => false);
    go({ ...store.state, link: isCopied ? "The link is copied." : "The link is in the address of this page: copy it from there." });
}

/** The name of what is saved: that of the instance, with another end. */
const nameWith = (/** @type {string} */ end) => `${(givenOf(store.state, "instance")?.name ?? "tsp").replace(/\.\w+$/, "")}.${end}`;

// ---- what buttons and inputs do, by the word in their `data-do`

/** Shows one step of an ascent after the other, or stops that. */
function play() {
    const { state } = store;
    clearInterval(store.steps);
    const last = (state.rising?.ascent.steps.length ?? 1) - 1;
    if (state.rising === null || state.isPlaying) {
        go({ ...state, isPlaying: false });
        return;
    }
    go({ ...state, isPlaying: true, step: state.step === last ? 0 : state.step });
    store.steps = setInterval(() => {
        go(atStep(store.state, store.state.step + 1));
        store.state.isPlaying || clearInterval(store.steps);
    }, STEP_TIME);
}

/** @typedef {import("./roles.mjs").Slot} Slot */
/** @type {Record<string, (given: { slot: Slot, at: number, value: string }) => void>} */
const ACTIONS = {
    remove: ({ slot }) => judge(withSlot(store.state, slot, [])),
    choose: ({ slot, at }) => judge(choosing(store.state, slot, at)),
    example: ({ value }) => (location.hash === `#${value}` ? takeHash() : location.assign(`#${value}`)),
    "by-potentials": () => judge({ ...store.state, by: By.POTENTIALS }),
    "by-branches": () => judge({ ...store.state, by: By.BRANCHES }),
    claims: () => judge({ ...store.state, claims: !store.state.claims }),
    strict: () => judge({ ...store.state, strict: !store.state.strict }),
    claimed: ({ value }) => judge({ ...store.state, claimed: value }),
    best: ({ value }) => judge({ ...store.state, best: value }),
    against: ({ value }) => judge({ ...store.state, against: value === "" ? null : Number(value) }),
    stop: () => {
        stop();
        go(telling(store.state, { kind: "none", word: "Stopped", meaning: "" }));
    },
    share,
    "pick-route": ({ at }) => go({ ...store.state, route: store.state.route === at ? null : at }),
    leaf: ({ value }) => go({ ...store.state, leaf: Number(value) - 1 }),
    family: ({ value }) => go({ ...store.state, family: Number(value) }),
    rise: () => {
        const { outcome } = store.state;
        const instance = outcome?.made.find(({ slot }) => slot === "instance")?.given ?? givenOf(store.state, "instance");
        store.worker?.postMessage({ instance, scene: outcome?.scene, length: outcome?.report?.length ?? null });
    },
    play,
    step: ({ value }) => {
        clearInterval(store.steps);
        go({ ...atStep(store.state, Number(value)), isPlaying: false });
    },
    "use-potentials": () => {
        const bytes = new TextEncoder().encode(store.state.rising?.ascent.potentials);
        judge({ ...withSlot(store.state, "certificate", [{ name: nameWith("potentials"), bytes }]), by: By.POTENTIALS });
    },
    "save-report": () => save(nameWith("report"), "text/plain", store.state.outcome?.text ?? ""),
    "save-rows": () => save(nameWith("tsv"), "text/tab-separated-values", tableOf(store.state.outcome?.rows ?? [])),
    "save-picture": () => save(nameWith("svg"), "image/svg+xml", fileOfPicture("map")),
    "save-made": ({ at }) => {
        const made = store.state.outcome?.made[at].given;
        made && save(made.name, "text/plain", made.bytes);
    },
};

go(BEGINNING);
listen({ actions: ACTIONS, take, state: () => store.state, go });
addEventListener("hashchange", takeHash);
begin();
takeHash();
