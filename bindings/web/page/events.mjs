// What a person does to the page: buttons, inputs, files that are chosen or dropped, and the drawing that is zoomed and moved.
// page.mjs says what comes of it.

import { find } from "./dom.mjs";
import { SLOTS } from "./state.mjs";
import { WHOLE, movedBy, zoomByKey, zoomedBy } from "./zoom.mjs";

/**
 * @typedef {import("./roles.mjs").Slot} Slot
 * @typedef {import("./state.mjs").State} State
 *
 * @typedef {object} Page
 * @property {Record<string, (given: { slot: Slot, at: number, value: string }) => void>} actions by their names
 * @property {(files: Iterable<File>, slot: Slot | null) => void} take
 * @property {() => State} state
 * @property {(next: State) => void} go
 */

/** The inputs whose actions are named as they are, and the event of each. */
const INPUTS = { "by-potentials": "change", "by-branches": "change", claims: "change", strict: "change", claimed: "change", best: "change", against: "change", step: "input", leaf: "input", family: "input" };

/** @param {Page} page */
export function listen(page) {
    listenToButtons(page);
    listenToFiles(page);
    listenToMap(page);
    listenToZoom(page);
    const fit = () => {
        const width = find("result").clientWidth;
        width !== page.state().width && page.go({ ...page.state(), width });
    };
    fit();
    new ResizeObserver(fit).observe(find("result"));
}

/** @param {Page} page */
function listenToButtons({ actions, state }) {
    document.addEventListener("click", ({ target }) => {
        const button = target instanceof Element ? /** @type {HTMLElement | null} */ (target.closest("[data-do]")) : null;
        const { do: action = "", slot, at, value = "" } = button?.dataset ?? {};
        actions[action]?.({ slot: /** @type {Slot} */ (slot), at: Number(at), value });
    });
    for (const [id, event] of Object.entries(INPUTS)) {
        const input = /** @type {HTMLInputElement} */ (find(id));
        input.addEventListener(event, () => actions[id]({ slot: "instance", at: 0, value: input.value }));
    }
    document.addEventListener("keydown", ({ key }) => key === "Escape" && state().work && actions.stop({ slot: "instance", at: 0, value: "" }));
    find("files").addEventListener("submit", (event) => event.preventDefault());
}

/**
 * Takes files that are chosen, also the same ones again, or dropped: several ones each to where it belongs.
 *
 * @param {Page} page
 */
function listenToFiles({ take, state, go }) {
    for (const id of [...SLOTS, "all"]) {
        const input = /** @type {HTMLInputElement} */ (find(id));
        input.addEventListener("change", () => {
            take([...(input.files ?? [])], id === "all" ? null : /** @type {Slot} */ (id));
            input.value = "";
        });
    }
    /** @param {Event} event */
    const slotAt = ({ target }) => SLOTS.find((slot) => target instanceof Node && find(`${slot}-slot`).contains(target)) ?? null;
    const hold = (/** @type {State["over"]} */ over) => over !== state().over && go({ ...state(), over });
    document.addEventListener("drop", (event) => {
        event.preventDefault();
        hold(null);
        const files = event.dataTransfer?.files ?? [];
        take(files, files.length > 1 ? null : slotAt(event));
    });
    document.addEventListener("dragover", (event) => {
        event.preventDefault();
        hold(slotAt(event) ?? "page");
    });
    document.addEventListener("dragleave", (event) => event.relatedTarget === null && hold(null));
}

/**
 * Zooms by buttons.
 *
 * @param {Page} page
 */
function listenToZoom({ state, go }) {
    const zoomings = { "zoom-in": () => zoomedBy(state().zoom, 1.5), "zoom-out": () => zoomedBy(state().zoom, 1 / 1.5), "zoom-whole": () => WHOLE };
    for (const [id, zoom] of Object.entries(zoomings)) {
        find(id).addEventListener("click", () => go({ ...state(), zoom: zoom() }));
    }
}

/**
 * Zooms and moves the drawing: by keys where it has the focus, by the wheel with Ctrl, by dragging, and by two fingers.
 *
 * @param {Page} page
 */
function listenToMap({ state, go }) {
    const map = find("map");
    /** @type {Map<number, [number, number]>} where fingers, or the mouse, are, as parts of the window */
    const fingers = new Map();
    /** @param {MouseEvent} event @returns {[number, number]} */
    const placeOf = ({ clientX, clientY }) => {
        const { left, top, width, height } = map.getBoundingClientRect();
        return [(clientX - left) / width, (clientY - top) / height];
    };
    map.addEventListener("keydown", (event) => {
        const zoom = event.ctrlKey || event.metaKey || event.altKey ? undefined : zoomByKey(state().zoom, event.key);
        if (zoom) {
            event.preventDefault();
            go({ ...state(), zoom });
        }
    });
    map.addEventListener(
        "wheel",
        (event) => {
            if (event.ctrlKey || event.metaKey) {
                event.preventDefault();
                go({ ...state(), zoom: zoomedBy(state().zoom, Math.exp(-event.deltaY / 200), placeOf(event)) });
            }
        },
        { passive: false },
    );
    map.addEventListener("dblclick", (event) => go({ ...state(), zoom: zoomedBy(state().zoom, 2, placeOf(event)) }));
    map.addEventListener("pointerdown", (event) => {
        fingers.set(event.pointerId, placeOf(event));
        map.setPointerCapture(event.pointerId);
    });
    for (const end of /** @type {const} */ (["pointerup", "pointercancel"])) {
        map.addEventListener(end, ({ pointerId }) => fingers.delete(pointerId));
    }
    map.addEventListener("pointermove", (event) => {
        const before = fingers.get(event.pointerId);
        if (!before) {
            return;
        }
        const [now, zoom] = [placeOf(event), state().zoom];
        const other = [...fingers].find(([id]) => id !== event.pointerId)?.[1];
        fingers.set(event.pointerId, now);
        const apart = (/** @type {number[]} */ place) => (other ? Math.hypot(place[0] - other[0], place[1] - other[1]) : 1) || 1;
        const next = other ? zoomedBy(zoom, apart(now) / apart(before), other) : movedBy(zoom, before[0] - now[0], before[1] - now[1]);
        go({ ...state(), zoom: next });
    });
}
