// Puts what view.mjs answers into the document. What is as it was isn't touched, so that the focus and what is being typed stay.

const SVG = "http://www.w3.org/2000/svg";
const SHAPES = ["svg", "path", "rect", "circle", "text", "g"];

/** @param {string} id */
export const find = (id) => /** @type {HTMLElement} */ (document.getElementById(id));

/** @type {Record<string, string>} what each element was given last, but for pictures */
const given = {};

/** @type {Map<string, import("./shapes.mjs").Shape[][]>} the layers of the pictures */
const drawn = new Map();

/**
 * Shows a view.
 *
 * @param {import("./view.mjs").View} view
 */
export function display(view) {
    for (const [id, { picture, ...part }] of Object.entries(view)) {
        const words = JSON.stringify(part);
        if (given[id] !== words) {
            given[id] = words;
            dress(find(id), part);
        }
        if (picture) {
            draw(id, picture);
        }
    }
}

/**
 * @param {HTMLElement} element
 * @param {Omit<import("./view.mjs").Part, "picture">} part
 */
function dress(element, { hidden, text, kind, attributes = {}, checked, value, items }) {
    if (text !== undefined) {
        element.textContent = text;
    }
    if (kind !== undefined) {
        element.setAttribute("class", kind);
    }
    if (items !== undefined) {
        refill(element, items);
    }
    for (const [name, word] of Object.entries(attributes)) {
        word === null ? element.removeAttribute(name) : element.setAttribute(name, word);
    }
    const input = /** @type {HTMLInputElement} */ (element);
    if (checked !== undefined) {
        input.checked = checked;
    }
    if (value !== undefined && input.value !== value) {
        input.value = value;
    }
    if (hidden !== undefined) {
        element.toggleAttribute("hidden", hidden); // (an element of SVG has no `hidden` of its own)
    }
}

/**
 * Makes the elements inside another one anew; the button that had the focus has it again.
 *
 * @param {HTMLElement} element
 * @param {import("./view.mjs").Item[]} items
 */
function refill(element, items) {
    const focused = element.contains(document.activeElement) ? [...element.querySelectorAll("button")].findIndex((one) => one === document.activeElement) : -1;
    element.replaceChildren(...items.map(elementOf));
    element.querySelectorAll("button")[focused]?.focus();
}

/**
 * @param {import("./view.mjs").Item} item
 * @returns {Element}
 */
function elementOf({ name, attributes = {}, text, items = [] }) {
    const element = SHAPES.includes(name) ? document.createElementNS(SVG, name) : document.createElement(name);
    for (const [word, value] of Object.entries(attributes)) {
        element.setAttribute(word, String(value));
    }
    if (text) {
        element.textContent = text;
    }
    element.append(...items.map(elementOf));
    return element;
}

/**
 * Puts a picture into an element of SVG. A layer that is the same list as before stays.
 *
 * @param {string} id
 * @param {import("./shapes.mjs").Picture} picture
 */
function draw(id, { width, height, box, layers }) {
    const svg = find(id);
    const before = drawn.get(id) ?? [];
    svg.setAttribute("viewBox", box.map((side) => Number(side.toFixed(4))).join(" "));
    svg.setAttribute("width", String(width));
    svg.setAttribute("height", String(height));
    layers.forEach((layer, at) => {
        if (before[at] !== layer) {
            const group = elementOf({ name: "g", items: layer });
            at < svg.children.length ? svg.children[at].replaceWith(group) : svg.append(group);
        }
    });
    drawn.set(id, layers);
}

/**
 * A picture as a file of SVG, with the page's style. Its variables are replaced, since not all programs know them.
 *
 * @param {string} id
 * @returns {string}
 */
export function fileOfPicture(id) {
    const copy = /** @type {Element} */ (find(id).cloneNode(true));
    const style = document.createElementNS(SVG, "style");
    const now = getComputedStyle(document.documentElement);
    const written = document.querySelector("style")?.textContent ?? "";
    style.textContent = written.replace(/var\((--\w+)\)/g, (_, name) => now.getPropertyValue(name).trim());
    copy.setAttribute("xmlns", SVG);
    copy.prepend(style);
    return new XMLSerializer().serializeToString(copy);
}

/**
 * Saves a file where the person wants it.
 *
 * @param {string} name
 * @param {string} type
 * @param {BlobPart} content
 */
export function save(name, type, content) {
    const link = document.createElement("a");
    link.href = URL.createObjectURL(new Blob([content], { type }));
    link.download = name;
    link.click();
    setTimeout(() => URL.revokeObjectURL(link.href), 60_000);
}
