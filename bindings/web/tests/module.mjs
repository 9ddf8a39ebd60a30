// The WebAssembly module inside a built page, and the library over it. For the tests page.test.mjs and program.mjs.

import { readFileSync } from "node:fs";

import { Library } from "../../javascript/library.mjs";

/**
 * The bytes of the WebAssembly module that a page has inside.
 *
 * @param {string} page its path
 * @returns {Buffer}
 */
export function moduleOf(page) {
    const found = /<script type="text\/plain" id="module">([^<]*)</.exec(readFileSync(page, "utf8"));
    return Buffer.from(found?.[1] ?? "", "base64");
}

/**
 * The library of a page.
 *
 * @param {string} page its path
 * @returns {Promise<Library>}
 */
export async function libraryOf(page) {
    return Library.of(await WebAssembly.compile(moduleOf(page)));
}
