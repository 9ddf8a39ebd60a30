// The package for Node, as package.json names it: the calls of ../javascript/yokecairn.mjs, with files that are read by
// their paths, and `checkMany`, which runs checks in workers. ./build writes module.mjs beside it.

import { readFileSync } from "node:fs";

import { system } from "../javascript/sources.mjs";
import { LIBRARY } from "./module.mjs";

/** @type {WebAssembly.Module | undefined} */
let module;

system.read = (path) => new Uint8Array(readFileSync(path));
system.module = () => (module ??= new WebAssembly.Module(Buffer.from(LIBRARY, "base64")));

export * from "../javascript/yokecairn.mjs";
export { checkMany } from "./many.mjs";
