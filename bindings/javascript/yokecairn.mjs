// The calls of the package for Node, as ../node/index.d.mts declares them. ../node/index.mjs and ../node/browser.mjs export
// them, and give them the module of the library and the reading of files.

export { bound, check, convert, readSolution, show, version } from "./calls.mjs";
export { compare } from "./compare.mjs";
export { Comparison } from "./comparison.mjs";
export { Fault, NodeError, OutOfMemory, SolutionError, YokecairnError } from "./errors.mjs";
export { Problem } from "./problem.mjs";
export { Report } from "./reporting.mjs";
