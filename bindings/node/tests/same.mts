// What the package's modules are, by the comments in them, is what index.d.mts declares.
// bindings/node/test compiles it by TypeScript's tsc where it is installed, in the suite `node` of ./check.

import type * as declared from "../index.mjs";
import * as made from "../../javascript/yokecairn.mjs";
import { checkMany } from "../many.mjs";

type Calls = "check" | "bound" | "compare" | "show" | "convert" | "readSolution" | "version" | "checkMany";
const calls: Pick<typeof declared, Calls> = { ...made, checkMany };
const report: (of: InstanceType<typeof made.Report>) => declared.Report = (of) => of;
const problem: (of: made.Problem) => declared.Problem = (of) => of;
const fault: (of: made.Fault) => declared.Fault = (of) => of;
const comparison: (of: made.Comparison) => declared.Comparison = (of) => of;
console.log(calls, report, problem, fault, comparison);
