// A program that uses the package, for tsc: its types are those that index.d.mts declares.
// bindings/node/test compiles it by TypeScript's tsc where it is installed, in the suite `node` of ./check.

import { check, checkMany, compare, Fault, Problem, Report, type Job } from "yokecairn";

const report: Report = check("a.tsp", [1, 2, 3], { potentials: "a.potentials", length: 5n });
const gap: bigint | null = report.gap;
const percent: number | null = report.gapPercent;
const problem = Problem.fromPoints([[0, 0], ["0.5", 1n]], { scale: 10, edgeWeightType: "CEIL_2D" });
const weight: bigint = problem.weight(1, 2);
const jobs: Job[] = [{ instance: problem, solution: [[1], [2]], branches: { text: "" } }];
const outcomes: Promise<(Report | Error)[]> = checkMany(jobs, { workers: 2 });
const table: string = compare(problem, ["a.tour", new Uint8Array()], { foreign: true }).toTSV();
try {
    problem.render("UPPER_ROW");
} catch (error) {
    if (error instanceof Fault) {
        const line: number | null = error.line;
        console.log(line);
    }
}
// @ts-expect-error a length isn't a text
check("a.tsp", "a.tour", { length: "5" });
// @ts-expect-error there is no such layout
problem.render("ROWS");
console.log(gap, percent, weight, outcomes, table);
