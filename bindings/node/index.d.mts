// The types of the Node package, for callers in TypeScript; package.json names this file. The calls are in
// ../javascript, with types in their comments; tests/same.mts compares the two.

/** A path or a URL of a file (in Node), a text or its bytes, bytes with a name for messages, or a problem. */
export type Source = string | URL | Uint8Array | { readonly text: string } | { readonly bytes: Uint8Array; readonly path?: string };
/** Also the nodes of one tour, or of several routes. */
export type Solution = Source | readonly number[] | readonly (readonly number[])[] | Uint32Array;
/** A layout of a matrix. */
export type Layout =
    | "FULL_MATRIX"
    | "UPPER_ROW"
    | "LOWER_ROW"
    | "UPPER_DIAG_ROW"
    | "LOWER_DIAG_ROW"
    | "UPPER_COL"
    | "LOWER_COL"
    | "UPPER_DIAG_COL"
    | "LOWER_DIAG_COL";
/** A form of a solution, by its name in `tsp solution --forms`. */
export type Form = "tour" | "json" | "ortools" | "cvrplib" | "lkh" | "r" | "concorde-edges" | "concorde" | "table" | "list";
/** How distances between points are computed. */
export type EdgeWeightType = "EUC_2D" | "CEIL_2D" | "MAN_2D" | "MAX_2D" | "ATT" | "EUC_3D" | "MAN_3D" | "MAX_3D";

/**
 * At most one certificate, whether to explain the report, and whether to reject an instance with an unknown keyword or a
 * field that it doesn't use.
 */
export interface CertificateOptions {
    potentials?: Source;
    branches?: Source;
    explain?: boolean;
    strict?: boolean;
}

/** Also the length that is claimed for the solution. */
export interface CheckOptions extends CertificateOptions {
    length?: bigint | number;
}

/**
 * What is known of a solution: its instance, its form, whether nodes count from 0 (or routes list customers), and its depot, if
 * that isn't the instance's or node 1.
 */
export interface SolutionOptions {
    of?: Source;
    form?: Form;
    first?: 0 | 1;
    depot?: number;
}

/** Also whether solutions may be in the form of another program. */
export interface CompareOptions extends CertificateOptions {
    foreign?: boolean;
}

/** How points become an instance: `scale` multiplies coordinates exactly, `decimals` rounds them, half to even. */
export interface PointsOptions {
    edgeWeightType?: EdgeWeightType;
    scale?: number | bigint;
    decimals?: number;
    name?: string;
    type?: "TSP" | "CVRP";
}

/** How a matrix becomes an instance: `scale` multiplies weights exactly, `rounded` rounds them, half to even. */
export interface MatrixOptions {
    scale?: number | bigint;
    rounded?: boolean;
    name?: string;
    type?: "TSP" | "ATSP";
}

/** What a check or a bound found. A property that doesn't apply is null. */
export class Report {
    private constructor();
    /** Whether the last line is `yes`. */
    readonly yes: boolean;
    readonly type: "TSP" | "ATSP" | "CVRP";
    readonly nodes: number;
    /** The length of the tour, or of all routes. */
    readonly length: bigint | null;
    /** A lower bound on the length of every tour of the instance. */
    readonly bound: bigint | null;
    /** The length minus the bound. */
    readonly gap: bigint | null;
    /** Whether the length equals the bound. */
    readonly optimal: boolean;
    /** Whether the certificate shows that the instance has no tour. */
    readonly noTour: boolean;
    readonly routes: number | null;
    /** The least number of routes that the capacity allows. */
    readonly least: number | null;
    /** The reason for `no`, such as `RepeatedNode`. */
    readonly reason: string | null;
    /** The numbers of the reason: a length is a bigint, all others are numbers. */
    readonly numbers: readonly (number | bigint)[];
    /** The unknown keywords of the instance, which the verdict ignores. */
    readonly notJudged: readonly string[];
    /** The whole report, as the program prints it. */
    readonly text: string;
    /** The explanation that `tsp --explain` prints, if you asked for it. */
    readonly explanation: string;
    /** The gap as a percentage of the bound; null if there is no bound above 0. */
    get gapPercent(): number | null;
    /** By how many percent the length exceeds another one. */
    percentOver(length: bigint | number): number | null;
    /** What JSON.stringify writes: whole numbers from 2^53 on, and below -2^53, are texts. */
    toJSON(): Record<string, unknown>;
}

/**
 * Judges a tour or routes for an instance.
 *
 * @throws {Fault} a text isn't a valid file, or the first file isn't an instance
 */
export function check(instance: Source, solution: Solution, options?: CheckOptions): Report;

/**
 * Computes a bound for an instance from a certificate. In a fault the certificate is file 2.
 *
 * @throws {Fault} a text isn't a valid file, or the first file isn't an instance
 */
export function bound(instance: Source, options: CertificateOptions): Report;

/** What all solutions of an instance have in common, known before any is read. */
export interface Basis {
    readonly type: string;
    readonly nodes: number;
    readonly notJudged: readonly string[];
    readonly least: number | null;
    readonly bound: bigint | null;
    readonly noTour: boolean;
    /** A reason against the instance or the certificate, so that no solution is accepted. */
    readonly reason: string | null;
    readonly numbers: readonly (number | bigint)[];
    /** The field of the reason `NotUsed`, as `CAPACITY`. */
    readonly field: string | null;
}

/** Many solutions of one instance. */
export class Comparison {
    private constructor();
    readonly basis: Basis;
    /** The path of each solution, or its number. */
    readonly names: readonly string[];
    /** A report or an error for each solution; empty if `basis.reason` isn't null. */
    readonly outcomes: readonly (Report | Error)[];
    /** What `tsp compare` prints. */
    toString(): string;
    /** A table, with tabs between the cells. */
    toTSV(): string;
}

/**
 * Judges many solutions of an instance. The instance and its certificate are read once.
 *
 * @throws {Fault} the instance or the certificate isn't a valid file
 */
export function compare(instance: Source, solutions: readonly Solution[], options?: CompareOptions): Comparison;

/** The files of one check. */
export interface Job extends CheckOptions {
    instance: Source;
    solution: Solution;
}

/** The number of workers, and a function that is called after each check, in the order in which they end. */
export interface ManyOptions {
    workers?: number;
    progress?: (done: number, all: number, outcome: Report | Error) => void;
}

/** Checks many solutions at once: a report or an error for each job. */
export function checkMany(jobs: Iterable<Job>, options?: ManyOptions): Promise<(Report | Error)[]>;

/**
 * Another program's solution as a text of TYPE TOUR: what `tsp solution` writes.
 *
 * @throws {SolutionError} the solution has no known form, or breaks the rules of its form
 * @throws {Fault} the instance isn't one
 */
export function readSolution(source: Source, options?: SolutionOptions): Uint8Array;

/**
 * What `tsp show` prints for a file.
 *
 * @throws {Fault} the text isn't a valid file
 */
export function show(file: Source): string;

/**
 * The canonical text of a file, on request in another layout.
 *
 * @throws {Fault} the text isn't a valid file, or its weights can't be written in the layout
 */
export function convert(file: Source, layout?: Layout): Uint8Array;

/** The version of the library. */
export function version(): string;

/** An instance that is read once. `close` frees it; otherwise it is freed some time after you drop it. */
export class Problem {
    /** @throws {Fault} the text isn't an instance */
    constructor(source: Source);
    static load(path: string | URL): Problem;
    static parse(text: string): Problem;
    /** An instance with these points of two or three coordinates. A number is read as its shortest decimal. */
    static fromPoints(points: readonly (readonly (number | bigint | string)[])[], options?: PointsOptions): Problem;
    /** An instance with these whole weights, of TYPE TSP if they are symmetric, otherwise ATSP. The diagonal is 0. */
    static fromMatrix(matrix: readonly (readonly (number | bigint | string)[])[], options?: MatrixOptions): Problem;
    readonly bytes: Uint8Array;
    get nodes(): number;
    /** The cost from a node to another. Nodes count from 1. */
    weight(from: number, to: number): bigint;
    weights(pairs: readonly (readonly [number, number])[]): BigInt64Array;
    /** The costs from node 1 to each node, then the costs from node 2, and so on. */
    matrix(): BigInt64Array;
    /** `count` rows of the matrix, beginning with the row of node `first`. */
    rows(first: number, count: number): BigInt64Array;
    /** The length of a list of nodes, from each to the next and back to the first. */
    length(tour: readonly number[]): bigint;
    traceTours(tours: readonly (readonly number[])[]): BigInt64Array;
    /** The coordinates x, y and z of each node; null if the file has no such section. */
    points(section?: "NODE_COORD_SECTION" | "DISPLAY_DATA_SECTION"): [number, number, number][] | null;
    check(solution: Solution, options?: CheckOptions): Report;
    /** The canonical text, on request in another layout. */
    render(layout?: Layout): string;
    close(): void;
}

/** Everything that the calls throw, except a TypeError or RangeError for an argument, and errors from reading a file. */
export class YokecairnError extends Error {}
export class OutOfMemory extends YokecairnError {}
/** The instance lacks the node, or the problem is closed. */
export class NodeError extends YokecairnError {}
/** A text isn't a valid file, or not a file that the call can use. */
export class Fault extends YokecairnError {
    constructor(told: string, explanation: string, path: string);
    /** The line that the program prints, such as `file 1: line 6 word 1: RepeatedNode`. */
    readonly told: string;
    /** 1 is the instance, 2 the solution, 3 the certificate; for a bound the certificate is 2. */
    readonly file: number | null;
    readonly line: number | null;
    /** The word in its line, counted from 1; 0 for the line as a whole. */
    readonly word: number | null;
    /** Its name, such as `RepeatedNode`. */
    readonly fault: string;
    readonly details: readonly (string | number)[];
    /** The explanation that `tsp --explain` prints. */
    readonly explanation: string;
    /** The path of the text; empty if there is none. */
    readonly path: string;
}
/** Another program's solution has no known form, or breaks the rules of its form. Its file is 1. */
export class SolutionError extends Fault {}
