// The numbers by which the calls of libtsp are asked and answer, as in bindings/c/tsp.h. It imports nothing.

/** How a call ends. */
export const Status = Object.freeze({ YES: 0, NO: 1, FAULT: 2, OUT_OF_MEMORY: 3, REFUSED: 4, TOO_SMALL: 6 });

/** How a check or a bound gets its bound. */
export const By = Object.freeze({ NOTHING: 0, POTENTIALS: 1, BRANCHES: 2 });

/** The sections of points. */
export const Section = Object.freeze({ COORDS: 1, DISPLAY: 2 });

/** The calls that can be explained. */
export const Call = Object.freeze({ SHOW: 0, CONVERT: 1, CHECK: 2, BOUND: 3 });

/** What a call finds. */
export const Verdict = Object.freeze({ TOUR: 1, ROUTES: 2, REJECTED: 3, BOUND: 4, NO_TOUR: 5 });

/** The forms of solutions, from number 1. */
export const FORMS = ["tour", "json", "ortools", "cvrplib", "lkh", "r", "concorde-edges", "concorde", "table", "list"];

/** The layouts of matrices, from number 1. */
export const LAYOUTS = [
    "FULL_MATRIX",
    "UPPER_ROW",
    "LOWER_ROW",
    "UPPER_DIAG_ROW",
    "LOWER_DIAG_ROW",
    "UPPER_COL",
    "LOWER_COL",
    "UPPER_DIAG_COL",
    "LOWER_DIAG_COL",
];
