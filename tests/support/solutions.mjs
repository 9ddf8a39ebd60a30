// The rows of solutions.json and claims.json beside this file, for the tests of the page and of the package for Node.

import { readFileSync } from "node:fs";

/** The rows of a table. */
export const table = (name) => JSON.parse(readFileSync(new URL(`${name}.json`, import.meta.url), "utf8"));

/** An instance with the shape of a row; no text if the row says nothing of it. */
export function instanceOf({ nodes, depot }) {
    if (nodes === undefined) {
        return "";
    }
    const list = (rest) => Array.from({ length: nodes }, (_, at) => `${at + 1} ${rest}\n`).join("");
    const points = `DIMENSION : ${nodes}\nEDGE_WEIGHT_TYPE : EUC_2D\nNODE_COORD_SECTION\n${list("0 0")}`;
    const routes = `CAPACITY : 1\nDEMAND_SECTION\n${list("0")}DEPOT_SECTION\n${depot}\n-1\n`;
    return depot === undefined ? `TYPE : TSP\n${points}EOF\n` : `TYPE : CVRP\n${points}${routes}EOF\n`;
}

/** What the words of a row say: the form, the first number and the depot. */
export function optionsOf({ words = [] }) {
    const value = (name) => (words.includes(name) ? words[words.indexOf(name) + 1] : undefined);
    const number = (name) => (words.includes(name) ? Number(value(name)) : undefined);
    return { form: value("--form"), first: number("--first"), depot: number("--depot") };
}

/** The text that a row has to become. */
export function textOf({ wanted, cost, customers }) {
    if (typeof wanted === "string") {
        return wanted;
    }
    const said = [cost && `Cost ${cost}`, customers && `Customer k of ${customers} is node k + 1`].filter(Boolean);
    return ["TYPE : TOUR", ...said.map((it) => `COMMENT : ${it}`), "TOUR_SECTION", ...wanted.flatMap((tour) => [...tour, -1]), "EOF", ""].join("\n");
}
