// The errors that the calls of the package for Node throw. Imported by yokecairn.mjs, comparison.mjs and
// ../node/many.mjs.

/** All that the calls throw, but a TypeError or RangeError of an argument and what a file's reading throws. */
export class YokecairnError extends Error {
    get name() {
        return this.constructor.name;
    }
}

/** The module's memory of at most 4 GiB isn't enough. */
export class OutOfMemory extends YokecairnError {}

/** A node that the instance doesn't have. */
export class NodeError extends YokecairnError {}

const LINE = /^(?:file (\d+): )?(?:line (\d+) word (\d+): )?(?:end: |relayout: )?(.*)$/;

/** @type {Record<string, string>} Faults that are told in words. */
const NAMES = { "too long": "TooLong", "wrong kind": "WrongKind" };

/** A text is no file, or none that the call can use. */
export class Fault extends YokecairnError {
    /**
     * @param {string} told the line that the program prints
     * @param {string} explanation
     * @param {string} path of the text; empty where it has none
     */
    constructor(told, explanation, path) {
        super((path && `${path}: `) + told + (explanation && `\n${explanation}`));
        const [, file, line, word, rest] = LINE.exec(told) ?? [];
        const [name, ...details] = NAMES[rest] ? [NAMES[rest]] : rest.split(" ");
        /** @param {string | undefined} digits */
        const number = (digits) => (digits === undefined ? null : Number(digits));
        this.told = told;
        this.file = number(file);
        this.line = number(line);
        this.word = number(word);
        this.fault = name;
        this.details = details.map((it) => (/^\d+$/.test(it) ? Number(it) : it));
        this.explanation = explanation;
        this.path = path;
    }
}

/** A solution that has no known form, or breaks the rules of its form. */
export class SolutionError extends Fault {}
