// The words of the program's command line, as tests read them: program.mjs here, and ../../node/tests/by-calls.mjs.

/**
 * The options and paths of a command line: `--name value`, or `--name=value`.
 *
 * @param {string[]} words
 * @returns {{ options: Map<string, string>, paths: string[] }}
 */
export function sorted(words) {
    const options = new Map();
    const paths = [];
    for (let at = 0; at < words.length; at++) {
        const [, name, value] = /^--([a-z]+)(?:=(.*))?$/s.exec(words[at]) ?? [];
        if (!name) {
            paths.push(words[at]);
        } else if (value !== undefined || ["explain", "strict"].includes(name)) {
            options.set(name, value ?? "");
        } else {
            options.set(name, words[++at]);
        }
    }
    return { options, paths };
}

/**
 * The whole number of 64 bits that a word means; null where it means none.
 *
 * @param {string} word
 * @returns {bigint | null}
 */
export function lengthOf(word) {
    const [, sign, whole, part = "", power = "0"] = /^([+-]?)(\d*)(?:\.(\d*))?(?:[eE]([+-]?\d+))?$/.exec(word) ?? [];
    if (sign === undefined || whole + part === "" || word.length > 64) {
        return null;
    }
    const digits = (whole + part).replace(/^0+/, "");
    const zeros = Number(power) - part.length;
    if (digits === "") {
        return 0n;
    }
    if (zeros > 30 || zeros < -64 || !/^0*$/.test(digits.slice(zeros < 0 ? zeros : digits.length))) {
        return null;
    }
    const size = zeros < 0 ? BigInt(digits.slice(0, zeros) || "0") : BigInt(digits) * 10n ** BigInt(zeros);
    const number = sign === "-" ? -size : size;
    return BigInt.asIntN(64, number) === number ? number : null;
}
