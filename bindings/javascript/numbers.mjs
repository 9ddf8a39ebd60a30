// Exact decimals of numbers as JavaScript writes them, in the fewest digits: 0.1 is 0.1. For the coordinates and
// weights of `Problem.fromPoints` and `fromMatrix` in yokecairn.mjs. It imports nothing.

/** @typedef {{ count: bigint, places: number }} Decimal count times 10^-places */

/**
 * The decimal that a number is written as.
 *
 * @param {number | bigint | string} number
 * @param {string} where what it is, for the error
 * @returns {Decimal}
 */
export function decimalOf(number, where) {
    const [, sign, whole, part = "", power = "0"] = /^([+-]?)(\d+)(?:\.(\d*))?(?:e([+-]?\d+))?$/i.exec(String(number)) ?? [];
    if (whole === undefined) {
        throw new TypeError(`${where} is no finite number: ${String(number)}`);
    }
    const places = part.length - Number(power);
    const count = BigInt(`${sign === "-" ? "-" : ""}${whole}${part}`);
    return places < 0 ? { count: count * 10n ** BigInt(-places), places: 0 } : { count, places };
}

/**
 * A decimal rounded to at most so many places, half to even.
 *
 * @param {Decimal} number
 * @param {number} most
 * @returns {Decimal}
 */
export function rounded({ count, places }, most) {
    if (places <= most) {
        return { count, places };
    }
    const unit = 10n ** BigInt(places - most);
    const size = count < 0n ? -count : count;
    const [quotient, rest] = [size / unit, size % unit];
    const isUp = 2n * rest > unit || (2n * rest === unit && quotient % 2n === 1n);
    const whole = isUp ? quotient + 1n : quotient;
    return { count: count < 0n ? -whole : whole, places: most };
}

/**
 * A decimal in digits, without zeros at its end.
 *
 * @param {Decimal} number
 * @returns {string}
 */
export function written({ count, places }) {
    const digits = String(count < 0n ? -count : count).padStart(places + 1, "0");
    const part = digits.slice(digits.length - places).replace(/0+$/, "");
    const whole = digits.slice(0, digits.length - places);
    return `${count < 0n ? "-" : ""}${whole}${places > 0 && part !== "" ? `.${part}` : ""}`;
}
