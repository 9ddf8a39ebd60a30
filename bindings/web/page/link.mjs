// A link to the page that carries small files: they are packed behind its `#`, which no browser sends anywhere. It imports
// nothing, and runs in browsers and in Node.

/** Longer links are refused: programs for mail and chat cut them. */
const MOST_LETTERS = 8000;

/** Files that unpack to more aren't taken. */
const MOST_BYTES = 1 << 20;

const MARK = "#files=";

/** The streams of the browser that pack and unpack. (TypeScript 4 doesn't know them.) */
const { CompressionStream: Packing, DecompressionStream: Unpacking } = /** @type {any} */ (globalThis);

/**
 * @typedef {object} Carried
 * @property {{ name: string, bytes: Uint8Array }[]} files
 * @property {{ by: number, claimed: string, best: string, claims: boolean, strict: boolean }} asked
 */

/**
 * The part of a link from its `#` on; null where it would be too long.
 *
 * @param {Carried} carried
 * @returns {Promise<string | null>}
 */
export async function linkOf({ files, asked }) {
    if (files.reduce((sum, { bytes }) => sum + bytes.length, 0) > MOST_BYTES) {
        return null;
    }
    const texts = files.map(({ name, bytes }) => ({ name, bytes: lettersOf(bytes) }));
    const packed = await through(new Packing("deflate"), new TextEncoder().encode(JSON.stringify({ files: texts, asked })), Infinity);
    const link = MARK + btoa(lettersOf(packed)).replaceAll("+", "-").replaceAll("/", "_").replace(/=+$/, "");
    return link.length > MOST_LETTERS ? null : link;
}

/**
 * What a link carries; null where that isn't whole, or isn't a link of `linkOf`.
 *
 * @param {string} hash
 * @returns {Promise<Carried | null>}
 */
export async function carriedBy(hash) {
    if (!hash.startsWith(MARK)) {
        return null;
    }
    try {
        const packed = bytesOf(atob(hash.slice(MARK.length).replaceAll("-", "+").replaceAll("_", "/")));
        const text = new TextDecoder().decode(await through(new Unpacking("deflate"), packed, 4 * MOST_BYTES));
        const { files, asked } = JSON.parse(text);
        const isWhole = Array.isArray(files) && files.every((one) => typeof one?.name === "string" && typeof one?.bytes === "string");
        if (!isWhole || typeof asked !== "object" || asked === null) {
            return null;
        }
        const { by, claimed, best, claims, strict } = asked;
        const isAsked = [claimed, best].every((it) => typeof it === "string") && [claims, strict].every((it) => typeof it === "boolean");
        const taken = files.map((/** @type {{ name: string, bytes: string }} */ { name, bytes }) => ({ name, bytes: bytesOf(bytes) }));
        return isAsked && typeof by === "number" ? { files: taken, asked: { by, claimed, best, claims, strict } } : null;
    } catch {
        return null;
    }
}

/**
 * Bytes as a text of as many letters, and back.
 *
 * @param {Uint8Array} bytes
 * @returns {string}
 */
function lettersOf(bytes) {
    return Array.from(bytes, (byte) => String.fromCharCode(byte)).join("");
}

/**
 * @param {string} letters
 * @returns {Uint8Array}
 */
function bytesOf(letters) {
    return Uint8Array.from(letters, (letter) => letter.charCodeAt(0));
}

/**
 * What a stream makes of bytes; it throws where that is more than so many.
 *
 * @param {{ readable: ReadableStream<Uint8Array>, writable: WritableStream<Uint8Array> }} stream
 * @param {Uint8Array} bytes
 * @param {number} most
 * @returns {Promise<Uint8Array>}
 */
async function through(stream, bytes, most) {
    const writer = stream.writable.getWriter();
    const written = writer.write(bytes).then(() => writer.close());
    written.catch(() => {}); // (the reader throws the same)
    /** @type {number[]} */
    const made = [];
    const reader = stream.readable.getReader();
    for (let part = await reader.read(); !part.done; part = await reader.read()) {
        if (made.length + part.value.length > most) {
            throw new RangeError("too much");
        }
        for (const byte of part.value) {
            made.push(byte);
        }
    }
    return Uint8Array.from(made);
}
