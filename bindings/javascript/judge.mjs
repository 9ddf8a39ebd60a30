// `Judge`: reads an instance and its certificate once, and judges many solutions, by a handle of the library. For
// `compare` of yokecairn.mjs, and for several tours on the page (../web/page/run.mjs).

import { By } from "./codes.mjs";

/** Judges solutions of an instance, by a certificate where there is one. */
export class Judge {
    /** @type {import("./handle.mjs").Handle | null} */
    #handle;

    /**
     * @param {import("./library.mjs").Library} library
     * @param {Uint8Array} instance
     * @param {Uint8Array} certificate
     * @param {number} by
     */
    constructor(library, instance, certificate, by) {
        this.library = library;
        this.texts = { instance, certificate, by };
        const handle = library.open(instance);
        /** @type {import("./answers.mjs").Result | null} what the certificate gives */
        this.bound = by === By.NOTHING ? null : handle.bind(certificate, by).result;
        // (a text with a fault has none)
        const isRead = handle.nodes > 0 && this.bound?.verdict !== 0;
        if (!isRead) {
            handle.close();
        }
        this.#handle = isRead ? handle : null;
    }

    /** Whether the instance and the certificate are read. If not, each check says why. */
    get isRead() {
        return this.#handle !== null;
    }

    /**
     * Judges a solution: the answer is that of a check of the three texts.
     *
     * @param {Uint8Array} solution
     * @param {bigint | null} claimed
     * @param {boolean} [strict] whether lines of the instance that aren't judged are a reason
     * @returns {import("./answers.mjs").Judged}
     */
    check(solution, claimed, strict = false) {
        const { instance, certificate, by } = this.texts;
        return this.#handle?.check(solution, claimed, strict) ?? this.library.check(instance, solution, certificate, by, claimed, strict);
    }

    /** Frees what was read. */
    close() {
        this.#handle?.close();
        this.#handle = null;
    }
}
