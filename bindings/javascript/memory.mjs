// Blocks of the memory of a WebAssembly module, for what the calls of libtsp are given and write. It imports nothing.

/** @typedef {any} Exports the module's: its memory, the calls of tsp.h, heap_take and heap_free */

/** There is no memory for what a call is given. */
class OutOfMemory extends Error {}

/** Blocks of the module's memory, which are given back together. */
export class Blocks {
    /** @param {Exports} exports */
    constructor(exports) {
        this.exports = exports;
        /** @type {bigint[]} */
        this.addresses = [];
    }

    /**
     * The address of a new block.
     *
     * @param {number} length in bytes
     * @returns {bigint}
     */
    take(length) {
        const address = this.exports.heap_take(BigInt(length));
        if (address === 0n) {
            throw new OutOfMemory();
        }
        this.addresses.push(address);
        return address;
    }

    /**
     * A slice of the module's memory with these bytes: its address and its length.
     *
     * @param {Uint8Array} bytes
     * @returns {[bigint, bigint]}
     */
    put(bytes) {
        return [this.putBytes(bytes), BigInt(bytes.length)];
    }

    /**
     * The address of a block with the bytes of a list.
     *
     * @param {ArrayBufferView} list
     * @returns {bigint}
     */
    putBytes({ buffer, byteOffset, byteLength }) {
        const address = this.take(byteLength);
        new Uint8Array(this.exports.memory.buffer, Number(address), byteLength).set(new Uint8Array(buffer, byteOffset, byteLength));
        return address;
    }

    /** Gives all blocks back. */
    free() {
        for (const address of this.addresses.splice(0)) {
            this.exports.heap_free(address);
        }
    }
}

/**
 * The result of a use of memory that is given back.
 *
 * @template T
 * @param {Exports} exports
 * @param {(blocks: Blocks) => T} use
 * @param {T} [without] the result where there is no memory
 * @returns {T}
 */
export function withBlocks(exports, use, without) {
    const blocks = new Blocks(exports);
    try {
        return use(blocks);
    } catch (error) {
        if (error instanceof OutOfMemory && without !== undefined) {
            return without;
        }
        throw error;
    } finally {
        blocks.free();
    }
}
