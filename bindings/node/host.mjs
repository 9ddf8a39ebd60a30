// The calls of the system that the program makes, over Node: files, streams, words, variables. All else that the program
// does is its proved code, in a WebAssembly module. ./build makes the command node/tsp.mjs of this file, errno.mjs and
// the module. It imports Node's own modules and errno.mjs.

import { closeSync, fstatSync, openSync, readSync, statSync, writeSync } from "node:fs";
import { isatty } from "node:tty";

import { ERRORS, numberOf, wordsOf } from "./errno.mjs";

/** How long to wait for the other end of a pipe, in milliseconds, between two tries. */
const PAUSE = 5;

/** The exit status where the module stops itself; a system would send its program a signal. */
const STOPPED = 70;

/** Linux's struct statx: its bytes, what it has, and where. */
const STATX = { bytes: 256, basic: 0x7ff, links: 16, mode: 28, inode: 32, size: 40 };

/** @type {{ write: (file: number, bytes: Uint8Array) => number }} so that tests catch what is written */
export const streams = { write: (file, bytes) => writeSync(file, bytes) };

/** The system of one run of the program. */
class Host {
    /** @param {string[]} words the program's name first */
    constructor(words) {
        this.words = words;
        this.errno = 0;
        /** @type {WebAssembly.Memory} */
        this.memory = new WebAssembly.Memory({ initial: 0 });
    }

    /**
     * @param {bigint} address
     * @param {bigint | number} length
     */
    bytes(address, length) {
        return new Uint8Array(this.memory.buffer, Number(address), Number(length));
    }

    /**
     * The text at an address, up to a byte 0.
     *
     * @param {bigint} address
     */
    text(address) {
        const all = new Uint8Array(this.memory.buffer, Number(address));
        return Buffer.from(all.subarray(0, all.indexOf(0))).toString();
    }

    /**
     * Puts a text into a buffer: its length, -1 where there is none, -2 where it doesn't fit.
     *
     * @param {string | undefined} text
     * @param {bigint} address
     * @param {bigint} capacity
     * @returns {bigint}
     */
    put(text, address, capacity) {
        if (text === undefined) {
            return -1n;
        }
        const whole = new TextEncoder().encode(text);
        this.bytes(address, capacity).set(whole.subarray(0, Number(capacity)));
        return whole.length <= Number(capacity) ? BigInt(whole.length) : -2n;
    }

    /**
     * A call of the system: its answer, or -1 with the number of its error.
     *
     * @param {() => number} call
     * @returns {number}
     */
    asked(call) {
        for (;;) {
            try {
                return call();
            } catch (error) {
                const { code } = /** @type {{ code?: string }} */ (error);
                if (code === undefined) {
                    throw error;
                }
                if (code !== "EAGAIN") {
                    this.errno = numberOf(code);
                    return -1;
                }
                Atomics.wait(new Int32Array(new SharedArrayBuffer(4)), 0, 0, PAUSE);
            }
        }
    }

    /**
     * Reads from a file: how many bytes, 0 at its end.
     *
     * @param {number} file
     * @param {Uint8Array} bytes
     * @returns {number}
     */
    read(file, bytes) {
        try {
            return readSync(file, bytes);
        } catch (error) {
            // (the end of a pipe on Windows)
            if (/** @type {{ code?: string }} */ (error).code === "EOF") {
                return 0;
            }
            throw error;
        }
    }

    /**
     * Finds the kind and the length of an open file, or of the file at a path.
     *
     * @param {number} file
     * @param {string} path
     * @param {bigint} found
     * @returns {number}
     */
    statx(file, path, found) {
        const { mode, size, ino, nlink } = path === "" ? fstatSync(file) : statSync(path);
        this.bytes(found, STATX.bytes).fill(0);
        const view = new DataView(this.memory.buffer, Number(found), STATX.bytes);
        view.setUint32(0, STATX.basic, true);
        view.setUint32(STATX.links, nlink, true);
        view.setUint16(STATX.mode, mode, true);
        view.setBigUint64(STATX.inode, BigInt(ino), true);
        view.setBigUint64(STATX.size, BigInt(size), true);
        return 0;
    }

    /** The calls that the module imports, by their names on Linux and in the toolchain's library. */
    calls() {
        return {
            // (Node ignores SIGPIPE already)
            __sysv_signal: () => 0n,
            /** @param {number} file */
            isatty: (file) => Number(isatty(file)),
            /** @param {bigint} path */
            open: (path) => this.asked(() => openSync(this.text(path), "r")),
            /** @param {number} file */
            close: (file) => this.asked(() => (file > 2 && closeSync(file), 0)),
            fcntl: () => this.asked(() => { throw { code: "EINVAL" }; }),
            /** @param {number} file @param {bigint} address @param {bigint} capacity */
            read: (file, address, capacity) => BigInt(this.asked(() => this.read(file, this.bytes(address, capacity)))),
            /** @param {number} file @param {bigint} address @param {bigint} length */
            write: (file, address, length) => BigInt(this.asked(() => streams.write(file, this.bytes(address, length)))),
            /** @param {number} file @param {bigint} path @param {number} flags @param {number} mask @param {bigint} found */
            statx: (file, path, flags, mask, found) => this.asked(() => this.statx(file, this.text(path), found)),
            /** @param {number} number @param {bigint} address @param {bigint} capacity */
            __xpg_strerror_r: (number, address, capacity) =>
                this.put(`${wordsOf(number)}\0`, address, capacity) < 0n ? ERRORS.ERANGE[0] : 0,
            /** @param {bigint} at @param {bigint} address @param {bigint} capacity */
            rattle_arg: (at, address, capacity) => this.put(this.words[Number(at)], address, capacity),
            /** @param {bigint} name @param {bigint} address @param {bigint} capacity */
            rattle_env: (name, address, capacity) => this.put(process.env[this.text(name)], address, capacity),
            /** @param {bigint} at @param {bigint} address @param {bigint} capacity */
            rattle_env_at: (at, address, capacity) =>
                this.put(Object.entries(process.env)[Number(at)]?.join("="), address, capacity),
            rattle_errno: () => this.errno,
            /** @param {number} error */
            rattle_set_errno: (error) => {
                this.errno = error;
            },
        };
    }
}

/**
 * Runs the program to its end.
 *
 * @param {WebAssembly.Module} module
 * @param {string[]} words the program's name first
 * @returns {number} its exit status
 */
export function run(module, words) {
    const host = new Host(words);
    const { exports } = new WebAssembly.Instance(module, { env: host.calls() });
    host.memory = /** @type {WebAssembly.Memory} */ (exports.memory);
    try {
        return /** @type {() => number} */ (exports.tsp_main)();
    } catch (error) {
        if (error instanceof WebAssembly.RuntimeError || error instanceof RangeError) {
            process.stderr.write(`tsp: the program stopped itself (${error.message}); please report this\n`);
            return STOPPED;
        }
        throw error;
    }
}
