// Linux's numbers of errors, which the program knows, and the C library's words for them. For host.mjs. ./build puts both
// into the command node/tsp.mjs.

/** @type {Record<string, [number, string]>} */
export const ERRORS = {
    EPERM: [1, "Operation not permitted"],
    ENOENT: [2, "No such file or directory"],
    EIO: [5, "Input/output error"],
    ENXIO: [6, "No such device or address"],
    EBADF: [9, "Bad file descriptor"],
    EAGAIN: [11, "Resource temporarily unavailable"],
    ENOMEM: [12, "Cannot allocate memory"],
    EACCES: [13, "Permission denied"],
    EBUSY: [16, "Device or resource busy"],
    ENODEV: [19, "No such device"],
    ENOTDIR: [20, "Not a directory"],
    EISDIR: [21, "Is a directory"],
    EINVAL: [22, "Invalid argument"],
    ENFILE: [23, "Too many open files in system"],
    EMFILE: [24, "Too many open files"],
    ENOTTY: [25, "Inappropriate ioctl for device"],
    EFBIG: [27, "File too large"],
    ENOSPC: [28, "No space left on device"],
    ESPIPE: [29, "Illegal seek"],
    EROFS: [30, "Read-only file system"],
    EPIPE: [32, "Broken pipe"],
    ERANGE: [34, "Numerical result out of range"],
    ENAMETOOLONG: [36, "File name too long"],
    ELOOP: [40, "Too many levels of symbolic links"],
    ECONNRESET: [104, "Connection reset by peer"],
};

/**
 * The number of an error of Node.
 *
 * @param {string} code
 * @returns {number}
 */
export function numberOf(code) {
    return (ERRORS[code] ?? ERRORS.EIO)[0];
}

/**
 * The words for a number.
 *
 * @param {number} number
 * @returns {string}
 */
export function wordsOf(number) {
    return Object.values(ERRORS).find(([it]) => it === number)?.[1] ?? `Unknown error ${number}`;
}
