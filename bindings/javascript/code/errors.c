/* The words of a system's error, which the proved code asks for after a failed read. The library reads texts in memory,
 * which don't fail, so nothing calls it there; the program has JavaScript's. scripts/build/wasm.py links it. */

/* Always answers that the buffer is too small (ERANGE). */
int __xpg_strerror_r(int error, char *buffer, unsigned long capacity) {
    (void)error, (void)buffer, (void)capacity;
    return 34;
}
