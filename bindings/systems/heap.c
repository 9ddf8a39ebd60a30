/* The heap of the proved code, over malloc. A block of no bytes has one byte, so that each block has an address.
 * bindings/systems/build compiles it, and tests/systems/systems tests what that makes. */
#include <stdint.h>
#include <stdlib.h>

/* Memory for so many bytes, aligned to 16; null where there is none. */
void *heap_take(uint64_t bytes) {
    return malloc(bytes ? bytes : 1);
}

/* A block of another size with the same bytes, as far as both have them; null where there is no memory, and then the
 * block is as it was. */
void *heap_resize(void *place, uint64_t bytes) {
    return realloc(place, bytes ? bytes : 1);
}

/* Gives a block back. */
void heap_free(void *place) {
    free(place);
}
