/* The calls of heap.c, the heap of the WebAssembly module. ../../systems/pair.ll calls them for the proved code, and
 * ../memory.mjs for the texts of a call. */
#ifndef HEAP_H
#define HEAP_H

typedef unsigned char u8;
typedef unsigned long u64;

/* Memory for so many bytes, aligned to 16; 0 where there is none. */
__attribute__((export_name("heap_take"))) void *heap_take(u64 bytes);

/* Gives a block back. */
__attribute__((export_name("heap_free"))) void heap_free(void *place);

/* A block of another size with the same bytes, as far as both have them; 0 where there is no memory, and
 * then the block is as it was. */
void *heap_resize(void *place, u64 bytes);

#endif
