/* The heap of the WebAssembly module. Blocks have sizes of powers of two, each with its class in its first 16
 * bytes. A block that is freed goes to the list of its class, and a new one is taken from there, or from the
 * end of the memory, which grows. Where it can't grow, a larger free block is halved. Blocks aren't joined again:
 * the page takes a new memory for each job. Each block is aligned to 16 bytes, as the code asks.
 * scripts/build/wasm.py compiles it, for the page and the package for Node; their tests run the rows of tests/program/tables. */
#include "heap.h"

enum { PAGE = 65536, LEAST = 5, CLASSES = 40 };

struct block {
    u64 class;
    u64 unused;
};

extern u8 __heap_base;

static u64 top;                            /* where the unused memory begins; 0 before the first block */
static struct block *free_blocks[CLASSES]; /* the first of each class, which has the address of the next */

static u64 memory_bytes(void) {
    return __builtin_wasm_memory_size(0) * PAGE;
}

/* Memory that was never used; 0 where the host has none. */
static struct block *fresh(u64 bytes) {
    if (top == 0)
        top = ((u64)&__heap_base + 15) & ~(u64)15;
    u64 end = memory_bytes();
    if (end - top < bytes) {
        __builtin_wasm_memory_grow(0, (bytes - (end - top) + PAGE - 1) / PAGE);
        if (memory_bytes() - top < bytes)
            return 0;
    }
    struct block *block = (struct block *)top;
    top += bytes;
    return block;
}

/* The first free block of a class, without which its list goes on; 0 where there is none. */
static struct block *listed(u64 class) {
    struct block *block = free_blocks[class];
    if (block)
        free_blocks[class] = *(struct block **)(block + 1);
    return block;
}

static void list(struct block *block, u64 class) {
    *(struct block **)(block + 1) = free_blocks[class];
    free_blocks[class] = block;
}

/* A part of a larger free block, of which the rest is listed; 0 where there is none. */
static struct block *halved(u64 class) {
    u64 larger = class + 1;
    while (larger < CLASSES && !free_blocks[larger])
        larger++;
    if (larger >= CLASSES)
        return 0;
    struct block *block = listed(larger);
    while (larger > class) {
        larger--;
        list((struct block *)((u8 *)block + ((u64)1 << larger)), larger);
    }
    return block;
}

void *heap_take(u64 bytes) {
    u64 class = LEAST;
    while (class < CLASSES && ((u64)1 << class) - sizeof(struct block) < bytes)
        class++;
    if (class == CLASSES)
        return 0;
    struct block *block = listed(class);
    if (!block)
        block = fresh((u64)1 << class);
    if (!block)
        block = halved(class);
    if (!block)
        return 0;
    block->class = class;
    return block + 1;
}

void heap_free(void *place) {
    struct block *block = (struct block *)place - 1;
    list(block, block->class);
}

void *heap_resize(void *place, u64 bytes) {
    struct block *block = (struct block *)place - 1;
    u64 has = ((u64)1 << block->class) - sizeof(struct block);
    if (bytes <= has)
        return place;
    void *other = heap_take(bytes);
    if (!other)
        return 0;
    __builtin_memcpy(other, place, has);
    heap_free(place);
    return other;
}
