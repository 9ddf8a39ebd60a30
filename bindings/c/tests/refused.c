/* refused INSTANCE TOUR CERTIFICATE BY: each request for memory of each call is refused in turn. The status is
 * then that of out of memory, or the one of the call without a refusal, with the same text or numbers; and all
 * that was taken is freed. Prints a line for each call, and exits with 1 where one fails.
 * bindings/c/test builds and runs it, in the suite `bindings` of ./check. */
#define _GNU_SOURCE
#include "../tsp.h"
#include "files.h"

#include <dlfcn.h>
#include <string.h>

static long refuse_at = -1; /* which request is refused; -1 is none */
static long requests;       /* how many there were */
static long held;           /* how many blocks are held */
static int counts;          /* whether requests are counted */

static int is_refused(void) {
    return counts && requests++ == refuse_at;
}

void *malloc(size_t size) {
    static void *(*real)(size_t);
    if (real == NULL)
        real = (void *(*)(size_t))dlsym(RTLD_NEXT, "malloc");
    if (is_refused())
        return NULL;
    void *block = real(size);
    held += counts && block != NULL;
    return block;
}

void *realloc(void *old, size_t size) {
    static void *(*real)(void *, size_t);
    if (real == NULL)
        real = (void *(*)(void *, size_t))dlsym(RTLD_NEXT, "realloc");
    if (is_refused())
        return NULL;
    void *block = real(old, size);
    held += counts && old == NULL && block != NULL;
    return block;
}

void free(void *block) {
    static void (*real)(void *);
    if (real == NULL)
        real = (void (*)(void *))dlsym(RTLD_NEXT, "free");
    held -= counts && block != NULL;
    real(block);
}

static struct text texts[3];
static uint32_t by;
static uint8_t out[1 << 20];
static int64_t *const numbers = (int64_t *)out;
static size_t written;

/* A handle that is opened, bound, asked and closed; the first status that isn't TSP_YES. */
static uint32_t handle(void) {
    struct tsp_instance held = {0};
    struct tsp_result result;
    uint32_t status = tsp_open(texts[0].bytes, texts[0].len, &held, &result);
    if (status == TSP_YES)
        status = tsp_bind(&held, texts[2].bytes, texts[2].len, by, &result);
    if (status == TSP_YES)
        status = tsp_instance_check(&held, texts[1].bytes, texts[1].len, 0, 0, &result, out, sizeof out, &written);
    tsp_close(&held);
    return status;
}

static uint32_t call(int which) {
    static const uint32_t pairs[] = {1, 2, 2, 1};
    static const uint32_t lists[] = {1, 2, 3, 0};
    size_t places = sizeof out / sizeof(int64_t);
    switch (which) {
    case 0:
        return tsp_check(texts[0].bytes, texts[0].len, texts[1].bytes, texts[1].len, texts[2].bytes, texts[2].len, by,
                         0, 0, out, sizeof out, &written);
    case 1:
        return tsp_show(texts[0].bytes, texts[0].len, out, sizeof out, &written);
    case 2:
        return tsp_convert(texts[0].bytes, texts[0].len, 0, out, sizeof out, &written);
    case 3:
        return tsp_count(texts[0].bytes, texts[0].len, (uint32_t *)out);
    case 4:
        return tsp_points(texts[0].bytes, texts[0].len, 1, numbers, places);
    case 5:
        return tsp_weights(texts[0].bytes, texts[0].len, pairs, 4, numbers, places);
    case 6:
        return tsp_matrix(texts[0].bytes, texts[0].len, 1, numbers, places);
    case 7:
        return tsp_lengths(texts[0].bytes, texts[0].len, lists, 4, numbers, places);
    case 8: /* a no: the solution is the instance */
        return tsp_check(texts[0].bytes, texts[0].len, texts[0].bytes, texts[0].len, texts[2].bytes, texts[2].len, 0,
                         0, 0, out, sizeof out, &written);
    case 9: /* a length that is claimed, and isn't that of the solution */
        return tsp_check(texts[0].bytes, texts[0].len, texts[1].bytes, texts[1].len, texts[2].bytes, texts[2].len, by,
                         -1, 1, out, sizeof out, &written);
    case 10:
        return tsp_bound(texts[0].bytes, texts[0].len, texts[2].bytes, texts[2].len, by, out, sizeof out, &written);
    case 11: /* why that length is refused */
        return tsp_explain(TSP_OF_CHECK, texts[0].bytes, texts[0].len, texts[1].bytes, texts[1].len, texts[2].bytes,
                           texts[2].len, (const uint8_t *)"a", 1, by, -1, 1, out, sizeof out, &written);
    case 12:
        return handle();
    case 13:
        return tsp_solution(texts[1].bytes, texts[1].len, texts[0].bytes, texts[0].len, 0, 0, 0, out, sizeof out, &written);
    default: /* a fault: the instance is a certificate */
        return tsp_check(texts[2].bytes, texts[2].len, texts[1].bytes, texts[1].len, texts[2].bytes, texts[2].len, 0,
                         0, 0, out, sizeof out, &written);
    }
}

int main(int count, char **words) {
    if (count != 5)
        return 4;
    for (int k = 0; k < 3; k++)
        texts[k] = read_file(words[1 + k]);
    by = (uint32_t)atoi(words[4]);
    static uint8_t expected[sizeof out];
    int failed = 0;
    for (int which = 0; which < 15; which++) {
        memset(out, 0, sizeof out);
        written = 0;
        uint32_t right = call(which);
        size_t right_written = written;
        memcpy(expected, out, sizeof out);
        long refusals = 0, as_ever = 0, bad = 0;
        for (refuse_at = 0;; refuse_at++) {
            memset(out, 0, sizeof out);
            written = 0;
            requests = 0;
            held = 0;
            counts = 1;
            uint32_t status = call(which);
            counts = 0;
            int was_refused = requests > refuse_at;
            if (held != 0)
                bad++;
            if (status == right && written == right_written && memcmp(out, expected, sizeof out) == 0)
                as_ever++;
            else if (status == TSP_OUT_OF_MEMORY && was_refused)
                refusals++;
            else
                bad++;
            if (!was_refused)
                break;
        }
        printf("call %d: status %u; refused %ld times, as ever %ld times, wrong %ld times\n", which, right, refusals, as_ever, bad);
        failed += bad != 0 || refusals == 0;
    }
    refuse_at = -1;
    return failed != 0;
}
