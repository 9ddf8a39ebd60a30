/* threads INSTANCE TOUR CERTIFICATE BY REPORT STACK: eight threads at once, each with a stack of STACK bytes,
 * make the check twenty times, and write the instance anew. Every report has to be the file REPORT.
 * bindings/c/test builds and runs it, in the suite `bindings` of ./check. */
#include "../tsp.h"
#include "files.h"

#include <pthread.h>
#include <string.h>

static struct text instance, tour, certificate, report;
static uint32_t by;

/* Returns NULL where all is well. */
static void *run(void *canonical_room) {
    size_t room = *(size_t *)canonical_room;
    uint8_t *out = malloc(room);
    void *wrong = out == NULL ? canonical_room : NULL;
    for (int k = 0; k < 20 && wrong == NULL; k++) {
        size_t written = 0;
        uint32_t status = tsp_check(instance.bytes, instance.len, tour.bytes, tour.len, certificate.bytes, certificate.len,
                                    by, 0, 0, out, room, &written);
        if (status != TSP_YES || written != report.len || memcmp(out, report.bytes, written) != 0)
            wrong = canonical_room;
    }
    size_t written = 0;
    if (wrong == NULL && tsp_convert(instance.bytes, instance.len, 0, out, room, &written) != TSP_YES)
        wrong = canonical_room;
    free(out);
    return wrong;
}

int main(int count, char **words) {
    if (count != 7)
        return 4;
    instance = read_file(words[1]);
    tour = read_file(words[2]);
    certificate = read_file(words[3]);
    by = (uint32_t)atoi(words[4]);
    report = read_file(words[5]);
    size_t room = 2 * instance.len + 4096;
    pthread_attr_t attributes;
    pthread_attr_init(&attributes);
    if (pthread_attr_setstacksize(&attributes, (size_t)atol(words[6])) != 0)
        return 4;
    pthread_t threads[8];
    int failed = 0;
    for (int k = 0; k < 8; k++)
        if (pthread_create(&threads[k], &attributes, run, &room) != 0)
            return 3;
    for (int k = 0; k < 8; k++) {
        void *wrong;
        pthread_join(threads[k], &wrong);
        failed += wrong != NULL;
    }
    return failed != 0;
}
