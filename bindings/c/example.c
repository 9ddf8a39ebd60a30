/* Judges a tour by libtsp, and prints the report: example INSTANCE TOUR [POTENTIALS]
 * docs/guide.md compiles it, and a release has it. It needs tsp.h and the C library alone.
 *
 * cc -o example example.c $(pkg-config --cflags --libs tsp)
 */
#include "tsp.h"

#include <stdio.h>
#include <stdlib.h>

struct text {
    uint8_t *bytes;
    size_t len;
};

/* The whole file at a path. bytes is never NULL, as the library asks. */
static struct text read_file(const char *path) {
    FILE *file = fopen(path, "rb");
    if (file == NULL) {
        perror(path);
        exit(2);
    }
    size_t room = 4096;
    struct text text = {malloc(room), 0};
    while (text.bytes != NULL) {
        text.len += fread(text.bytes + text.len, 1, room - text.len, file);
        if (text.len < room)
            break;
        room *= 2;
        text.bytes = realloc(text.bytes, room);
    }
    if (text.bytes == NULL || ferror(file)) {
        fprintf(stderr, "%s: can't be read\n", path);
        exit(2);
    }
    fclose(file);
    return text;
}

int main(int argc, char **argv) {
    if (argc < 3 || argc > 4) {
        fprintf(stderr, "usage: %s INSTANCE TOUR [POTENTIALS]\n", argv[0]);
        return TSP_REFUSED;
    }
    struct text instance = read_file(argv[1]);
    struct text tour = read_file(argv[2]);
    uint8_t none = 0;
    struct text potentials = {&none, 0};
    uint32_t by = TSP_BY_NONE;
    if (argc == 4) {
        potentials = read_file(argv[3]);
        by = TSP_BY_POTENTIALS;
    }

    /* A report is short, but for a file with many unknown keywords: the second call has the length. */
    size_t room = 4096;
    size_t written = 0;
    uint8_t *report = malloc(room);
    uint32_t status = TSP_OUT_OF_MEMORY;
    while (report != NULL) {
        status = tsp_check(instance.bytes, instance.len, tour.bytes, tour.len, potentials.bytes, potentials.len, by,
                           0, 0, report, room, &written);
        if (status != TSP_TOO_SMALL)
            break;
        room = written;
        free(report);
        report = malloc(room);
    }
    if (report != NULL)
        fwrite(report, 1, written, status <= TSP_NO ? stdout : stderr);

    free(report);
    free(instance.bytes);
    free(tour.bytes);
    if (by != 0)
        free(potentials.bytes);
    return (int)status;
}
