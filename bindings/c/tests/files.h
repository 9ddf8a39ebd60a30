/* Files as texts for refused.c, threads.c and verbs.c: each a pointer that is never NULL, and a length. */
#ifndef FILES_H
#define FILES_H

#include <stdint.h>
#include <stdio.h>
#include <stdlib.h>

struct text {
    uint8_t *bytes;
    size_t len;
};

/* The whole of a file; standard input where the path is "-". */
static struct text read_file(const char *path) {
    FILE *file = path[0] == '-' && path[1] == 0 ? stdin : fopen(path, "rb");
    size_t room = 1 << 16;
    struct text text = {malloc(room), 0};
    if (file == NULL || text.bytes == NULL) {
        perror(path);
        exit(5);
    }
    size_t count;
    while ((count = fread(text.bytes + text.len, 1, room - text.len, file)) > 0) {
        text.len += count;
        if (text.len < room)
            continue;
        room *= 2;
        text.bytes = realloc(text.bytes, room);
        if (text.bytes == NULL)
            exit(3);
    }
    if (file != stdin)
        fclose(file);
    return text;
}

#endif
