/* The checks that buffers.c and handles.c count, what their calls write, and the texts that both share. */
#ifndef EXPECT_H
#define EXPECT_H

#include "../tsp.h"

#include <stdio.h>
#include <string.h>

static int failed = 0;
static int passed = 0;

/* Counts a test, and prints a line where it fails. */
static void expect(int holds, const char *what) {
    if (holds) {
        passed++;
        return;
    }
    failed++;
    printf("failed: %s\n", what);
}

/* Prints the counts; the exit status. */
static int counts(void) {
    printf("%d passed, %d failed\n", passed, failed);
    return failed != 0;
}

static uint8_t out[512];
static size_t written;

/* Whether a call wrote this text. */
static int says(const char *text) {
    return written == strlen(text) && memcmp(out, text, written) == 0;
}

/* A text of the program, as the calls take it. */
#define TEXT(text) (const uint8_t *)(text), sizeof(text) - 1

static const char SQUARE[] = "TYPE : TSP\nDIMENSION : 4\nEDGE_WEIGHT_TYPE : EUC_2D\nNODE_COORD_SECTION\n"
                             "1 0 0\n2 3 0\n3 3 4\n4 0 4.5\nEOF\n";
static const char TOUR[] = "TYPE : TOUR\nTOUR_SECTION\n1 2 3 4 -1\nEOF\n";
static const char TWICE[] = "TYPE : TOUR\nTOUR_SECTION\n1 2 2 4 -1\nEOF\n";
static const char ZEROS[] = "TYPE : POTENTIALS\nDIMENSION : 4\nNODE_POTENTIAL_SECTION\n1 0\n2 0\n3 0\n4 0\nEOF\n";
static const char LIMITED[] = "TYPE : TSP\nDISTANCE : 9\nDIMENSION : 4\nEDGE_WEIGHT_TYPE : EUC_2D\n"
                              "NODE_COORD_SECTION\n1 0 0\n2 3 0\n3 3 4\n4 0 4\nEOF\n";
static const char AROUND[] = "TYPE : TOUR\nTOUR_SECTION\n1 2 3 4 -1\nEOF\n";

#endif
