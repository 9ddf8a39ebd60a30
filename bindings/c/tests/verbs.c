/* The program's verbs over the library, so that tests/program/run-tables and tests/program/solutions can run it: the report or the
 * text goes to standard output, the line of a fault to standard error, and the status is the exit status.
 * bindings/c/test builds it, in the suite `bindings` of ./check. */
#include "../tsp.h"
#include "files.h"

#include <string.h>

static const char *const LAYOUTS[] = {"FULL_MATRIX",    "UPPER_ROW", "LOWER_ROW", "UPPER_DIAG_ROW", "LOWER_DIAG_ROW",
                                      "UPPER_COL",      "LOWER_COL", "UPPER_DIAG_COL", "LOWER_DIAG_COL"};

/* The forms of tsp_solution, in the order of their numbers from 1 on. */
static const char *const FORMS[] = {"tour", "json", "ortools", "cvrplib", "lkh", "r", "concorde-edges", "concorde", "table", "list"};

/* A verb that tsp_explain has no number for. */
enum { OF_SOLUTION = 4 };

struct call {
    uint32_t verb;        /* a number of tsp_explain, or OF_SOLUTION */
    const char *paths[3]; /* the instance, the solution and the certificate, or the solution and its instance; NULL for none */
    uint32_t number;      /* the kind of certificate, or the layout */
    uint32_t form;
    int names_form;
    uint32_t first;
    uint32_t depot;
    int64_t claimed;
    uint32_t flags;
    int explains;
};

static uint32_t verb_of(const char *word) {
    if (strcmp(word, "convert") == 0)
        return TSP_OF_CONVERT;
    if (strcmp(word, "check") == 0)
        return TSP_OF_CHECK;
    if (strcmp(word, "solution") == 0)
        return OF_SOLUTION;
    return strcmp(word, "bound") == 0 ? TSP_OF_BOUND : TSP_OF_SHOW;
}

/* The layout's number; exits where there is none. */
static uint32_t layout_of(const char *word) {
    for (uint32_t k = 0; k < 9; k++)
        if (strcmp(word, LAYOUTS[k]) == 0)
            return k + 1;
    fputs("unknown layout\n", stderr);
    exit(TSP_REFUSED);
}

/* The form's number, 0 if it is to be found; exits where there is none. */
static uint32_t form_of(const char *word) {
    if (strcmp(word, "auto") == 0)
        return TSP_FORM_FOUND;
    for (uint32_t k = 0; k < 10; k++)
        if (strcmp(word, FORMS[k]) == 0)
            return k + 1;
    fputs("unknown form\n", stderr);
    exit(TSP_REFUSED);
}

/* The whole number that a word is, as the reader reads it: "12.0" and "1.2e1" are 12. Exits where it is none. A long double holds
 * each number of 64 bits. */
static int64_t length_of(const char *word) {
    char *end;
    long double number = strtold(word, &end);
    int is_decimal = end != word && *end == 0 && strlen(word) <= 64 && word[strspn(word, "+-.0123456789Ee")] == 0;
    if (!is_decimal || number < -0x1p63L || number >= 0x1p63L || number != (long double)(int64_t)number) {
        fputs("not a length\n", stderr);
        exit(TSP_REFUSED);
    }
    return (int64_t)number;
}

static struct call call_of(int count, char **words) {
    struct call call = {.verb = count > 1 ? verb_of(words[1]) : TSP_OF_SHOW};
    int paths = 0;
    for (int k = 2; k < count; k++) {
        if (strcmp(words[k], "--layout") == 0 && k + 1 < count) {
            call.number = layout_of(words[++k]);
        } else if (strcmp(words[k], "--potentials") == 0 && k + 1 < count) {
            call.paths[2] = words[++k];
            call.number = TSP_BY_POTENTIALS;
        } else if (strcmp(words[k], "--branches") == 0 && k + 1 < count) {
            call.paths[2] = words[++k];
            call.number = TSP_BY_BRANCHES;
        } else if (strncmp(words[k], "--length=", 9) == 0) {
            call.claimed = length_of(words[k] + 9);
            call.flags |= TSP_CLAIMED;
        } else if (strcmp(words[k], "--of") == 0 && k + 1 < count) {
            call.paths[1] = words[++k];
        } else if (strcmp(words[k], "--form") == 0 && k + 1 < count) {
            call.form = form_of(words[++k]);
            call.names_form = 1;
        } else if (strcmp(words[k], "--first") == 0 && k + 1 < count) {
            call.first = words[++k][0] == '0' ? TSP_FIRST_0 : TSP_FIRST_1;
        } else if (strcmp(words[k], "--depot") == 0 && k + 1 < count) {
            call.depot = (uint32_t)strtoul(words[++k], NULL, 10);
        } else if (strcmp(words[k], "--strict") == 0) {
            call.flags |= TSP_STRICT;
        } else if (strcmp(words[k], "--explain") == 0) {
            call.explains = 1;
        } else if (paths < 2) {
            call.paths[paths++] = words[k];
        }
    }
    if (paths == 0)
        call.paths[0] = "-";
    return call;
}

/* A strict bound is 2 more. */
static uint32_t number_of(const struct call *call) {
    return call->number + (call->verb == TSP_OF_BOUND ? (call->flags & TSP_STRICT) : 0);
}

static uint32_t run(const struct call *call, const struct text *texts, uint8_t *out, size_t room, size_t *written) {
    switch (call->verb) {
    case TSP_OF_CHECK:
        return tsp_check(texts[0].bytes, texts[0].len, texts[1].bytes, texts[1].len, texts[2].bytes, texts[2].len,
                         call->number, call->claimed, call->flags, out, room, written);
    case TSP_OF_BOUND:
        return tsp_bound(texts[0].bytes, texts[0].len, texts[2].bytes, texts[2].len, number_of(call), out, room, written);
    case OF_SOLUTION:
        return tsp_solution(texts[0].bytes, texts[0].len, texts[1].bytes, texts[1].len, call->form, call->first,
                            call->depot, out, room, written);
    case TSP_OF_CONVERT:
        return tsp_convert(texts[0].bytes, texts[0].len, call->number, out, room, written);
    default:
        return tsp_show(texts[0].bytes, texts[0].len, out, room, written);
    }
}

static uint32_t explain(const struct call *call, const struct text *texts, uint8_t *out, size_t room, size_t *written) {
    char names[4096];
    int len = 0;
    for (int k = 0; k < 3; k++)
        len += snprintf(names + len, sizeof names / 3, "%s", call->paths[k] == NULL ? "" : call->paths[k]) + 1;
    return tsp_explain(call->verb, texts[0].bytes, texts[0].len, texts[1].bytes, texts[1].len, texts[2].bytes,
                       texts[2].len, (const uint8_t *)names, (size_t)len, number_of(call), call->claimed,
                       call->flags, out, room, written);
}

/* Reads the solution of a check in its form. */
static uint32_t read_form(const struct call *call, const struct text *texts, uint8_t *out, size_t room, size_t *written) {
    return tsp_solution(texts[1].bytes, texts[1].len, texts[0].bytes, texts[0].len, call->form, 0, 0, out, room, written);
}

typedef uint32_t (*caller)(const struct call *, const struct text *, uint8_t *, size_t, size_t *);

/* A call with a buffer of 16 bytes first, so that most rows try a second one too. */
static uint32_t written_by(caller calls, const struct call *call, const struct text *texts, struct text *said) {
    size_t room = 16;
    said->bytes = malloc(room);
    uint32_t status = calls(call, texts, said->bytes, room, &said->len);
    if (status == TSP_TOO_SMALL) {
        room = said->len;
        said->bytes = realloc(said->bytes, room);
        status = calls(call, texts, said->bytes, room, &said->len);
    }
    return status;
}

/* Puts the text that is written for the solution of a check in its place. If there is none, ends with the line of the fault, in
 * which the instance is file 1 and the solution file 2. */
static void take_form(const struct call *call, struct text *texts) {
    struct text said;
    uint32_t status = written_by(read_form, call, texts, &said);
    if (status == TSP_YES) {
        texts[1] = said;
        return;
    }
    if (said.len > 5 && memcmp(said.bytes, "file ", 5) == 0)
        said.bytes[5] = said.bytes[5] == '1' ? '2' : '1';
    fwrite(said.bytes, 1, said.len, stderr);
    exit((int)status);
}

int main(int count, char **words) {
    struct call call = call_of(count, words);
    static uint8_t none[1];
    struct text texts[3];
    for (int k = 0; k < 3; k++)
        texts[k] = call.paths[k] == NULL ? (struct text){none, 0} : read_file(call.paths[k]);
    if (call.verb == TSP_OF_CHECK && call.names_form)
        take_form(&call, texts);
    struct text said, more;
    uint32_t status = written_by(run, &call, texts, &said);
    int is_report = status == TSP_YES || (status == TSP_NO && call.verb != TSP_OF_CONVERT);
    fwrite(said.bytes, 1, said.len, is_report ? stdout : stderr);
    if (call.explains && written_by(explain, &call, texts, &more) == TSP_YES)
        fwrite(more.bytes, 1, more.len, stderr);
    return (int)status;
}
