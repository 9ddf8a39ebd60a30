/* What the calls do by which the program and the library ask for memory, words, variables and the last error, seen from
 * outside. The toolchain's own calls and those of bindings/systems have to print the same lines.
 *
 * It is run as: observed word long-word "", with the variable FOO=bar. tests/systems/systems compiles it over each, and
 * has the lines that it wants: after a change run `tests/systems/systems calls`. */
#include <stdint.h>
#include <stdio.h>
#include <string.h>

#ifdef _WIN32
#define CALL(name) host_##name
#else
#define CALL(name) name
#endif
/* A pair is returned in two registers, which C does on Linux alone: elsewhere the calls for memory aren't looked at. */
#ifdef __linux__
typedef struct {
    uint64_t found, address;
} pair;
pair rattle_alloc(uint64_t bytes, uint64_t align);
pair rattle_realloc(void *place, uint64_t had, uint64_t bytes, uint64_t align);
void rattle_dealloc(void *place);
#endif
int64_t CALL(rattle_arg)(uint64_t at, char *buffer, uint64_t capacity);
int64_t CALL(rattle_env)(const char *name, char *buffer, uint64_t capacity);
int64_t CALL(rattle_env_at)(uint64_t at, char *buffer, uint64_t capacity);
int CALL(rattle_errno)(void);
void CALL(rattle_set_errno)(int error);

enum { BYTES = 8, HUGE_BITS = 62 };
static char buffer[BYTES + 1];

/* A buffer whose bytes show what is written. */
static char *fresh(void) {
    memset(buffer, '#', BYTES);
    buffer[BYTES] = 0;
    return buffer;
}

static void tell(const char *what, int64_t found) {
    printf("%s: %d %s\n", what, (int)found, buffer);
}

/* Whether a variable is among all, by its text. */
static int is_among(const char *text) {
    char whole[4096];
    for (uint64_t at = 0;; at++) {
        int64_t length = CALL(rattle_env_at)(at, whole, sizeof whole);
        if (length == -1)
            return 0;
        if (length == (int64_t)strlen(text) && !memcmp(whole, text, strlen(text)))
            return 1;
    }
}

static void memory(void) {
#ifdef __linux__
    pair one = rattle_alloc(0, 1), other = rattle_alloc(0, 1);
    printf("no bytes: %d %d, each its own: %d\n", (int)one.found, (int)other.found, one.address != other.address);
    pair grown = rattle_realloc((void *)other.address, 0, 10, 1);
    printf("from no bytes: %d\n", (int)grown.found);
    memcpy((void *)grown.address, "abcdefghi", 10);
    printf("too much: %d\n", (int)rattle_alloc(1ull << HUGE_BITS, 1).found);
    printf("grown too much: %d, and the bytes stay: %s\n",
           (int)rattle_realloc((void *)grown.address, 10, 1ull << HUGE_BITS, 1).found, (char *)grown.address);
    grown = rattle_realloc((void *)grown.address, 10, 100000, 1);
    printf("grown: %d %s, aligned: %d\n", (int)grown.found, (char *)grown.address, grown.address % 16 == 0);
    grown = rattle_realloc((void *)grown.address, 100000, 0, 1);
    printf("to no bytes: %d %d\n", (int)grown.found, grown.address != 0);
    rattle_dealloc((void *)grown.address);
    rattle_dealloc((void *)one.address);
#endif
}

static int observe(void) {
    memory();
    for (uint64_t at = 1; at < 5; at++)
        tell("word", CALL(rattle_arg)(at, fresh(), BYTES));
    for (uint64_t capacity = 3; capacity < 6; capacity++)
        tell("word into", CALL(rattle_arg)(1, fresh(), capacity));
    for (uint64_t capacity = 2; capacity < 5; capacity++)
        tell("variable into", CALL(rattle_env)("FOO", fresh(), capacity));
    tell("no variable", CALL(rattle_env)("NO_SUCH_VARIABLE", fresh(), BYTES));
    printf("among all: %d %d\n", is_among("FOO=bar"), is_among("FOO=ba"));
    for (int number = 1; number < 41; number += 35) {
        CALL(rattle_set_errno)(number);
        printf("error %d: %d\n", number, CALL(rattle_errno)());
    }
    return 0;
}

#ifdef OURS
int tsp_main(void) {
    return observe();
}
#else
int main(void) {
    return observe();
}
#endif
