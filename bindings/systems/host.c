/* What the program asks of the system beside the C library, for Linux: its words, its variables, and the number of the
 * last error. bindings/systems/build compiles it, and tests/systems/systems tests what that makes. */
#include <errno.h>
#include <stdint.h>
#include <stdlib.h>
#include <string.h>

extern char **environ;
extern int tsp_main(void);

static char **words;
static int count;

/* Puts a text without its last 0 into a buffer: its length, or -2 where it doesn't fit, and then the buffer has its
 * first bytes. */
static int64_t put(const char *text, char *buffer, uint64_t capacity) {
    size_t length = strlen(text);
    memcpy(buffer, text, length <= capacity ? length : capacity);
    return length <= capacity ? (int64_t)length : -2;
}

/* Puts a word of the command line, of which the first has number 0 and is the program's name; -1 where there is none. */
int64_t rattle_arg(uint64_t at, char *buffer, uint64_t capacity) {
    return at < (uint64_t)count ? put(words[at], buffer, capacity) : -1;
}

/* Puts the value of a variable; -1 where there is none. */
int64_t rattle_env(const char *name, char *buffer, uint64_t capacity) {
    const char *value = getenv(name);
    return value ? put(value, buffer, capacity) : -1;
}

/* Puts a variable with its value, as NAME=VALUE, by its number from 0; -1 where there is none. */
int64_t rattle_env_at(uint64_t at, char *buffer, uint64_t capacity) {
    for (uint64_t before = 0; environ && environ[before]; before++)
        if (before == at)
            return put(environ[at], buffer, capacity);
    return -1;
}

/* The number of the last error. */
int rattle_errno(void) {
    return errno;
}

/* Sets the number of the last error. */
void rattle_set_errno(int error) {
    errno = error;
}

/* Runs the program, which returns its exit status. */
int main(int given, char **texts) {
    count = given;
    words = texts;
    return tsp_main();
}
