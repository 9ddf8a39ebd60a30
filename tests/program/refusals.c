/* Comes before the C library of the program that is run with it (LD_PRELOAD), and refuses calls of
 * the program. Which ones, and how, the environment says:
 *
 *   REFUSE_CALL   the calls that are counted: memory, read, or write (to standard output alone);
 *                 open: nothing is refused, and each path that is opened is written to descriptor 9
 *   REFUSE_AT     which of them is refused, counted from 1; none where it is missing
 *   REFUSE_REST   all later ones are refused too, where it is 1
 *   REFUSE_LEAST  the fewest bytes that a request for memory has to be counted
 *   REFUSE_BY     a refused read or write fails with EIO or EINTR, and else answers 0 bytes
 *   REFUSE_BYTES  the most bytes that one of these reads or writes takes; any number where missing
 *
 * At the first refusal the number of reads before it is written to descriptor 9. */
#include <errno.h>
#include <fcntl.h>
#include <stdio.h>
#include <stdlib.h>
#include <string.h>
#include <sys/syscall.h>
#include <unistd.h>

/* The C library's own, by names that nothing comes before. */
void *__libc_malloc(size_t size);
void *__libc_realloc(void *block, size_t size);

static long calls; /* of those that are counted */
static long reads; /* that weren't refused */

static int says(const char *name, const char *word)
{
    const char *value = getenv(name);
    return value != NULL && strcmp(value, word) == 0;
}

static long number(const char *name)
{
    const char *value = getenv(name);
    return value == NULL ? 0 : atol(value);
}

static int is_refused(const char *call)
{
    if (!says("REFUSE_CALL", call))
        return 0;
    long at = number("REFUSE_AT");
    calls++;
    if (calls == at) {
        char mark[24];
        syscall(SYS_write, 9, mark, sprintf(mark, "%ld\n", reads));
    }
    return calls == at || (at > 0 && calls > at && says("REFUSE_REST", "1"));
}

/* Whether a request for so many bytes is refused. */
static int is_refused_memory(size_t size)
{
    return size >= (size_t)number("REFUSE_LEAST") && is_refused("memory");
}

void *malloc(size_t size)
{
    if (!is_refused_memory(size))
        return __libc_malloc(size);
    errno = ENOMEM;
    return NULL;
}

void *realloc(void *block, size_t size)
{
    if (!is_refused_memory(size))
        return __libc_realloc(block, size);
    errno = ENOMEM;
    return NULL;
}

static ssize_t refuse(void)
{
    if (says("REFUSE_BY", "EIO"))
        errno = EIO;
    else if (says("REFUSE_BY", "EINTR"))
        errno = EINTR;
    else
        return 0;
    return -1;
}

/* How many of these bytes a call takes. */
static size_t part(const char *call, size_t size)
{
    size_t most = says("REFUSE_CALL", call) ? (size_t)number("REFUSE_BYTES") : 0;
    return most > 0 && most < size ? most : size;
}

ssize_t read(int file, void *bytes, size_t size)
{
    if (is_refused("read"))
        return refuse();
    reads++;
    return syscall(SYS_read, file, bytes, part("read", size));
}

ssize_t write(int file, const void *bytes, size_t size)
{
    if (file != STDOUT_FILENO)
        return syscall(SYS_write, file, bytes, size);
    if (is_refused("write"))
        return refuse();
    return syscall(SYS_write, file, bytes, part("write", size));
}

/* No mode is passed on: the program makes no file. */
int open(const char *path, int flags, ...)
{
    if (says("REFUSE_CALL", "open")) {
        syscall(SYS_write, 9, path, strlen(path));
        syscall(SYS_write, 9, "\n", 1);
    }
    return syscall(SYS_openat, AT_FDCWD, path, flags);
}

/* The same call by its other name. */
ssize_t __write(int file, const void *bytes, size_t size)
{
    return write(file, bytes, size);
}
