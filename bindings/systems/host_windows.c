/* What the program asks of the system, for Windows, over the C library of mingw. Inside, paths and words are UTF-8 and
 * errors have Linux's numbers; the system has UTF-16 and numbers of its own. The calls are named host_NAME, since the
 * C library has other ones of these names. bindings/systems/build compiles it, and tests/systems/systems tests what
 * that makes. */
#define WIN32_LEAN_AND_MEAN
#include <errno.h>
#include <fcntl.h>
#include <io.h>
#include <stdint.h>
#include <stdio.h>
#include <stdlib.h>
#include <string.h>
#include <sys/stat.h>
#include <wchar.h>
#include <windows.h>

extern int tsp_main(void);

/* The longest path; the most bytes of one read or write; Linux's numbers of the errors that have others here; the
 * bytes of Linux's struct statx, and where it has what the program reads. */
enum { PATH_UNITS = 4096, MOST = 1 << 30 };
enum { LINUX_ENAMETOOLONG = 36, LINUX_ELOOP = 40 };
enum { STATX_BYTES = 256, STATX_MODE = 28, STATX_SIZE = 40, STATX_BASIC = 0x7ff };

static char **words;
static int count;

/* Puts a text without its last 0 into a buffer: its length, or -2 where it doesn't fit, and then the buffer has its
 * first bytes. */
static int64_t put(const char *text, char *buffer, uint64_t capacity) {
    size_t length = strlen(text);
    memcpy(buffer, text, length <= capacity ? length : capacity);
    return length <= capacity ? (int64_t)length : -2;
}

/* A text in UTF-8; a text that isn't UTF-8 where it has a lone surrogate; null where there is no memory. */
static char *narrow(const wchar_t *wide) {
    int bytes = WideCharToMultiByte(CP_UTF8, WC_ERR_INVALID_CHARS, wide, -1, NULL, 0, NULL, NULL);
    if (bytes == 0)
        return _strdup("\xff");
    char *text = malloc(bytes);
    if (text)
        WideCharToMultiByte(CP_UTF8, 0, wide, -1, text, bytes, NULL, NULL);
    return text;
}

/* Puts a path in UTF-16; 0 and an error where it has no such form, or is too long. */
static int widen(const char *text, wchar_t *wide) {
    int units = MultiByteToWideChar(CP_UTF8, MB_ERR_INVALID_CHARS, text, -1, wide, PATH_UNITS);
    if (!units)
        errno = GetLastError() == ERROR_INSUFFICIENT_BUFFER ? ENAMETOOLONG : ENOENT;
    return units;
}

/* Puts a word of the command line, of which the first has number 0 and is the program's name; -1 where there is none. */
int64_t host_rattle_arg(uint64_t at, char *buffer, uint64_t capacity) {
    return at < (uint64_t)count ? put(words[at], buffer, capacity) : -1;
}

/* Puts the value of a variable; -1 where there is none. */
int64_t host_rattle_env(const char *name, char *buffer, uint64_t capacity) {
    const char *value = getenv(name);
    return value ? put(value, buffer, capacity) : -1;
}

/* Puts a variable with its value, as NAME=VALUE, by its number from 0; -1 where there is none. */
int64_t host_rattle_env_at(uint64_t at, char *buffer, uint64_t capacity) {
    for (uint64_t before = 0; _environ && _environ[before]; before++)
        if (before == at)
            return put(_environ[at], buffer, capacity);
    return -1;
}

/* Linux's number of the last error. (Those up to 34 are the same.) */
int host_rattle_errno(void) {
    return errno == ENAMETOOLONG ? LINUX_ENAMETOOLONG : errno == ELOOP ? LINUX_ELOOP : errno;
}

/* Sets the last error by Linux's number. */
void host_rattle_set_errno(int error) {
    errno = error == LINUX_ENAMETOOLONG ? ENAMETOOLONG : error == LINUX_ELOOP ? ELOOP : error;
}

/* Opens a file for reading, which is all that the program opens for; -1 where it can't. */
int host_open(const char *path, int flags, ...) {
    wchar_t wide[PATH_UNITS];
    (void)flags;
    if (!widen(path, wide))
        return -1;
    int file = _wopen(wide, _O_RDONLY | _O_BINARY | _O_NOINHERIT);
    DWORD kind = file < 0 ? GetFileAttributesW(wide) : INVALID_FILE_ATTRIBUTES;
    if (kind != INVALID_FILE_ATTRIBUTES && kind & FILE_ATTRIBUTE_DIRECTORY)
        errno = EISDIR; /* (Windows says that it isn't allowed) */
    return file;
}

/* A second number of an open file, above those of the standard streams, which is all that the program asks for. */
int host_fcntl(int file, int command, ...) {
    int copies[3], held = 0, copy = _dup(file);
    (void)command;
    while (copy >= 0 && copy <= 2 && held < 3) {
        copies[held++] = copy;
        copy = _dup(file);
    }
    while (held > 0)
        _close(copies[--held]);
    return copy;
}

/* Closes a file. */
int host_close(int file) {
    return _close(file);
}

/* Whether a file is a terminal. (_isatty also takes the device NUL for one.) */
int host_isatty(int file) {
    DWORD mode;
    return GetConsoleMode((HANDLE)_get_osfhandle(file), &mode) != 0;
}

/* Reads at most so many bytes: how many, 0 at the end, -1 where it fails. */
int64_t host_read(int file, char *buffer, uint64_t capacity) {
    return _read(file, buffer, capacity < MOST ? (unsigned)capacity : MOST);
}

/* Writes at most so many bytes: how many, or -1 where it fails. */
int64_t host_write(int file, const char *buffer, uint64_t length) {
    return _write(file, buffer, length < MOST ? (unsigned)length : MOST);
}

/* Puts the text of an error, with its last 0: 0, or the number of an error where it doesn't fit. */
int host___xpg_strerror_r(int error, char *buffer, uint64_t capacity) {
    const char *text = strerror(error == LINUX_ENAMETOOLONG ? ENAMETOOLONG : error == LINUX_ELOOP ? ELOOP : error);
    if (strlen(text) >= capacity)
        return ERANGE;
    strcpy(buffer, text);
    return 0;
}

/* Ignores or restores a signal; Windows has none of those that the program knows. */
int64_t host___sysv_signal(int number, int64_t handler) {
    (void)number, (void)handler;
    return 0;
}

/* Finds the kind and the length of an open file, or of the file at a path; -1 where it can't. */
int host_statx(int file, const char *path, int flags, unsigned mask, unsigned char *found) {
    struct _stat64 told;
    wchar_t wide[PATH_UNITS];
    (void)flags, (void)mask;
    if (*path ? !widen(path, wide) || _wstat64(wide, &told) : _fstat64(file, &told))
        return -1;
    uint32_t has = STATX_BASIC;
    uint16_t mode = told.st_mode;
    uint64_t size = told.st_size;
    memset(found, 0, STATX_BYTES);
    memcpy(found, &has, sizeof has);
    memcpy(found + STATX_MODE, &mode, sizeof mode);
    memcpy(found + STATX_SIZE, &size, sizeof size);
    return 0;
}

/* Runs the program, which returns its exit status. */
int wmain(int given, wchar_t **texts) {
    for (int stream = 0; stream <= 2; stream++)
        _setmode(stream, _O_BINARY);
    words = calloc(given ? given : 1, sizeof *words);
    for (; words && count < given; count++)
        if (!(words[count] = narrow(texts[count])))
            break;
    if (!words || count < given) {
        fputs("tsp: out of memory\n", stderr);
        return 3;
    }
    return tsp_main();
}
