/* Streams as they are on Windows too: the tests in C write lines that end in one byte.
 * bindings/c/test links it to each of them for Windows. */
#include <fcntl.h>
#include <io.h>

__attribute__((constructor)) static void binary(void) {
    for (int stream = 0; stream <= 2; stream++)
        _setmode(stream, _O_BINARY);
}
