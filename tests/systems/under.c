/* Runs PROGRAM by RUNNER, both known when this is compiled, with the words and streams that this is given, and with at
 * most MEMORY bytes of addresses, where that isn't 0. (A shell would open files of its own, in the place of a stream
 * that is closed.) tests/systems/systems compiles and runs it for each system: run that after a change. */
#include <stdio.h>
#include <sys/resource.h>
#include <unistd.h>

int main(int count, char **words) {
    char *all[4096] = {RUNNER, PROGRAM};
    struct rlimit most = {MEMORY, MEMORY};
    if (count > 4000)
        return 126;
    for (int at = 1; at < count; at++)
        all[at + 1] = words[at];
    if (MEMORY && setrlimit(RLIMIT_AS, &most) != 0)
        return 126;
    execv(RUNNER, all);
    perror(RUNNER);
    return 126;
}
