/* Loaded before the C library, with LD_PRELOAD: a read that fails as READS says, for boardcheck's test.
 *
 *   READS=interrupted     every other read is interrupted before it moves a byte
 *   READS=error:N         the N-th read, from 1, and all after it fail with an input error */
#define _GNU_SOURCE
#include <dlfcn.h>
#include <errno.h>
#include <stdlib.h>
#include <string.h>
#include <unistd.h>

ssize_t read(int descriptor, void *buffer, size_t count)
{
    static ssize_t (*next)(int, void *, size_t);
    static long reads;
    const char *how = getenv("READS");
    if (next == NULL) {
        *(void **)&next = dlsym(RTLD_NEXT, "read");
    }
    reads++;
    if (strcmp(how, "interrupted") == 0 && reads % 2 == 1) {
        errno = EINTR;
        return -1;
    }
    if (strncmp(how, "error:", 6) == 0 && atol(how + 6) <= reads) {
        errno = EIO;
        return -1;
    }
    return next(descriptor, buffer, count < 500 ? count : 500);
}
