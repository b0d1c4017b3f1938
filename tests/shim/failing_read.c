// Loaded before the C library: of the reads of the file FAILING_READ, the one with the number FAILING_TURN (from 1) fails with EIO;
// all others succeed.
#define _GNU_SOURCE
#include <dlfcn.h>
#include <errno.h>
#include <stdio.h>
#include <stdlib.h>
#include <string.h>
#include <unistd.h>

// Whether the descriptor is open on the file.
static int is_open_on(int fd, const char *file)
{
    char link[64], path[4096];
    snprintf(link, sizeof link, "/proc/self/fd/%d", fd);
    ssize_t len = readlink(link, path, sizeof path);
    return len == (ssize_t)strlen(file) && memcmp(path, file, len) == 0;
}

ssize_t read(int fd, void *buffer, size_t size)
{
    static int turn;
    const char *file = getenv("FAILING_READ"), *failing = getenv("FAILING_TURN");
    if (file && failing && is_open_on(fd, file) && ++turn == atoi(failing)) {
        errno = EIO;
        return -1;
    }
    ssize_t (*next)(int, void *, size_t) = (ssize_t (*)(int, void *, size_t))dlsym(RTLD_NEXT, "read");
    return next(fd, buffer, size);
}
