/* read() and write() as a rough device gives them, put before the C library's by LD_PRELOAD. BENCH_SHIM is a list of words:
 *   interrupted   every second call is interrupted before it moves a byte
 *   short         a call moves seven bytes at most
 *   read=N        after N bytes every read fails with EIO
 *   write=N       after N bytes every write fails with EIO */
#define _GNU_SOURCE
#include <dlfcn.h>
#include <errno.h>
#include <stdlib.h>
#include <string.h>
#include <unistd.h>

static int has(const char *word)
{
    const char *words = getenv("BENCH_SHIM");
    return words != NULL && strstr(words, word) != NULL;
}

/* the number behind a word, or the most there is */
static size_t after(const char *word)
{
    const char *words = getenv("BENCH_SHIM");
    const char *found = words != NULL ? strstr(words, word) : NULL;
    return found != NULL ? strtoul(found + strlen(word), NULL, 10) : (size_t)-1;
}

/* How many bytes a call may move; 0: it fails, and errno says why. */
static size_t allowed(size_t asked, size_t *calls, size_t moved, const char *limit)
{
    if (has("interrupted") && (*calls)++ % 2 == 0) {
        errno = EINTR;
        return 0;
    }
    if (moved >= after(limit)) {
        errno = EIO;
        return 0;
    }
    if (asked > after(limit) - moved)
        asked = after(limit) - moved;
    return has("short") && asked > 7 ? 7 : asked;
}

ssize_t read(int file, void *to, size_t length)
{
    static ssize_t (*real)(int, void *, size_t);
    static size_t calls, moved;
    if (real == NULL)
        real = (ssize_t (*)(int, void *, size_t))dlsym(RTLD_NEXT, "read");
    if (file != STDIN_FILENO || length == 0)
        return real(file, to, length);
    length = allowed(length, &calls, moved, "read=");
    if (length == 0)
        return -1;
    ssize_t got = real(file, to, length);
    moved += got > 0 ? (size_t)got : 0;
    return got;
}

ssize_t write(int file, const void *from, size_t length)
{
    static ssize_t (*real)(int, const void *, size_t);
    static size_t calls, moved;
    if (real == NULL)
        real = (ssize_t (*)(int, const void *, size_t))dlsym(RTLD_NEXT, "write");
    if (file != STDOUT_FILENO || length == 0)
        return real(file, from, length);
    length = allowed(length, &calls, moved, "write=");
    if (length == 0)
        return -1;
    ssize_t got = real(file, from, length);
    moved += got > 0 ? (size_t)got : 0;
    return got;
}
