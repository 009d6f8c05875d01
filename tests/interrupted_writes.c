/* Preloaded: each write is interrupted once before it is made, and the file 9 gets a byte for it. */
#define _GNU_SOURCE
#include <dlfcn.h>
#include <errno.h>
#include <unistd.h>

ssize_t write(int file, const void *bytes, size_t count) {
    static int interrupted;
    ssize_t (*made)(int, const void *, size_t) = (ssize_t (*)(int, const void *, size_t))dlsym(RTLD_NEXT, "write");
    interrupted = !interrupted;
    if (interrupted) {
        made(9, ".", 1);
        errno = EINTR;
        return -1;
    }
    return made(file, bytes, count);
}
