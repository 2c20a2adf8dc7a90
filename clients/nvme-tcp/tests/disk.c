// Loaded into the target by LD_PRELOAD, it has calls on blocks fail or take a while.
//
// DISK_BAD is a place: a read of bytes from it up to 512 further fails. DISK_DELAY has the milliseconds that each read,
// and DISK_SYNC_DELAY those that each fdatasync takes.
#define _GNU_SOURCE
#include <dlfcn.h>
#include <errno.h>
#include <stdlib.h>
#include <sys/types.h>
#include <unistd.h>

static long long number(const char *name) {
    const char *text = getenv(name);
    return text ? atoll(text) : -1;
}

static void rest(const char *name) {
    if (number(name) > 0)
        usleep(number(name) * 1000);
}

ssize_t pread64(int file, void *bytes, size_t count, off64_t place) {
    ssize_t (*next)(int, void *, size_t, off64_t) = dlsym(RTLD_NEXT, "pread64");
    long long bad = number("DISK_BAD");
    rest("DISK_DELAY");
    if (bad >= 0 && place < bad + 512 && bad < place + (long long)count) {
        errno = EIO;
        return -1;
    }
    return next(file, bytes, count, place);
}

int fdatasync(int file) {
    int (*next)(int) = dlsym(RTLD_NEXT, "fdatasync");
    rest("DISK_SYNC_DELAY");
    return next(file);
}
