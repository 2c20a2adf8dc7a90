// Loaded into the target by LD_PRELOAD, it logs the system calls on the target's files.
//
// CALLS_TOLD names a file that gets a line for each: `writes PLACE COUNT` before a pwrite and `wrote PLACE COUNT` after
// it, `syncs` before an fdatasync and `synced` after it, `reserves MODE PLACE COUNT` before an fallocate; and
// `appends COUNT` and `fsyncs` for calls on the file that CALLS_JOURNAL names. CALLS_GATE may name a pipe. A pwrite, or
// a write or writev of 16 KiB, waits there until it gets a byte. So does an fdatasync at CALLS_SYNC_GATE. CALLS_REFUSAL
// may be an errno, by which each fallocate is refused. With CALLS_PART, a writev takes a part of the bytes, or is
// interrupted; `puts COUNT FIRST SECOND` is how many of which. A long write then takes a while, so that more bytes are
// queued after it.
#define _GNU_SOURCE
#include <dlfcn.h>
#include <errno.h>
#include <fcntl.h>
#include <stdio.h>
#include <stdlib.h>
#include <sys/stat.h>
#include <sys/types.h>
#include <sys/uio.h>
#include <unistd.h>

static int told = -1, gate = -1, sync_gate = -1;

__attribute__((constructor)) static void begin(void) {
    if (getenv("CALLS_TOLD"))
        told = open(getenv("CALLS_TOLD"), O_WRONLY | O_APPEND | O_CREAT | O_CLOEXEC, 0600);
    if (getenv("CALLS_GATE"))
        gate = open(getenv("CALLS_GATE"), O_RDWR | O_CLOEXEC);
    if (getenv("CALLS_SYNC_GATE"))
        sync_gate = open(getenv("CALLS_SYNC_GATE"), O_RDWR | O_CLOEXEC);
}

static void wait_at(int pipe) {
    char byte;
    if (pipe >= 0 && read(pipe, &byte, 1) != 1)
        abort();
}

static void tell(const char *what, long long first, long long second, long long third) {
    char line[100];
    int length = third >= 0    ? snprintf(line, sizeof line, "%s %lld %lld %lld\n", what, first, second, third)
                 : second >= 0 ? snprintf(line, sizeof line, "%s %lld %lld\n", what, first, second)
                               : snprintf(line, sizeof line, "%s\n", what);
    if (told >= 0 && write(told, line, length) != length)
        abort();
}

static int is_journal(int file) {
    struct stat journal, found;
    return getenv("CALLS_JOURNAL") && stat(getenv("CALLS_JOURNAL"), &journal) == 0 && fstat(file, &found) == 0 &&
           journal.st_dev == found.st_dev && journal.st_ino == found.st_ino;
}

ssize_t pwrite64(int file, const void *bytes, size_t count, off64_t place) {
    ssize_t (*next)(int, const void *, size_t, off64_t) = dlsym(RTLD_NEXT, "pwrite64");
    tell("writes", place, count, -1);
    wait_at(gate);
    ssize_t done = next(file, bytes, count, place);
    tell("wrote", place, done, -1);
    return done;
}

ssize_t pwrite(int file, const void *bytes, size_t count, off_t place) {
    return pwrite64(file, bytes, count, place);
}

int fdatasync(int file) {
    int (*next)(int) = dlsym(RTLD_NEXT, "fdatasync");
    tell("syncs", -1, -1, -1);
    wait_at(sync_gate);
    int done = next(file);
    tell("synced", -1, -1, -1);
    return done;
}

int fsync(int file) {
    int (*next)(int) = dlsym(RTLD_NEXT, "fsync");
    if (is_journal(file))
        tell("fsyncs", -1, -1, -1);
    return next(file);
}

int fallocate(int file, int mode, off_t place, off_t count) {
    int (*next)(int, int, off_t, off_t) = dlsym(RTLD_NEXT, "fallocate");
    const char *refusal = getenv("CALLS_REFUSAL");
    tell("reserves", mode, place, count);
    if (refusal) {
        errno = atoi(refusal);
        return -1;
    }
    return next(file, mode, place, count);
}

ssize_t write(int file, const void *bytes, size_t count) {
    ssize_t (*next)(int, const void *, size_t) = dlsym(RTLD_NEXT, "write");
    if (getenv("CALLS_PART") && count >= 65536)
        usleep(20000);
    if (file != told && is_journal(file))
        tell("appends", count, -1, -1);
    if (count >= 16384)
        wait_at(gate);
    return next(file, bytes, count);
}

ssize_t writev(int file, const struct iovec *parts, int count) {
    ssize_t (*next)(int, const struct iovec *, int) = dlsym(RTLD_NEXT, "writev");
    static unsigned calls;
    if (count == 2 && parts[0].iov_len + parts[1].iov_len >= 16384)
        wait_at(gate);
    if (!getenv("CALLS_PART") || count != 2)
        return next(file, parts, count);
    size_t first = parts[0].iov_len, second = parts[1].iov_len;
    if (++calls % 3 == 0) {
        errno = EINTR;
        return -1;
    }
    struct iovec cut[] = {{parts[0].iov_base, calls % 3 == 1 ? first : first / 2},
                          {parts[1].iov_base, calls % 3 == 1 ? second / 2 : 0}};
    tell("puts", cut[0].iov_len + cut[1].iov_len, first, second);
    return next(file, cut, 2);
}
