// Loaded into the target by LD_PRELOAD, it logs what the system may lose of the image when the power fails.
//
// UNSYNCED_IMAGE is the path of the image. The file UNSYNCED gets an entry before each write, with the bytes that it
// replaces; before each sync; and after a sync that succeeded. The log shows which writes no sync followed.
#define _GNU_SOURCE
#include <dlfcn.h>
#include <fcntl.h>
#include <pthread.h>
#include <stdint.h>
#include <stdlib.h>
#include <string.h>
#include <sys/stat.h>
#include <sys/uio.h>
#include <unistd.h>

enum { WRITES, SYNCS, SYNCED };
struct entry {
    uint64_t kind, id, place, count;
};
static int told = -1;
static pthread_mutex_t lock = PTHREAD_MUTEX_INITIALIZER;

#define NEXT(name) ((__typeof__(&name))dlsym(RTLD_NEXT, #name))

__attribute__((constructor)) static void begin(void) {
    if (getenv("UNSYNCED"))
        told = open(getenv("UNSYNCED"), O_WRONLY | O_APPEND | O_CREAT | O_CLOEXEC, 0600);
}

static int is_image(int file) {
    struct stat image, found;
    return told >= 0 && stat(getenv("UNSYNCED_IMAGE"), &image) == 0 && fstat(file, &found) == 0 &&
           image.st_dev == found.st_dev && image.st_ino == found.st_ino;
}

// Logs an entry by one call, with the bytes that are there now if it is a write.
static void tell(uint64_t kind, uint64_t id, off64_t place, size_t count) {
    struct entry entry = {kind, id, place, count};
    size_t size = sizeof entry + count;
    char *bytes = calloc(1, size);
    int image = count ? open(getenv("UNSYNCED_IMAGE"), O_RDONLY | O_CLOEXEC) : -1;
    memcpy(bytes, &entry, sizeof entry);
    // Bytes after the end of the file are zeros.
    if (count && NEXT(pread64)(image, bytes + sizeof entry, count, place) < 0)
        abort();
    if (write(told, bytes, size) != (ssize_t)size)
        abort();
    if (image >= 0)
        close(image);
    free(bytes);
}

ssize_t pwrite64(int file, const void *bytes, size_t count, off64_t place) {
    if (!is_image(file))
        return NEXT(pwrite64)(file, bytes, count, place);
    pthread_mutex_lock(&lock);
    tell(WRITES, 0, place, count);
    ssize_t done = NEXT(pwrite64)(file, bytes, count, place);
    pthread_mutex_unlock(&lock);
    return done;
}

ssize_t pwrite(int file, const void *bytes, size_t count, off_t place) {
    return pwrite64(file, bytes, count, place);
}

// One part alone, as each write of the target has.
ssize_t pwritev64v2(int file, const struct iovec *parts, int count, off64_t place, int flags) {
    if (!is_image(file))
        return NEXT(pwritev64v2)(file, parts, count, place, flags);
    if (count != 1)
        abort();
    pthread_mutex_lock(&lock);
    tell(WRITES, 0, place, parts[0].iov_len);
    ssize_t done = NEXT(pwritev64v2)(file, parts, count, place, flags);
    pthread_mutex_unlock(&lock);
    return done;
}

ssize_t pwritev2(int file, const struct iovec *parts, int count, off_t place, int flags) {
    return pwritev64v2(file, parts, count, place, flags);
}

int fallocate64(int file, int mode, off64_t place, off64_t count) {
    if (!is_image(file))
        return NEXT(fallocate64)(file, mode, place, count);
    pthread_mutex_lock(&lock);
    tell(WRITES, 0, place, count);
    int done = NEXT(fallocate64)(file, mode, place, count);
    pthread_mutex_unlock(&lock);
    return done;
}

int fallocate(int file, int mode, off_t place, off_t count) {
    return fallocate64(file, mode, place, count);
}

// The disk isn't synced: it only takes as long as if it were.
static int sync_of(int file, int (*next)(int)) {
    static uint64_t last;
    if (!is_image(file))
        return next(file);
    pthread_mutex_lock(&lock);
    uint64_t id = ++last;
    tell(SYNCS, id, 0, 0);
    pthread_mutex_unlock(&lock);
    usleep(2000);
    pthread_mutex_lock(&lock);
    tell(SYNCED, id, 0, 0);
    pthread_mutex_unlock(&lock);
    return 0;
}

int fdatasync(int file) {
    return sync_of(file, NEXT(fdatasync));
}

int fsync(int file) {
    return sync_of(file, NEXT(fsync));
}
