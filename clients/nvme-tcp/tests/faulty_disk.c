// Loaded into the target by LD_PRELOAD, it makes calls on the image fail, stop short or take long.
//
// DISK_FAULTS_IMAGE is the path of the image, a file or a block device. DISK_FAULTS names a file that is mapped: a
// test changes it while the target runs. It has `struct kind` for reads, writes, syncs and zeroes, in this order. Half
// of a delay is before the call, half after it; it ends when the test takes it away.
#define _GNU_SOURCE
#include <dlfcn.h>
#include <errno.h>
#include <fcntl.h>
#include <stdint.h>
#include <stdlib.h>
#include <sys/mman.h>
#include <sys/stat.h>
#include <sys/uio.h>
#include <unistd.h>

struct kind {
    // Each call of this number has a fault; 0 is none.
    uint64_t every;
    // An errno, or 0: the call takes half of the bytes.
    uint64_t fault;
    uint64_t delay_us;
    // If `end` isn't 0, only calls on these bytes have faults. A call that begins before them stops there.
    uint64_t first, end;
    // If it isn't 0, calls take a quarter, half, three quarters or all of the delay in turn.
    uint64_t varies;
    // Calls so far, those that could have had a fault, those that had one, and those in progress.
    uint64_t calls, eligible, faults, waiting;
};
enum { READ, WRITE, SYNC, ZERO, KINDS };
static struct kind *kinds;

#define NEXT(name) ((__typeof__(&name))dlsym(RTLD_NEXT, #name))

__attribute__((constructor)) static void begin(void) {
    const char *path = getenv("DISK_FAULTS");
    int file = path ? open(path, O_RDWR | O_CLOEXEC) : -1;
    if (file < 0)
        return;
    void *mapped = mmap(NULL, KINDS * sizeof *kinds, PROT_READ | PROT_WRITE, MAP_SHARED, file, 0);
    if (mapped == MAP_FAILED)
        abort();
    kinds = mapped;
    close(file);
}

static int is_image(int file) {
    struct stat image, found;
    if (!kinds || stat(getenv("DISK_FAULTS_IMAGE"), &image) || fstat(file, &found))
        return 0;
    if (S_ISBLK(image.st_mode))
        return S_ISBLK(found.st_mode) && image.st_rdev == found.st_rdev;
    return image.st_dev == found.st_dev && image.st_ino == found.st_ino;
}

// The errno with which a call fails, or 0; `count` becomes how many bytes it may have.
static int fault_of(struct kind *kind, int file, uint64_t place, size_t *count) {
    if (!kind->every || (kind->end && (place >= kind->end || place + *count <= kind->first)))
        return 0;
    if ((__atomic_add_fetch(&kind->eligible, 1, __ATOMIC_SEQ_CST)) % kind->every)
        return 0;
    __atomic_add_fetch(&kind->faults, 1, __ATOMIC_SEQ_CST);
    if (kind->end && place < kind->first) {
        *count = kind->first - place;
        return 0;
    }
    if (kind->fault)
        return kind->fault;
    size_t half = (*count + 1) / 2, unit = fcntl(file, F_GETFL) & O_DIRECT ? 512 : 1;
    *count = half < unit ? unit : half / unit * unit;
    return 0;
}

// Waits for half of the delay of a call, which is the n-th.
static void wait_for(struct kind *kind, uint64_t n) {
    uint64_t parts = kind->varies ? n % 4 + 1 : 4, step = 1000;
    for (uint64_t past = 0; past < kind->delay_us * parts / 8; past += step)
        usleep(kind->delay_us * parts / 8 - past < step ? kind->delay_us * parts / 8 - past : step);
}

// Does a call, which is `done = ..`, on `count` bytes of the image from a place on.
#define ON_IMAGE(type, which, file, place, count, call)                                                                \
    do {                                                                                                               \
        struct kind *kind = is_image(file) ? &kinds[which] : NULL;                                                     \
        type done = 0;                                                                                                 \
        if (!kind) {                                                                                                   \
            call;                                                                                                      \
            return done;                                                                                               \
        }                                                                                                              \
        uint64_t n = __atomic_add_fetch(&kind->calls, 1, __ATOMIC_SEQ_CST);                                            \
        __atomic_add_fetch(&kind->waiting, 1, __ATOMIC_SEQ_CST);                                                       \
        wait_for(kind, n);                                                                                             \
        int fault = fault_of(kind, file, place, &count), kept;                                                         \
        if (fault) {                                                                                                   \
            errno = fault;                                                                                             \
            done = -1;                                                                                                 \
        } else {                                                                                                       \
            call;                                                                                                      \
        }                                                                                                              \
        kept = errno;                                                                                                  \
        wait_for(kind, n);                                                                                             \
        __atomic_sub_fetch(&kind->waiting, 1, __ATOMIC_SEQ_CST);                                                       \
        errno = kept;                                                                                                  \
        return done;                                                                                                   \
    } while (0)

ssize_t pread64(int file, void *bytes, size_t count, off64_t place) {
    ON_IMAGE(ssize_t, READ, file, place, count, done = NEXT(pread64)(file, bytes, count, place));
}

ssize_t pread(int file, void *bytes, size_t count, off_t place) {
    return pread64(file, bytes, count, place);
}

ssize_t pwrite64(int file, const void *bytes, size_t count, off64_t place) {
    ON_IMAGE(ssize_t, WRITE, file, place, count, done = NEXT(pwrite64)(file, bytes, count, place));
}

ssize_t pwrite(int file, const void *bytes, size_t count, off_t place) {
    return pwrite64(file, bytes, count, place);
}

static size_t bytes_of(const struct iovec *parts, int count) {
    size_t sum = 0;
    for (int at = 0; at < count; at++)
        sum += parts[at].iov_len;
    return sum;
}

// The first of these parts alone, of at most `most` bytes, if a call isn't to have all.
static struct iovec first_of(const struct iovec *parts, size_t most) {
    return (struct iovec){parts[0].iov_base, parts[0].iov_len < most ? parts[0].iov_len : most};
}

ssize_t preadv64(int file, const struct iovec *parts, int count, off64_t place) {
    size_t all = bytes_of(parts, count), bytes = all;
    struct iovec cut;
    ON_IMAGE(ssize_t, READ, file, place, bytes,
             cut = first_of(parts, bytes);
             done = bytes == all ? NEXT(preadv64)(file, parts, count, place) : NEXT(preadv64)(file, &cut, 1, place));
}

ssize_t preadv(int file, const struct iovec *parts, int count, off_t place) {
    return preadv64(file, parts, count, place);
}

ssize_t pwritev64(int file, const struct iovec *parts, int count, off64_t place) {
    size_t all = bytes_of(parts, count), bytes = all;
    struct iovec cut;
    ON_IMAGE(ssize_t, WRITE, file, place, bytes,
             cut = first_of(parts, bytes);
             done = bytes == all ? NEXT(pwritev64)(file, parts, count, place) : NEXT(pwritev64)(file, &cut, 1, place));
}

ssize_t pwritev(int file, const struct iovec *parts, int count, off_t place) {
    return pwritev64(file, parts, count, place);
}

// A slow disk has RWF_NOWAIT refused. Vectors have no faults here but that.
ssize_t pwritev64v2(int file, const struct iovec *parts, int count, off64_t place, int flags) {
    if (flags & RWF_NOWAIT && is_image(file) && (kinds[WRITE].delay_us || kinds[WRITE].every)) {
        errno = EAGAIN;
        return -1;
    }
    if (flags == 0)
        return pwritev64(file, parts, count, place);
    size_t bytes = bytes_of(parts, count);
    ON_IMAGE(ssize_t, WRITE, file, place, bytes, done = NEXT(pwritev64v2)(file, parts, count, place, flags));
}

ssize_t pwritev2(int file, const struct iovec *parts, int count, off_t place, int flags) {
    return pwritev64v2(file, parts, count, place, flags);
}

int fdatasync(int file) {
    size_t none = 1;
    ON_IMAGE(int, SYNC, file, 0, none, done = NEXT(fdatasync)(file));
}

int fsync(int file) {
    size_t none = 1;
    ON_IMAGE(int, SYNC, file, 0, none, done = NEXT(fsync)(file));
}

int fallocate64(int file, int mode, off64_t place, off64_t count) {
    size_t bytes = count;
    ON_IMAGE(int, ZERO, file, place, bytes, done = NEXT(fallocate64)(file, mode, place, count));
}

int fallocate(int file, int mode, off_t place, off_t count) {
    return fallocate64(file, mode, place, count);
}
