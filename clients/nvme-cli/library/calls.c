// Replacements of the C library's calls. Each checks whether the path, or the descriptor, is the lab's,
// and else hands the call on as it came.
#define _GNU_SOURCE
#include "lab.h"

#include <dirent.h>
#include <dlfcn.h>
#include <errno.h>
#include <fcntl.h>
#include <linux/fs.h>
#include <stdarg.h>
#include <stdio.h>
#include <stdlib.h>
#include <string.h>
#include <sys/ioctl.h>
#include <sys/stat.h>
#include <sys/xattr.h>
#include <unistd.h>

void *lab_next(const char *name, void **found) {
    if (!*found) {
        *found = dlsym(RTLD_NEXT, name);
    }
    if (!*found) {
        fprintf(stderr, "lab: the C library has no %s\n", name);
        abort();
    }
    return *found;
}

FOUND_ONCE(__open64_2);
FOUND_ONCE(__open_2);
FOUND_ONCE(__openat64_2);
FOUND_ONCE(__openat_2);
FOUND_ONCE(access);
FOUND_ONCE(creat);
FOUND_ONCE(creat64);
FOUND_ONCE(euidaccess);
FOUND_ONCE(faccessat);
FOUND_ONCE(fopen);
FOUND_ONCE(fopen64);
FOUND_ONCE(getxattr);
FOUND_ONCE(ioctl);
FOUND_ONCE(lgetxattr);
FOUND_ONCE(open);
FOUND_ONCE(open64);
FOUND_ONCE(openat);
FOUND_ONCE(openat64);
FOUND_ONCE(readlink);
FOUND_ONCE(readlinkat);
FOUND_ONCE(realpath);
FOUND_ONCE(scandir);
FOUND_ONCE(scandir64);

// Opening.

// Opens the file that represents a device: a block device by disk.c, others by a descriptor with which control calls
// can be made and nothing else. A device whose server is gone is a node without a device.
static int open_device(const char *place, int flags) {
    struct lab_request look = {.asking = LAB_LOOK};
    if (NEXT(access)(place, F_OK)) {
        return -1;
    }
    if (!lab_named(strrchr(place, '/') + 1, &look.device)) {
        errno = ENOENT;
        return -1;
    }
    if (lab_ask(&look)) {
        errno = ENXIO;
        return -1;
    }
    if (flags & O_DIRECTORY) {
        errno = ENOTDIR;
        return -1;
    }
    if (look.device.is_block) {
        return lab_open_disk(place, flags);
    }
    return NEXT(openat)(AT_FDCWD, place, O_PATH | (flags & O_CLOEXEC));
}

// Whether a path is the lab's, and what opening it then gives.
static bool opens(const char *path, int flags, int *fd) {
    char place[PATH_MAX];
    switch (lab_place(path, place)) {
    case LAB_DEVICE_PATH:
        *fd = open_device(place, flags);
        return true;
    case LAB_OTHER_PATH:
        *fd = NEXT(openat)(AT_FDCWD, place, flags & ~(O_CREAT | O_TRUNC));
        return true;
    default:
        return false;
    }
}

// The mode follows the flags if they may create a file.
static mode_t mode_behind(int flags, va_list words) {
    return flags & (O_CREAT | (O_TMPFILE & ~O_DIRECTORY)) ? va_arg(words, mode_t) : 0;
}

#define OPENS_AS(name)                                                                                                 \
    int name(const char *path, int flags, ...) {                                                                       \
        int fd;                                                                                                        \
        va_list words;                                                                                                 \
        va_start(words, flags);                                                                                        \
        mode_t mode = mode_behind(flags, words);                                                                       \
        va_end(words);                                                                                                 \
        return opens(path, flags, &fd) ? fd : NEXT(name)(path, flags, mode);                                           \
    }

#define OPENS_AT_AS(name)                                                                                              \
    int name(int folder, const char *path, int flags, ...) {                                                           \
        int fd;                                                                                                        \
        va_list words;                                                                                                 \
        va_start(words, flags);                                                                                        \
        mode_t mode = mode_behind(flags, words);                                                                       \
        va_end(words);                                                                                                 \
        return opens(path, flags, &fd) ? fd : NEXT(name)(folder, path, flags, mode);                                   \
    }

OPENS_AS(open)
OPENS_AS(open64)
OPENS_AT_AS(openat)
OPENS_AT_AS(openat64)

int creat(const char *path, mode_t mode) {
    int fd;
    return opens(path, O_CREAT | O_WRONLY | O_TRUNC, &fd) ? fd : NEXT(creat)(path, mode);
}

int creat64(const char *path, mode_t mode) {
    int fd;
    return opens(path, O_CREAT | O_WRONLY | O_TRUNC, &fd) ? fd : NEXT(creat64)(path, mode);
}

// The forms that checked builds call if no mode is given.
int __open_2(const char *path, int flags);
int __open64_2(const char *path, int flags);
int __openat_2(int folder, const char *path, int flags);
int __openat64_2(int folder, const char *path, int flags);

int __open_2(const char *path, int flags) {
    int fd;
    return opens(path, flags, &fd) ? fd : NEXT(__open_2)(path, flags);
}

int __open64_2(const char *path, int flags) {
    int fd;
    return opens(path, flags, &fd) ? fd : NEXT(__open64_2)(path, flags);
}

int __openat_2(int folder, const char *path, int flags) {
    int fd;
    return opens(path, flags, &fd) ? fd : NEXT(__openat_2)(folder, path, flags);
}

int __openat64_2(int folder, const char *path, int flags) {
    int fd;
    return opens(path, flags, &fd) ? fd : NEXT(__openat64_2)(folder, path, flags);
}

// The place of a path, or the path itself if it is not the lab's.
static const char *placed(const char *path, char place[PATH_MAX]) {
    return lab_place(path, place) == LAB_NO_PATH ? path : place;
}

static FILE *open_stream(const char *path, const char *mode, FILE *(*next)(const char *, const char *)) {
    char place[PATH_MAX];
    if (lab_place(path, place) == LAB_DEVICE_PATH) {
        errno = EOPNOTSUPP;
        return NULL;
    }
    return next(placed(path, place), mode);
}

FILE *fopen(const char *path, const char *mode) {
    return open_stream(path, mode, NEXT(fopen));
}

FILE *fopen64(const char *path, const char *mode) {
    return open_stream(path, mode, NEXT(fopen64));
}

// Folders, links, and whether something is there.

int scandir(const char *path, struct dirent ***found, int (*chosen)(const struct dirent *),
            int (*order)(const struct dirent **, const struct dirent **)) {
    char place[PATH_MAX];
    return NEXT(scandir)(placed(path, place), found, chosen, order);
}

int scandir64(const char *path, struct dirent64 ***found, int (*chosen)(const struct dirent64 *),
              int (*order)(const struct dirent64 **, const struct dirent64 **)) {
    char place[PATH_MAX];
    return NEXT(scandir64)(placed(path, place), found, chosen, order);
}

ssize_t readlink(const char *path, char *target, size_t room) {
    char place[PATH_MAX];
    return NEXT(readlink)(placed(path, place), target, room);
}

ssize_t readlinkat(int folder, const char *path, char *target, size_t room) {
    char place[PATH_MAX];
    return NEXT(readlinkat)(folder, placed(path, place), target, room);
}

// Nothing under these paths is a link, so that a path of the lab that is there is its own real one.
char *realpath(const char *path, char *real) {
    char place[PATH_MAX];
    if (lab_place(path, place) == LAB_NO_PATH) {
        return NEXT(realpath)(path, real);
    }
    if (NEXT(access)(place, F_OK)) {
        return NULL;
    }
    return real ? strcpy(real, path) : strdup(path);
}

int access(const char *path, int mode) {
    char place[PATH_MAX];
    return NEXT(access)(placed(path, place), mode);
}

int faccessat(int folder, const char *path, int mode, int flags) {
    char place[PATH_MAX];
    return NEXT(faccessat)(folder, placed(path, place), mode, flags);
}

int euidaccess(const char *path, int mode) {
    char place[PATH_MAX];
    return NEXT(euidaccess)(placed(path, place), mode);
}

// Devices have no attributes except those of `stat`.
ssize_t getxattr(const char *path, const char *name, void *value, size_t room) {
    char place[PATH_MAX];
    return NEXT(getxattr)(placed(path, place), name, value, room);
}

ssize_t lgetxattr(const char *path, const char *name, void *value, size_t room) {
    char place[PATH_MAX];
    return NEXT(lgetxattr)(placed(path, place), name, value, room);
}

// Control calls.

// Zeros on a range of a block device, which Write Zeroes writes.
static int zero_range(int fd, const uint64_t range[2]) {
    struct lab_disk disk;
    if (!lab_disk_of(fd, &disk)) {
        errno = ENOTTY;
        return -1;
    }
    return lab_zero(&disk, range[0], range[1]);
}

int ioctl(int fd, unsigned long request, ...) {
    struct lab_device device;
    va_list words;
    va_start(words, request);
    void *argument = va_arg(words, void *);
    va_end(words);
    // NVMe's own, and those of block devices.
    bool may_be_ours = _IOC_TYPE(request) == 'N' || _IOC_TYPE(request) == _IOC_TYPE(BLKROGET);
    if (may_be_ours && lab_opened(fd, &device)) {
        if (request == BLKZEROOUT && argument) {
            return zero_range(fd, argument);
        }
        return lab_control(&device, request, argument);
    }
    return NEXT(ioctl)(fd, request, argument);
}
