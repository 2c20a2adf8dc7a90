// The calls that say what a file is: of a device of the lab they say that it is one, with the numbers that Linux gives
// to such devices. Everything else is as the file that represents it has it.
#define _GNU_SOURCE
#include "lab.h"

#include <dlfcn.h>
#include <errno.h>
#include <fcntl.h>
#include <string.h>
#include <sys/stat.h>
#include <sys/sysmacros.h>
#include <unistd.h>

#define BLOCK_MAJOR 259
#define CONTROLLER_MAJOR 241
#define GENERIC_MAJOR 242
#define NAMESPACES 8

static unsigned major_of(const struct lab_device *device) {
    if (device->is_block) {
        return BLOCK_MAJOR;
    }
    return device->nsid ? GENERIC_MAJOR : CONTROLLER_MAJOR;
}

static unsigned minor_of(const struct lab_device *device) {
    return device->nsid ? device->controller * NAMESPACES + device->nsid - 1 : device->controller;
}

static mode_t mode_of(const struct lab_device *device) {
    return (device->is_block ? S_IFBLK : S_IFCHR) | 0600;
}

static bool is_device_place(const char *place, struct lab_device *device) {
    return lab_named(strrchr(place, '/') + 1, device);
}

// A descriptor is looked at only if it is of an empty file: one system call more for these alone.
static bool may_be_device(mode_t mode, long long size) {
    return S_ISREG(mode) && size == 0;
}

#define MARK(found, device)                                                                                            \
    do {                                                                                                               \
        (found)->st_mode = mode_of(device);                                                                            \
        (found)->st_rdev = makedev(major_of(device), minor_of(device));                                                \
    } while (0)

// The function of the same name that comes after this one. A C library may lack it; then nothing calls it.
#define FIND_NEXT(type, name)                                                                                          \
    static type *next;                                                                                                 \
    if (!next && !(next = __extension__(type *)dlsym(RTLD_NEXT, name))) {                                              \
        errno = ENOSYS;                                                                                                \
        return -1;                                                                                                     \
    }

// A call by a path, whatever else it takes.
#define BY_PATH(type, name, path, found, call)                                                                         \
    do {                                                                                                               \
        char place[PATH_MAX];                                                                                          \
        struct lab_device device;                                                                                      \
        FIND_NEXT(type, name);                                                                                         \
        enum lab_kind kind = lab_place(path, place);                                                                   \
        const char *asked = kind == LAB_NO_PATH ? path : place;                                                        \
        int failed = call;                                                                                             \
        if (!failed && kind == LAB_DEVICE_PATH && is_device_place(place, &device)) {                                   \
            MARK(found, &device);                                                                                      \
        }                                                                                                              \
        return failed;                                                                                                 \
    } while (0)

// A call by a descriptor.
#define BY_DESCRIPTOR(type, name, fd, found, call)                                                                     \
    do {                                                                                                               \
        struct lab_device device;                                                                                      \
        FIND_NEXT(type, name);                                                                                         \
        int failed = call;                                                                                             \
        if (!failed && may_be_device((found)->st_mode, (found)->st_size) && lab_opened(fd, &device)) {                 \
            MARK(found, &device);                                                                                      \
        }                                                                                                              \
        return failed;                                                                                                 \
    } while (0)

typedef int by_path(const char *, struct stat *);
typedef int by_path64(const char *, struct stat64 *);
typedef int by_descriptor(int, struct stat *);
typedef int by_descriptor64(int, struct stat64 *);
typedef int at_path(int, const char *, struct stat *, int);
typedef int at_path64(int, const char *, struct stat64 *, int);

int stat(const char *path, struct stat *found) {
    BY_PATH(by_path, "stat", path, found, next(asked, found));
}

int stat64(const char *path, struct stat64 *found) {
    BY_PATH(by_path64, "stat64", path, found, next(asked, found));
}

int lstat(const char *path, struct stat *found) {
    BY_PATH(by_path, "lstat", path, found, next(asked, found));
}

int lstat64(const char *path, struct stat64 *found) {
    BY_PATH(by_path64, "lstat64", path, found, next(asked, found));
}

int fstat(int fd, struct stat *found) {
    BY_DESCRIPTOR(by_descriptor, "fstat", fd, found, next(fd, found));
}

int fstat64(int fd, struct stat64 *found) {
    BY_DESCRIPTOR(by_descriptor64, "fstat64", fd, found, next(fd, found));
}

// With an empty path these two say what a descriptor is.
int fstatat(int folder, const char *path, struct stat *found, int flags) {
    if (lab_says_nothing(path) && flags & AT_EMPTY_PATH) {
        BY_DESCRIPTOR(at_path, "fstatat", folder, found, next(folder, path, found, flags));
    }
    BY_PATH(at_path, "fstatat", path, found, next(folder, asked, found, flags));
}

int fstatat64(int folder, const char *path, struct stat64 *found, int flags) {
    if (lab_says_nothing(path) && flags & AT_EMPTY_PATH) {
        BY_DESCRIPTOR(at_path64, "fstatat64", folder, found, next(folder, path, found, flags));
    }
    BY_PATH(at_path64, "fstatat64", path, found, next(folder, asked, found, flags));
}

// The forms that programs of C libraries before 2.33 call, with a version in front.
typedef int old_by_path(int, const char *, struct stat *);
typedef int old_by_path64(int, const char *, struct stat64 *);
typedef int old_by_descriptor(int, int, struct stat *);
typedef int old_by_descriptor64(int, int, struct stat64 *);
old_by_path __xstat, __lxstat;
old_by_path64 __xstat64, __lxstat64;
old_by_descriptor __fxstat;
old_by_descriptor64 __fxstat64;

int __xstat(int version, const char *path, struct stat *found) {
    BY_PATH(old_by_path, "__xstat", path, found, next(version, asked, found));
}

int __xstat64(int version, const char *path, struct stat64 *found) {
    BY_PATH(old_by_path64, "__xstat64", path, found, next(version, asked, found));
}

int __lxstat(int version, const char *path, struct stat *found) {
    BY_PATH(old_by_path, "__lxstat", path, found, next(version, asked, found));
}

int __lxstat64(int version, const char *path, struct stat64 *found) {
    BY_PATH(old_by_path64, "__lxstat64", path, found, next(version, asked, found));
}

int __fxstat(int version, int fd, struct stat *found) {
    BY_DESCRIPTOR(old_by_descriptor, "__fxstat", fd, found, next(version, fd, found));
}

int __fxstat64(int version, int fd, struct stat64 *found) {
    BY_DESCRIPTOR(old_by_descriptor64, "__fxstat64", fd, found, next(version, fd, found));
}

static void mark_whole(struct statx *found, const struct lab_device *device) {
    found->stx_mode = (uint16_t)mode_of(device);
    found->stx_rdev_major = major_of(device);
    found->stx_rdev_minor = minor_of(device);
}

int statx(int folder, const char *path, int flags, unsigned mask, struct statx *found) {
    typedef int whole(int, const char *, int, unsigned, struct statx *);
    char place[PATH_MAX];
    struct lab_device device;
    FIND_NEXT(whole, "statx");
    enum lab_kind kind = lab_place(path, place);
    int failed = next(folder, kind == LAB_NO_PATH ? path : place, flags, mask, found);
    if (failed) {
        return failed;
    }
    bool is_empty = lab_says_nothing(path) && flags & AT_EMPTY_PATH;
    if (kind == LAB_DEVICE_PATH && is_device_place(place, &device)) {
        mark_whole(found, &device);
    } else if (is_empty && may_be_device(found->stx_mode, (long long)found->stx_size) && lab_opened(folder, &device)) {
        mark_whole(found, &device);
    }
    return 0;
}
