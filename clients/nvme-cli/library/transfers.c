// The calls that read, write, seek and bring to the disk. A file that represents a block device can be neither read nor
// written, so that what is not ours is handed on as it came, and only what fails so is looked at.
#define _GNU_SOURCE
#include "lab.h"

#include <errno.h>
#include <fcntl.h>
#include <stdarg.h>
#include <stdlib.h>
#include <unistd.h>

FOUND_ONCE(fcntl);
FOUND_ONCE(fdatasync);
FOUND_ONCE(fsync);
FOUND_ONCE(lseek);
FOUND_ONCE(pread);
FOUND_ONCE(preadv);
FOUND_ONCE(preadv2);
FOUND_ONCE(pwrite);
FOUND_ONCE(pwritev);
FOUND_ONCE(pwritev2);
FOUND_ONCE(read);
FOUND_ONCE(readv);
FOUND_ONCE(write);
FOUND_ONCE(writev);

// Whether a call has failed as each does that is one on a block device of ours.
static bool is_ours(ssize_t moved, int fd, struct lab_disk *disk) {
    return moved < 0 && errno == EBADF && lab_disk_of(fd, disk);
}

static ssize_t move_one(int fd, struct lab_disk *disk, void *bytes, size_t length, bool writes) {
    struct iovec part = {.iov_base = bytes, .iov_len = length};
    return lab_move_on(fd, disk, &part, 1, writes);
}

static ssize_t move_one_at(const struct lab_disk *disk, void *bytes, size_t length, off_t at, bool writes) {
    struct iovec part = {.iov_base = bytes, .iov_len = length};
    return lab_move(disk, &part, 1, at, writes);
}

ssize_t read(int fd, void *bytes, size_t length) {
    struct lab_disk disk;
    ssize_t moved = NEXT(read)(fd, bytes, length);
    return is_ours(moved, fd, &disk) ? move_one(fd, &disk, bytes, length, false) : moved;
}

ssize_t write(int fd, const void *bytes, size_t length) {
    struct lab_disk disk;
    ssize_t moved = NEXT(write)(fd, bytes, length);
    return is_ours(moved, fd, &disk) ? move_one(fd, &disk, (void *)bytes, length, true) : moved;
}

ssize_t pread(int fd, void *bytes, size_t length, off_t at) {
    struct lab_disk disk;
    ssize_t moved = NEXT(pread)(fd, bytes, length, at);
    return is_ours(moved, fd, &disk) ? move_one_at(&disk, bytes, length, at, false) : moved;
}

ssize_t pwrite(int fd, const void *bytes, size_t length, off_t at) {
    struct lab_disk disk;
    ssize_t moved = NEXT(pwrite)(fd, bytes, length, at);
    return is_ours(moved, fd, &disk) ? move_one_at(&disk, (void *)bytes, length, at, true) : moved;
}

ssize_t pread64(int fd, void *bytes, size_t length, off64_t at) {
    return pread(fd, bytes, length, at);
}

ssize_t pwrite64(int fd, const void *bytes, size_t length, off64_t at) {
    return pwrite(fd, bytes, length, at);
}

ssize_t readv(int fd, const struct iovec *parts, int count) {
    struct lab_disk disk;
    ssize_t moved = NEXT(readv)(fd, parts, count);
    return is_ours(moved, fd, &disk) ? lab_move_on(fd, &disk, parts, count, false) : moved;
}

ssize_t writev(int fd, const struct iovec *parts, int count) {
    struct lab_disk disk;
    ssize_t moved = NEXT(writev)(fd, parts, count);
    return is_ours(moved, fd, &disk) ? lab_move_on(fd, &disk, parts, count, true) : moved;
}

ssize_t preadv(int fd, const struct iovec *parts, int count, off_t at) {
    struct lab_disk disk;
    ssize_t moved = NEXT(preadv)(fd, parts, count, at);
    return is_ours(moved, fd, &disk) ? lab_move(&disk, parts, count, at, false) : moved;
}

ssize_t pwritev(int fd, const struct iovec *parts, int count, off_t at) {
    struct lab_disk disk;
    ssize_t moved = NEXT(pwritev)(fd, parts, count, at);
    return is_ours(moved, fd, &disk) ? lab_move(&disk, parts, count, at, true) : moved;
}

ssize_t preadv64(int fd, const struct iovec *parts, int count, off64_t at) {
    return preadv(fd, parts, count, at);
}

ssize_t pwritev64(int fd, const struct iovec *parts, int count, off64_t at) {
    return pwritev(fd, parts, count, at);
}

// With an offset of -1 these two move on from the position.
ssize_t preadv2(int fd, const struct iovec *parts, int count, off_t at, int flags) {
    struct lab_disk disk;
    ssize_t moved = NEXT(preadv2)(fd, parts, count, at, flags);
    if (!is_ours(moved, fd, &disk)) {
        return moved;
    }
    return at == -1 ? lab_move_on(fd, &disk, parts, count, false) : lab_move(&disk, parts, count, at, false);
}

ssize_t pwritev2(int fd, const struct iovec *parts, int count, off_t at, int flags) {
    struct lab_disk disk;
    ssize_t moved = NEXT(pwritev2)(fd, parts, count, at, flags);
    if (!is_ours(moved, fd, &disk)) {
        return moved;
    }
    disk.is_sync = disk.is_sync || flags & (RWF_DSYNC | RWF_SYNC);
    return at == -1 ? lab_move_on(fd, &disk, parts, count, true) : lab_move(&disk, parts, count, at, true);
}

ssize_t preadv64v2(int fd, const struct iovec *parts, int count, off64_t at, int flags) {
    return preadv2(fd, parts, count, at, flags);
}

ssize_t pwritev64v2(int fd, const struct iovec *parts, int count, off64_t at, int flags) {
    return pwritev2(fd, parts, count, at, flags);
}

// The forms that checked builds call, with the room that there is.
ssize_t __read_chk(int fd, void *bytes, size_t length, size_t room);
ssize_t __pread_chk(int fd, void *bytes, size_t length, off_t at, size_t room);
ssize_t __pread64_chk(int fd, void *bytes, size_t length, off64_t at, size_t room);

static void check_room(size_t length, size_t room) {
    if (length > room) {
        abort();
    }
}

ssize_t __read_chk(int fd, void *bytes, size_t length, size_t room) {
    check_room(length, room);
    return read(fd, bytes, length);
}

ssize_t __pread_chk(int fd, void *bytes, size_t length, off_t at, size_t room) {
    check_room(length, room);
    return pread(fd, bytes, length, at);
}

ssize_t __pread64_chk(int fd, void *bytes, size_t length, off64_t at, size_t room) {
    check_room(length, room);
    return pread(fd, bytes, length, at);
}

// These would succeed on the file that represents a device, so they check first.

off_t lseek(int fd, off_t offset, int whence) {
    struct lab_disk disk;
    return lab_disk_of(fd, &disk) ? lab_seek(fd, &disk, offset, whence) : NEXT(lseek)(fd, offset, whence);
}

off64_t lseek64(int fd, off64_t offset, int whence) {
    return lseek(fd, offset, whence);
}

int fsync(int fd) {
    struct lab_disk disk;
    return lab_disk_of(fd, &disk) ? lab_flush(&disk) : NEXT(fsync)(fd);
}

int fdatasync(int fd) {
    struct lab_disk disk;
    return lab_disk_of(fd, &disk) ? lab_flush(&disk) : NEXT(fdatasync)(fd);
}

// The flags of an open device: those that it was opened with, of which O_DIRECT can be set and cleared.
static int control(int fd, int what, void *argument) {
    struct lab_disk disk;
    if ((what == F_GETFL || what == F_SETFL) && lab_disk_of(fd, &disk)) {
        return what == F_GETFL ? lab_flags_of(&disk) : lab_set_flags(fd, &disk, (int)(intptr_t)argument);
    }
    return NEXT(fcntl)(fd, what, argument);
}

#define CONTROLS_AS(name)                                                                                              \
    int name(int fd, int what, ...) {                                                                                  \
        va_list words;                                                                                                 \
        va_start(words, what);                                                                                         \
        void *argument = va_arg(words, void *);                                                                        \
        va_end(words);                                                                                                 \
        return control(fd, what, argument);                                                                            \
    }

CONTROLS_AS(fcntl)
CONTROLS_AS(fcntl64)
