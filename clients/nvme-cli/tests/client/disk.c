// A namespace as a block device: positions, bytes and blocks, flags, the end, and a command that fails.
#define _GNU_SOURCE
#include "client.h"

#include <errno.h>
#include <fcntl.h>
#include <linux/fs.h>
#include <string.h>
#include <sys/ioctl.h>
#include <sys/mman.h>
#include <sys/sendfile.h>
#include <sys/uio.h>
#include <sys/wait.h>
#include <unistd.h>

#define DISK "/dev/nvme0n1"
#define DISK_BYTES (2048 * BLOCK)

static int opened(const char *name, int flags) {
    int fd = open(name, flags);
    CHECK(fd >= 0);
    return fd;
}

static void try_positions(void) {
    int fd = opened(DISK, O_RDWR);
    uint8_t *out = room_at(8 * BLOCK, 0), *in = room_at(8 * BLOCK, 0);
    fill(out, 8 * BLOCK, 5);
    CHECK_IS(lseek(fd, 0, SEEK_CUR), 0);
    CHECK_IS(lseek(fd, 0, SEEK_END), DISK_BYTES);
    CHECK_IS(lseek(fd, -(off_t)BLOCK, SEEK_CUR), DISK_BYTES - BLOCK);
    CHECK_FAILS((int)lseek(fd, 2 * BLOCK, SEEK_CUR), EINVAL);
    CHECK_FAILS((int)lseek(fd, -1, SEEK_SET), EINVAL);
    CHECK_FAILS((int)lseek(fd, 0, SEEK_DATA), EINVAL);
    CHECK_IS(lseek(fd, 4 * BLOCK, SEEK_SET), 4 * BLOCK);
    CHECK_IS(write(fd, out, 8 * BLOCK), 8 * BLOCK);
    CHECK_IS(lseek(fd, 0, SEEK_CUR), 12 * BLOCK);
    CHECK_IS(pread(fd, in, 8 * BLOCK, 4 * BLOCK), 8 * BLOCK);
    CHECK(is_filled(in, 8 * BLOCK, 5));
    CHECK_IS(lseek(fd, 0, SEEK_CUR), 12 * BLOCK);
    // Each descriptor of an open device has the one position, in a child too.
    int copy = dup(fd);
    CHECK_IS(lseek(copy, 5 * BLOCK, SEEK_SET), 5 * BLOCK);
    pid_t child = fork();
    if (child == 0) {
        _exit(read(fd, in, BLOCK) == BLOCK && memcmp(in, out + BLOCK, BLOCK) == 0 ? 0 : 1);
    }
    int status;
    CHECK(waitpid(child, &status, 0) == child);
    CHECK_IS(status, 0);
    CHECK_IS(lseek(fd, 0, SEEK_CUR), 6 * BLOCK);
    CHECK_IS(fsync(fd), 0);
    CHECK_IS(fdatasync(copy), 0);
    CHECK(is_guarded(in, 8 * BLOCK));
    close(copy);
    close(fd);
    free(out);
    free(in);
}

// Any bytes can be moved: a part of a block goes into the block as it was.
static void try_bytes(void) {
    int fd = opened(DISK, O_RDWR);
    uint8_t *whole = room_at(6 * BLOCK, 0), *in = room_at(6 * BLOCK, 3);
    fill(whole, 6 * BLOCK, 9);
    CHECK_IS(pwrite(fd, whole, 6 * BLOCK, 40 * BLOCK), 6 * BLOCK);
    static const size_t cases[][2] = {{0, 1}, {511, 2}, {1, 510}, {100, 1024}, {512, 513}, {1023, 2049}, {7, 3000}};
    for (size_t i = 0; i < sizeof cases / sizeof *cases; i++) {
        size_t at = cases[i][0], length = cases[i][1];
        fill(whole + at, length, 20 + (unsigned)i);
        CHECK_IS(pwrite(fd, whole + at, length, (off_t)(40 * BLOCK + at)), (long long)length);
        CHECK_IS(pread(fd, in, 6 * BLOCK, 40 * BLOCK), 6 * BLOCK);
        CHECK(memcmp(in, whole, 6 * BLOCK) == 0);
        memset(in, 0, 6 * BLOCK);
        CHECK_IS(pread(fd, in, length, (off_t)(40 * BLOCK + at)), (long long)length);
        CHECK(memcmp(in, whole + at, length) == 0);
    }
    // More than a command has, and in several parts.
    uint8_t *large = room_at(3 * MOST, 0), *back = room_at(3 * MOST, 8);
    fill(large, 3 * MOST, 3);
    CHECK_IS(pwrite(fd, large, 3 * MOST, 256 * BLOCK), 3 * MOST);
    CHECK_IS(pread(fd, back, 3 * MOST, 256 * BLOCK), 3 * MOST);
    CHECK(is_filled(back, 3 * MOST, 3) && is_guarded(back, 3 * MOST));
    struct iovec out[] = {{whole, 700}, {whole + 700, 0}, {whole + 700, 6 * BLOCK - 700}};
    struct iovec parts[] = {{in, 1}, {in + 1, 6 * BLOCK - 1}};
    CHECK_IS(pwritev(fd, out, 3, 60 * BLOCK), 6 * BLOCK);
    CHECK_IS(preadv(fd, parts, 2, 60 * BLOCK), 6 * BLOCK);
    CHECK(memcmp(in, whole, 6 * BLOCK) == 0);
    CHECK_IS(lseek(fd, 60 * BLOCK, SEEK_SET), 60 * BLOCK);
    CHECK_IS(readv(fd, parts, 2), 6 * BLOCK);
    CHECK_IS(writev(fd, out, 1), 700);
    CHECK_IS(preadv2(fd, parts, 2, -1, 0), 6 * BLOCK);
    CHECK_IS(pwritev2(fd, out, 1, 60 * BLOCK, RWF_DSYNC), 700);
    CHECK_IS(lseek(fd, 0, SEEK_CUR), 72 * BLOCK + 700);
    close(fd);
    free(whole);
    free(in - 3);
    free(large);
    free(back - 8);
}

static void try_flags(void) {
    uint8_t *in = room_at(2 * BLOCK, 0);
    int fd = opened(DISK, O_RDONLY | O_DIRECT | O_CLOEXEC);
    CHECK_IS(fcntl(fd, F_GETFL) & (O_ACCMODE | O_DIRECT), O_RDONLY | O_DIRECT);
    CHECK(fcntl(fd, F_GETFD) & FD_CLOEXEC);
    CHECK_IS(pread(fd, in, BLOCK, BLOCK), BLOCK);
    CHECK_FAILS((int)pread(fd, in, BLOCK, 1), EINVAL);
    CHECK_FAILS((int)pread(fd, in, BLOCK - 1, 0), EINVAL);
    CHECK_FAILS((int)write(fd, in, BLOCK), EBADF);
    CHECK_IS(fcntl(fd, F_SETFL, 0), 0);
    CHECK_IS(fcntl(fd, F_GETFL) & (O_ACCMODE | O_DIRECT), O_RDONLY);
    CHECK_IS(pread(fd, in, 3, 1), 3);
    close(fd);
    fd = opened(DISK, O_WRONLY | O_CREAT | O_TRUNC | O_EXCL | O_SYNC);
    CHECK_IS(fcntl(fd, F_GETFL) & O_ACCMODE, O_WRONLY);
    CHECK_FAILS((int)read(fd, in, BLOCK), EBADF);
    CHECK_IS(pwrite(fd, in, BLOCK, 0), BLOCK);
    int made = creat(DISK, 0600);
    CHECK(made >= 0);
    CHECK_IS(pwrite(made, in, BLOCK, 0), BLOCK);
    close(made);
    CHECK_FAILS(creat("/dev/nvme0n8", 0600), ENOENT);
    // What is not made here reaches nothing.
    CHECK_FAILS(ftruncate(fd, 0), EINVAL);
    CHECK(mmap(NULL, PAGE, PROT_READ, MAP_SHARED, fd, 0) == MAP_FAILED && errno == EACCES);
    CHECK_FAILS((int)sendfile(fd, fd, NULL, BLOCK), EBADF);
    close(fd);
    CHECK_FAILS((int)read(fd, in, BLOCK), EBADF);
    free(in);
}

static void try_end(void) {
    int fd = opened(DISK, O_RDWR);
    uint8_t *bytes = room_at(4 * BLOCK, 0);
    CHECK_IS(pread(fd, bytes, 4 * BLOCK, DISK_BYTES - BLOCK - 3), BLOCK + 3);
    CHECK_IS(pread(fd, bytes, BLOCK, DISK_BYTES), 0);
    CHECK_IS(pread(fd, bytes, BLOCK, DISK_BYTES + 77), 0);
    CHECK_IS(pwrite(fd, bytes, 4 * BLOCK, DISK_BYTES - BLOCK), BLOCK);
    CHECK_FAILS((int)pwrite(fd, bytes, BLOCK, DISK_BYTES), ENOSPC);
    CHECK_IS(pwrite(fd, bytes, 0, DISK_BYTES), 0);
    CHECK_FAILS((int)pread(fd, bytes, BLOCK, -1), EINVAL);
    uint8_t *volatile nowhere = (uint8_t *)(uintptr_t)PAGE;
    CHECK_FAILS((int)pwrite(fd, nowhere, BLOCK, 0), EFAULT);
    CHECK_FAILS((int)pread(fd, nowhere, BLOCK, 0), EFAULT);
    uint64_t range[2] = {8 * BLOCK, 2 * BLOCK}, odd[2] = {8 * BLOCK, 3}, past[2] = {DISK_BYTES, BLOCK};
    fill(bytes, 4 * BLOCK, 1);
    CHECK_IS(pwrite(fd, bytes, 4 * BLOCK, 7 * BLOCK), 4 * BLOCK);
    CHECK_IS(ioctl(fd, BLKZEROOUT, range), 0);
    memset(bytes + BLOCK, 0, 2 * BLOCK);
    uint8_t *in = room_at(4 * BLOCK, 0);
    CHECK_IS(pread(fd, in, 4 * BLOCK, 7 * BLOCK), 4 * BLOCK);
    CHECK(memcmp(in, bytes, 4 * BLOCK) == 0);
    CHECK_FAILS(ioctl(fd, BLKZEROOUT, odd), EINVAL);
    CHECK_FAILS(ioctl(fd, BLKZEROOUT, past), EINVAL);
    int reader = opened(DISK, O_RDONLY);
    CHECK_FAILS(ioctl(reader, BLKZEROOUT, range), EBADF);
    close(reader);
    close(fd);
    free(bytes);
    free(in);
}

// A status becomes the error number that Linux has for it.
static void try_refusals(void) {
    int fd = opened(DISK, O_RDWR), other = opened("/dev/nvme1n1", O_RDWR), controller = open_device("/dev/nvme0");
    uint8_t *block = room_at(BLOCK, 0);
    uint64_t keys[2] = {0, 7};
    CHECK_IS(io(fd, REGISTER, 1, 0, 0, 0, keys, 16), SUCCESS);
    keys[0] = 7;
    CHECK_IS(io(fd, ACQUIRE, 1, 1 << 8, 0, 0, keys, 16), SUCCESS);
    CHECK_IS(pwrite(fd, block, BLOCK, 0), BLOCK);
    CHECK_FAILS((int)pwrite(other, block, BLOCK, 0), EBADE);
    CHECK_FAILS((int)pwrite(other, block, 1, 0), EBADE);
    CHECK_FAILS(fsync(other), EBADE);
    CHECK_IS(pread(other, block, BLOCK, 0), BLOCK);
    CHECK_IS(io(fd, REGISTER, 1, 1, 0, 0, keys, 16), SUCCESS);
    CHECK_IS(pwrite(other, block, BLOCK, 0), BLOCK);
    CHECK_IS(admin(controller, SET_FEATURES, 1, 0x84, 1, NULL, 0), SUCCESS);
    CHECK_FAILS((int)pwrite(fd, block, BLOCK, 0), EPERM);
    CHECK_IS(admin(controller, SET_FEATURES, 1, 0x84, 0, NULL, 0), SUCCESS);
    close(fd);
    close(other);
    close(controller);
    free(block);
}

void try_disk(void) {
    try_positions();
    try_bytes();
    try_flags();
    try_end();
    try_refusals();
}
