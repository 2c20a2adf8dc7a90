// A namespace as a block device: positions, and reads and writes of bytes as Read, Write and Flush. There is no cache:
// each call is executed, or refused, before it returns.
#define _GNU_SOURCE
#include "lab.h"

#include <errno.h>
#include <fcntl.h>
#include <string.h>
#include <unistd.h>

#define BLOCK_BYTES 512u
#define MOST_BYTES (32u * 4096u)

enum { FLUSH = 0x00, WRITE = 0x01, READ = 0x02, WRITE_ZEROES = 0x08 };

// An open device keeps its state in the offset of the file that represents it, which all its descriptors share, in this
// process and in others: the position in bits 31 to 0, the access mode in 33 and 32, and in bits 42 to 36 a mark.
#define POSITION 0xffffffffu
#define ACCESS_AT 32
#define IS_DIRECT (UINT64_C(1) << 34)
#define IS_SYNC (UINT64_C(1) << 35)
#define MARK_AT 36
#define MARK 0x5au

FOUND_ONCE(lseek);
FOUND_ONCE(openat);

static int refuse(int why) {
    errno = why;
    return -1;
}

static int keep(int fd, const struct lab_disk *disk) {
    uint64_t state = (uint64_t)MARK << MARK_AT | (uint64_t)disk->access << ACCESS_AT | disk->position;
    state |= (disk->is_direct ? IS_DIRECT : 0) | (disk->is_sync ? IS_SYNC : 0);
    return NEXT(lseek)(fd, (off_t)state, SEEK_SET) < 0 ? -1 : 0;
}

// Opens the file that represents a namespace so that it can itself be neither read nor written: a call that is not one
// of those that are made here fails, and never reaches that file.
int lab_open_disk(const char *place, int flags) {
    struct lab_disk disk = {
        .access = flags & O_ACCMODE, .is_direct = flags & O_DIRECT, .is_sync = (flags & (O_SYNC | O_DSYNC)) != 0};
    int fd = NEXT(openat)(AT_FDCWD, place, O_ACCMODE | (flags & O_CLOEXEC));
    if (fd >= 0 && keep(fd, &disk)) {
        int why = errno;
        close(fd);
        return refuse(why);
    }
    return fd;
}

// Whether a descriptor is one of our block devices, and its state.
bool lab_disk_of(int fd, struct lab_disk *disk) {
    int kept = errno;
    off_t state = NEXT(lseek)(fd, 0, SEEK_CUR);
    errno = kept;
    if (state < 0 || (uint64_t)state >> MARK_AT != MARK || !lab_opened(fd, &disk->device) || !disk->device.is_block) {
        return false;
    }
    disk->position = (uint64_t)state & POSITION;
    disk->access = (int)((uint64_t)state >> ACCESS_AT & O_ACCMODE);
    disk->is_direct = (uint64_t)state & IS_DIRECT;
    disk->is_sync = (uint64_t)state & IS_SYNC;
    disk->size = lab_blocks(&disk->device) * BLOCK_BYTES;
    return true;
}

int lab_flags_of(const struct lab_disk *disk) {
    return disk->access | (disk->is_direct ? O_DIRECT : 0) | (disk->is_sync ? O_SYNC : 0);
}

int lab_set_flags(int fd, struct lab_disk *disk, int flags) {
    disk->is_direct = flags & O_DIRECT;
    return keep(fd, disk);
}

off_t lab_seek(int fd, struct lab_disk *disk, off_t offset, int whence) {
    off_t from = whence == SEEK_CUR ? (off_t)disk->position : whence == SEEK_END ? (off_t)disk->size : 0;
    off_t to;
    if (whence != SEEK_SET && whence != SEEK_CUR && whence != SEEK_END) {
        return refuse(EINVAL);
    }
    if (__builtin_add_overflow(from, offset, &to) || to < 0 || (uint64_t)to > disk->size) {
        return refuse(EINVAL);
    }
    disk->position = (uint64_t)to;
    return keep(fd, disk) ? -1 : to;
}

// What Linux makes of a status that is not success.
static int error_of(unsigned status) {
    switch (status) {
    case 0x001:
    case 0x002:
    case 0x00b:
        return EOPNOTSUPP;
    case 0x020:
        return EPERM;
    case 0x080:
        return EREMOTEIO;
    case 0x083:
        return EBADE;
    case 0x280:
    case 0x281:
        return ENODATA;
    default:
        return EIO;
    }
}

// Executes a command on `blocks` blocks, with data at an address if there are any.
static int command(const struct lab_disk *disk, uint8_t opcode, uint64_t first, uint32_t blocks, void *data) {
    struct iovec part = {.iov_base = data, .iov_len = blocks * (size_t)BLOCK_BYTES};
    struct lab_request request = {.asking = LAB_COMMAND, .device = disk->device};
    request.entry[0] = opcode;
    lab_put(request.entry + 4, disk->device.nsid, 4);
    if (blocks) {
        lab_put(request.entry + 40, first, 8);
        lab_put(request.entry + 48, blocks - 1, 2);
    }
    if (data) {
        request.data = (struct lab_data){.parts = &part, .count = 1, .length = blocks * BLOCK_BYTES, .is_mapped = true};
    }
    if (lab_ask(&request)) {
        return -1;
    }
    unsigned status = (unsigned)(lab_get(request.completion + 14, 2) >> 1) & 0x7ff;
    return status ? refuse(error_of(status)) : 0;
}

int lab_flush(const struct lab_disk *disk) {
    return command(disk, FLUSH, 0, 0, NULL);
}

// Zeros from a byte on, both whole blocks.
int lab_zero(const struct lab_disk *disk, uint64_t at, uint64_t length) {
    if (disk->access == O_RDONLY) {
        return refuse(EBADF);
    }
    if ((at | length) % BLOCK_BYTES || at > disk->size || length > disk->size - at) {
        return refuse(EINVAL);
    }
    for (uint64_t blocks = length / BLOCK_BYTES, first = at / BLOCK_BYTES; blocks;) {
        uint32_t now = blocks < 65536 ? (uint32_t)blocks : 65536;
        if (command(disk, WRITE_ZEROES, first, now, NULL)) {
            return -1;
        }
        first += now;
        blocks -= now;
    }
    return 0;
}

// A part of one block: what is written goes into the block as it was read.
static int move_part(const struct lab_disk *disk, uint64_t at, uint8_t *bytes, size_t length, bool writes) {
    uint8_t block[BLOCK_BYTES];
    if (command(disk, READ, at / BLOCK_BYTES, 1, block)) {
        return -1;
    }
    if (!writes) {
        memcpy(bytes, block + at % BLOCK_BYTES, length);
        return 0;
    }
    memcpy(block + at % BLOCK_BYTES, bytes, length);
    return command(disk, WRITE, at / BLOCK_BYTES, 1, block);
}

// The number of bytes that can be moved; -1 if there are some, but none can be moved.
static ssize_t move(const struct lab_disk *disk, uint64_t at, uint8_t *bytes, size_t length, bool writes) {
    size_t done = 0;
    while (done < length) {
        size_t rest = length - done, in_block = (at + done) % BLOCK_BYTES, now;
        int failed;
        if (in_block == 0 && rest >= BLOCK_BYTES) {
            now = rest < MOST_BYTES ? rest - rest % BLOCK_BYTES : MOST_BYTES;
            failed = command(disk, writes ? WRITE : READ, (at + done) / BLOCK_BYTES, (uint32_t)(now / BLOCK_BYTES),
                             bytes + done);
        } else {
            now = rest < BLOCK_BYTES - in_block ? rest : BLOCK_BYTES - in_block;
            failed = move_part(disk, at + done, bytes + done, now, writes);
        }
        if (failed) {
            return done ? (ssize_t)done : -1;
        }
        done += now;
    }
    return (ssize_t)done;
}

static bool is_whole(const struct iovec *parts, int count, uint64_t at) {
    for (int i = 0; i < count; i++) {
        if (parts[i].iov_len % BLOCK_BYTES) {
            return false;
        }
    }
    return at % BLOCK_BYTES == 0;
}

ssize_t lab_move(const struct lab_disk *disk, const struct iovec *parts, int count, off_t offset, bool writes) {
    uint64_t at = (uint64_t)offset;
    ssize_t done = 0;
    if (disk->access == (writes ? O_RDONLY : O_WRONLY)) {
        return refuse(EBADF);
    }
    if (offset < 0 || count < 0 || count > IOV_MAX || (disk->is_direct && !is_whole(parts, count, at))) {
        return refuse(EINVAL);
    }
    for (int i = 0; i < count; i++) {
        size_t room = at < disk->size ? (size_t)(disk->size - at) : 0;
        size_t length = parts[i].iov_len < room ? parts[i].iov_len : room;
        if (length == 0 && parts[i].iov_len) {
            return writes && !done ? refuse(ENOSPC) : done;
        }
        ssize_t moved = move(disk, at, parts[i].iov_base, length, writes);
        if (moved < 0) {
            return done ? done : -1;
        }
        at += (uint64_t)moved;
        done += moved;
        if ((size_t)moved < parts[i].iov_len) {
            break;
        }
    }
    return writes && done && disk->is_sync && lab_flush(disk) ? -1 : done;
}

// The same from the position on, which moves.
ssize_t lab_move_on(int fd, struct lab_disk *disk, const struct iovec *parts, int count, bool writes) {
    ssize_t done = lab_move(disk, parts, count, (off_t)disk->position, writes);
    if (done > 0) {
        disk->position += (uint64_t)done;
        if (keep(fd, disk)) {
            return -1;
        }
    }
    return done;
}
