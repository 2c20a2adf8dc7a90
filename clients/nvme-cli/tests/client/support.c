// Checks, rooms with guards, and commands.
#include "client.h"

#include <errno.h>
#include <fcntl.h>
#include <string.h>
#include <sys/ioctl.h>

uint32_t result;
bool has_driver;

int of_raw(int status) {
    return has_driver ? INVALID_FIELD : status;
}

void fail(const char *file, int line, const char *what) {
    fprintf(stderr, "%s:%d: not so: %s (errno %d, %s)\n", file, line, what, errno, strerror(errno));
    exit(1);
}

void check_is(const char *file, int line, const char *what, long long found, long long wanted) {
    if (found != wanted) {
        fprintf(stderr, "%s:%d: %s is %#llx instead of %#llx (errno %d, %s)\n", file, line, what, found, wanted, errno,
                strerror(errno));
        exit(1);
    }
}

void check_fails(const char *file, int line, const char *what, int found, int why) {
    if (found != -1 || errno != why) {
        fprintf(stderr, "%s:%d: %s returns %d with errno %d (%s) instead of -1 with %d (%s)\n", file, line, what, found,
                errno, strerror(errno), why, strerror(why));
        exit(1);
    }
}

int open_device(const char *name) {
    int fd = open(name, O_RDWR);
    if (fd < 0) {
        fail(__FILE__, __LINE__, name);
    }
    return fd;
}

void fill(uint8_t *at, size_t length, unsigned seed) {
    for (size_t i = 0; i < length; i++) {
        seed = seed * 1103515245u + 12345u;
        at[i] = (uint8_t)(seed >> 16);
    }
}

bool is_filled(const uint8_t *at, size_t length, unsigned seed) {
    for (size_t i = 0; i < length; i++) {
        seed = seed * 1103515245u + 12345u;
        if (at[i] != (uint8_t)(seed >> 16)) {
            return false;
        }
    }
    return true;
}

#define GUARD 64

uint8_t *room_at(size_t length, size_t offset) {
    uint8_t *room = NULL;
    if (posix_memalign((void **)&room, PAGE, offset + length + GUARD)) {
        fail(__FILE__, __LINE__, "room");
    }
    memset(room, 0xa5, offset + length + GUARD);
    return room + offset;
}

bool is_guarded(const uint8_t *room, size_t length) {
    for (size_t i = 0; i < GUARD; i++) {
        if (room[length + i] != 0xa5) {
            return false;
        }
    }
    return true;
}

static int submit(int fd, unsigned long control, struct nvme_passthru_cmd *command) {
    int status = ioctl(fd, control, command);
    result = command->result;
    // Bit 14, DNR, is no part of what is compared; no completion here sets it.
    return status;
}

int admin(int fd, uint8_t opcode, uint32_t nsid, uint32_t cdw10, uint32_t cdw11, void *data, uint32_t length) {
    struct nvme_passthru_cmd command = {
        .opcode = opcode, .nsid = nsid, .cdw10 = cdw10, .cdw11 = cdw11, .addr = (uintptr_t)data, .data_len = length,
    };
    return submit(fd, NVME_IOCTL_ADMIN_CMD, &command);
}

int io(int fd, uint8_t opcode, uint32_t nsid, uint32_t cdw10, uint32_t cdw11, uint32_t cdw12, void *data,
       uint32_t length) {
    struct nvme_passthru_cmd command = {
        .opcode = opcode, .nsid = nsid, .cdw10 = cdw10, .cdw11 = cdw11, .cdw12 = cdw12, .addr = (uintptr_t)data,
        .data_len = length,
    };
    return submit(fd, NVME_IOCTL_IO_CMD, &command);
}

int on_blocks(int fd, uint8_t opcode, uint64_t first, uint32_t count, void *data) {
    return io(fd, opcode, 1, (uint32_t)first, (uint32_t)(first >> 32), count - 1, data,
              opcode == ZEROES ? 0 : count * BLOCK);
}
