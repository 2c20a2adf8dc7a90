// The control calls of NVMe devices and of block devices, as Linux has them.
#define _GNU_SOURCE
#include "lab.h"

#include <errno.h>
#include <linux/fs.h>
#include <string.h>
#include <sys/ioctl.h>

#define BLOCK_BYTES 512
#define MOST_BYTES (32 * 4096)

// The forms of linux/nvme_ioctl.h, here since older headers lack some of them.
struct user_io {
    uint8_t opcode, flags;
    uint16_t control, nblocks, reserved;
    uint64_t metadata, addr, slba;
    uint32_t dsmgmt, reftag;
    uint16_t apptag, appmask;
};

struct passthru {
    uint8_t opcode, flags;
    uint16_t reserved;
    uint32_t nsid, cdw2, cdw3;
    uint64_t metadata, addr;
    uint32_t metadata_len, data_len;
    uint32_t cdw[6];
    uint32_t timeout_ms;
    // The form with a result of 64 bits does not use this.
    uint32_t result;
};

struct passthru64 {
    struct passthru command;
    uint64_t result;
};

#define CONTROL_ID _IO('N', 0x40)
#define CONTROL_ADMIN _IOWR('N', 0x41, struct passthru)
#define CONTROL_SUBMIT_IO _IOW('N', 0x42, struct user_io)
#define CONTROL_IO _IOWR('N', 0x43, struct passthru)
#define CONTROL_RESET _IO('N', 0x44)
#define CONTROL_RESCAN _IO('N', 0x46)
#define CONTROL_ADMIN64 _IOWR('N', 0x47, struct passthru64)
#define CONTROL_IO64 _IOWR('N', 0x48, struct passthru64)
#define CONTROL_IO64_PARTS _IOWR('N', 0x49, struct passthru64)

_Static_assert(sizeof(struct user_io) == 48, "as linux/nvme_ioctl.h has it");
_Static_assert(sizeof(struct passthru) == 72, "as linux/nvme_ioctl.h has it");
_Static_assert(sizeof(struct passthru64) == 80, "as linux/nvme_ioctl.h has it");

static int refuse(int why) {
    errno = why;
    return -1;
}

// The status of a completion: its type and code, CRD, More and DNR, without the phase tag.
static int status_of(const struct lab_request *request) {
    return (int)(lab_get(request->completion + 14, 2) >> 1);
}

// The entry of a command: its identifier and its data pointer are the server's to set.
static void write_entry(uint8_t entry[64], const struct passthru *command) {
    memset(entry, 0, 64);
    entry[0] = command->opcode;
    entry[1] = command->flags;
    lab_put(entry + 4, command->nsid, 4);
    lab_put(entry + 8, command->cdw2, 4);
    lab_put(entry + 12, command->cdw3, 4);
    for (int i = 0; i < 6; i++) {
        lab_put(entry + 40 + 4 * i, command->cdw[i], 4);
    }
}

// The data: at one address, or in parts, with their count instead of the length.
static int find_data(const struct passthru *command, bool in_parts, struct iovec *one, struct lab_data *data) {
    *one = (struct iovec){.iov_base = (void *)(uintptr_t)command->addr, .iov_len = command->data_len};
    *data = (struct lab_data){.parts = one, .count = 1, .length = command->data_len, .is_mapped = command->addr != 0};
    if (in_parts && command->addr != 0) {
        if (command->data_len > IOV_MAX) {
            return refuse(EINVAL);
        }
        uint64_t length = 0;
        data->parts = (struct iovec *)(uintptr_t)command->addr;
        data->count = (int)command->data_len;
        for (int i = 0; i < data->count; i++) {
            length += data->parts[i].iov_len;
            if (length > MOST_BYTES) {
                return refuse(EINVAL);
            }
        }
        data->length = (uint32_t)length;
    }
    if (data->length > MOST_BYTES) {
        return refuse(EINVAL);
    }
    if (data->length == 0 || !data->is_mapped) {
        data->count = 0;
    }
    data->is_mapped = data->is_mapped && data->length > 0;
    return 0;
}

// Hands a command on; what is at least 0 is the status of its completion.
static int submit(struct lab_request *request, const struct passthru *command, bool in_parts) {
    struct iovec one;
    // No namespace here has metadata.
    if (command->metadata && command->metadata_len) {
        return refuse(EINVAL);
    }
    if (find_data(command, in_parts, &one, &request->data)) {
        return -1;
    }
    write_entry(request->entry, command);
    return lab_ask(request) ? -1 : status_of(request);
}

static int submit32(struct lab_request *request, struct passthru *given) {
    int status = submit(request, given, false);
    if (status >= 0) {
        given->result = (uint32_t)lab_get(request->completion, 4);
    }
    return status;
}

static int submit64(struct lab_request *request, struct passthru64 *given, bool in_parts) {
    int status = submit(request, &given->command, in_parts);
    if (status >= 0) {
        given->result = lab_get(request->completion, 8);
    }
    return status;
}

// Read, Write and Compare in the oldest form, which names blocks and no length.
static int submit_blocks(struct lab_request *request, const struct user_io *given) {
    bool is_known = given->opcode == 0x01 || given->opcode == 0x02 || given->opcode == 0x05;
    if (request->device.nsid == 0) {
        return refuse(ENOTTY);
    }
    if (!is_known) {
        return refuse(EINVAL);
    }
    struct passthru command = {
        .opcode = given->opcode,
        .flags = given->flags,
        .nsid = request->device.nsid,
        .addr = given->addr,
        .data_len = (given->nblocks + 1u) * BLOCK_BYTES,
        .cdw = {(uint32_t)given->slba, (uint32_t)(given->slba >> 32), given->nblocks | (uint32_t)given->control << 16,
                given->dsmgmt, given->reftag, given->apptag | (uint32_t)given->appmask << 16},
    };
    return submit(request, &command, false);
}

// What a block device says of itself.
static int control_block(const struct lab_device *device, unsigned long request, void *argument) {
    switch (request) {
    case BLKGETSIZE64:
        *(uint64_t *)argument = lab_blocks(device) * BLOCK_BYTES;
        return 0;
    case BLKGETSIZE:
        *(unsigned long *)argument = (unsigned long)lab_blocks(device);
        return 0;
    case BLKSSZGET:
    case BLKBSZGET:
        *(int *)argument = BLOCK_BYTES;
        return 0;
    case BLKPBSZGET:
    case BLKIOMIN:
        *(unsigned *)argument = BLOCK_BYTES;
        return 0;
    case BLKROGET:
        *(int *)argument = 0;
        return 0;
    case BLKDISCARD:
    case BLKSECDISCARD:
        return refuse(EOPNOTSUPP);
    default:
        return refuse(ENOTTY);
    }
}

static int control_nvme(struct lab_request *asked, unsigned long request, void *argument) {
    switch (request) {
    case CONTROL_ADMIN:
        asked->is_admin = true;
        return submit32(asked, argument);
    case CONTROL_IO:
        return submit32(asked, argument);
    case CONTROL_ADMIN64:
        asked->is_admin = true;
        return submit64(asked, argument, false);
    case CONTROL_IO64:
        return submit64(asked, argument, false);
    case CONTROL_IO64_PARTS:
        return submit64(asked, argument, true);
    case CONTROL_SUBMIT_IO:
        return submit_blocks(asked, argument);
    default:
        return refuse(ENOTTY);
    }
}

int lab_control(const struct lab_device *device, unsigned long request, void *argument) {
    struct lab_request asked = {.asking = LAB_COMMAND, .device = *device};
    switch (request) {
    case CONTROL_ID:
        return device->nsid ? (int)device->nsid : refuse(ENOTTY);
    case CONTROL_RESET:
        asked.asking = LAB_RESET;
        return device->nsid ? refuse(ENOTTY) : lab_ask(&asked);
    case CONTROL_RESCAN:
        asked.asking = LAB_LOOK;
        return device->nsid ? refuse(ENOTTY) : lab_ask(&asked);
    case BLKFLSBUF:
    case BLKRRPART:
        return device->is_block ? 0 : refuse(ENOTTY);
    }
    if (!argument) {
        return refuse(EFAULT);
    }
    if (_IOC_TYPE(request) == 'N') {
        return control_nvme(&asked, request, argument);
    }
    return device->is_block ? control_block(device, request, argument) : refuse(ENOTTY);
}
