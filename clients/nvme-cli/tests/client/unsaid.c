// Commands that no request of a driver expresses: other opcodes, other fields, data that are too short. They change
// nothing. And fields that every controller ignores.
#include "client.h"

#include <string.h>
#include <sys/ioctl.h>

static bool is_among(int opcode, const uint8_t *known, size_t count) {
    return memchr(known, opcode, count) != NULL;
}

// All opcodes without a request, on both queues.
static void other_opcodes(int fd, int namespace) {
    static const uint8_t admins[] = {IDENTIFY, SET_FEATURES, GET_FEATURES, ATTACHMENT};
    static const uint8_t ios[] = {FLUSH, WRITE, READ, COMPARE, ZEROES, REGISTER, REPORT, ACQUIRE, RELEASE};
    for (int opcode = 0; opcode < 256; opcode++) {
        if (!is_among(opcode, admins, sizeof admins)) {
            CHECK_IS(admin(fd, (uint8_t)opcode, 0, 0x00070002, 1, NULL, 0), INVALID_OPCODE);
        }
        if (!is_among(opcode, ios, sizeof ios)) {
            CHECK_IS(io(namespace, (uint8_t)opcode, 1, 0, 0, 0, NULL, 0), INVALID_OPCODE);
        }
    }
}

static int with_flags(int namespace, uint8_t flags) {
    struct nvme_passthru_cmd command = {.opcode = FLUSH, .flags = flags, .nsid = 1};
    return ioctl(namespace, NVME_IOCTL_IO_CMD, &command);
}

static void other_fields(int fd, int namespace) {
    uint8_t room[2 * PAGE] = {0};
    for (int bit = 0; bit < 8; bit++) {
        bool is_looked_at = bit < 2 || bit > 5;
        CHECK_IS(with_flags(namespace, (uint8_t)(1 << bit)), is_looked_at ? INVALID_FIELD : SUCCESS);
    }
    CHECK_IS(io(namespace, ACQUIRE, 1, 1 << 8 | 1 << 3, 0, 0, room, 16), INVALID_FIELD);
    CHECK_IS(io(namespace, RELEASE, 1, 1 << 8 | 1 << 3, 0, 0, room, 8), INVALID_FIELD);
    CHECK_IS(io(namespace, REPORT, 1, 1023, 0, 0, room, PAGE), INVALID_FIELD);
    CHECK_IS(io(namespace, REPORT, 1, UINT32_MAX, 1, 0, room, PAGE), INVALID_FIELD);
    CHECK_IS(admin(fd, ATTACHMENT, 1, 2, 0, room, PAGE), INVALID_FIELD);
    room[1] = 8;
    CHECK_IS(admin(fd, ATTACHMENT, 1, 0, 0, room, PAGE), INVALID_FIELD);
    for (unsigned feature = 0; feature < 256; feature++) {
        if (feature != 0x84) {
            CHECK_IS(admin(fd, GET_FEATURES, 1, feature, 0, room, PAGE), INVALID_FIELD);
            CHECK_IS(admin(fd, SET_FEATURES, 1, feature, 0, NULL, 0), INVALID_FIELD);
        }
    }
}

// Data reach to the end of their last page. A command that needs more is refused instead of padded.
static void short_data(int fd, int namespace) {
    uint8_t *room = room_at(2 * PAGE, 0);
    fill(room, 2 * PAGE, 3);
    CHECK_IS(on_blocks(namespace, WRITE, 0, 16, room), SUCCESS);
    CHECK_IS(io(namespace, WRITE, 1, 0, 0, 8, room, PAGE), DATA_TRANSFER);
    CHECK_IS(io(namespace, COMPARE, 1, 0, 0, 8, room, PAGE), DATA_TRANSFER);
    CHECK_IS(io(namespace, REGISTER, 1, 0, 0, 0, NULL, 0), DATA_TRANSFER);
    CHECK_IS(io(namespace, REGISTER, 1, 0, 0, 0, room + PAGE - 8, 8), DATA_TRANSFER);
    CHECK_IS(io(namespace, REPORT, 1, 1024, 1, 0, room, PAGE), DATA_TRANSFER);
    CHECK_IS(admin(fd, IDENTIFY, 0, 1, 0, room + 4, 512), DATA_TRANSFER);
    CHECK_IS(admin(fd, ATTACHMENT, 1, 0, 0, NULL, PAGE), DATA_TRANSFER);
    CHECK(is_filled(room, 2 * PAGE, 3));
    CHECK_IS(on_blocks(namespace, COMPARE, 0, 16, room), SUCCESS);
    // Short data are padded with zeros.
    CHECK_IS(io(namespace, WRITE, 1, 0, 0, 7, room, BLOCK), SUCCESS);
    memset(room + BLOCK, 0, PAGE - BLOCK);
    CHECK_IS(on_blocks(namespace, COMPARE, 0, 16, room), SUCCESS);
    free(room);
}

void try_unsaid(void) {
    uint8_t before[PAGE], after[PAGE];
    int fd = open_device("/dev/nvme0"), namespace = open_device("/dev/nvme0n1");
    CHECK_IS(io(namespace, REPORT, 1, PAGE / 4 - 1, 1, 0, before, PAGE), SUCCESS);
    other_opcodes(fd, namespace);
    other_fields(fd, namespace);
    short_data(fd, namespace);
    CHECK_IS(io(namespace, REPORT, 1, PAGE / 4 - 1, 1, 0, after, PAGE), SUCCESS);
    CHECK(memcmp(before, after, PAGE) == 0);
    CHECK_IS(ioctl(fd, NVME_IOCTL_RESET), 0);
    CHECK_IS(io(namespace, FLUSH, 1, 0, 0, 0, NULL, 0), SUCCESS);
}

// Fields that controllers ignore may have any value: nvme-cli sets CNTID of Identify to FFFFh.
void try_unread(void) {
    uint8_t *room = room_at(PAGE, 0);
    int fd = open_device("/dev/nvme0"), namespace = open_device("/dev/nvme0n1");
    CHECK_IS(admin(fd, IDENTIFY, 0, 0xffff0001, 0x0000ffff, room, PAGE), SUCCESS);
    CHECK_IS(admin(namespace, GET_FEATURES, 1, 0x0784, 0, NULL, 0), SUCCESS);
    CHECK_IS(io(namespace, READ, 1, 0, 0, 0xffff0000, room, BLOCK), SUCCESS);
    CHECK_IS(io(namespace, ZEROES, 1, 0, 0, 0x02000000, NULL, 0), SUCCESS);
    CHECK_IS(io(namespace, REPORT, 1, 1023, 0xffff, 0, room, PAGE), SUCCESS);
    free(room);
}
