// Admin commands: Identify, features, queues, and which namespaces are attached to whom.
#include "client.h"

#include <errno.h>
#include <string.h>
#include <sys/ioctl.h>
#include <sys/stat.h>

static uint64_t number_at(const uint8_t *at, int bytes) {
    uint64_t number = 0;
    for (int i = 0; i < bytes; i++) {
        number |= (uint64_t)at[i] << (8 * i);
    }
    return number;
}

static void try_identify(int fd) {
    uint8_t *room = room_at(PAGE, 3);
    CHECK_IS(admin(fd, IDENTIFY, 0, 1, 0, room, PAGE), SUCCESS);
    CHECK(memcmp(room + 4, "NVMESIM             Multi-Host Subsystem  ", 42) == 0);
    CHECK_IS(room[77], 5);
    CHECK_IS(number_at(room + 78, 2), 1);
    // CTRATT: host identifiers of 128 bits.
    CHECK_IS(number_at(room + 96, 4), 1);
    CHECK_IS(admin(fd, IDENTIFY, 1, 0, 0, room, PAGE), SUCCESS);
    CHECK_IS(number_at(room, 8), 2048);
    CHECK_IS(room[31], 0xff);
    CHECK_IS(room[130], 9);
    CHECK_IS(admin(fd, IDENTIFY, 0, 2, 0, room, PAGE), SUCCESS);
    CHECK_IS(number_at(room, 8), 0x0000000200000001);
    CHECK_IS(number_at(room + 8, 4), 0);
    CHECK_IS(admin(fd, IDENTIFY, 0, 3, 0, room, PAGE), INVALID_FIELD);
    CHECK_IS(admin(fd, IDENTIFY, 0, 0, 0, room, PAGE), INVALID_NAMESPACE);
    CHECK(is_guarded(room, PAGE));
    free(room - 3);
}

// The features of a controller, which no request of a driver says.
static void try_controller_features(int fd) {
    uint8_t *room = room_at(PAGE, 0);
    CHECK_IS(admin(fd, GET_FEATURES, 0, 7, 0, NULL, 0), of_raw(SUCCESS));
    CHECK_IS(result, has_driver ? 0 : 0x30003);
    CHECK_IS(admin(fd, SET_FEATURES, 0, 7, 0x30003, NULL, 0), of_raw(SEQUENCE));
    // The identifier has 16 bytes, and that of 8 is not there.
    CHECK_IS(admin(fd, GET_FEATURES, 0, 0x81, 0, room, PAGE), INVALID_FIELD);
    CHECK_IS(admin(fd, GET_FEATURES, 0, 0x81, 1, room, PAGE), of_raw(SUCCESS));
    CHECK_IS(number_at(room, 8), has_driver ? 0xa5a5a5a5a5a5a5a5 : 0xa1);
    CHECK_IS(number_at(room + 8, 8), has_driver ? 0xa5a5a5a5a5a5a5a5 : 0);
    CHECK_IS(room[16], 0xa5);
    CHECK_IS(admin(fd, GET_FEATURES, 0, 0x81, 1, room, 16), of_raw(SUCCESS));
    CHECK_IS(admin(fd, GET_FEATURES, 0, 6, 0, NULL, 0), INVALID_FIELD);
    free(room);
}

static void try_protection(int namespace) {
    uint8_t *room = room_at(PAGE, 0);
    CHECK_IS(admin(namespace, SET_FEATURES, 1, 0x80000084, 1, NULL, 0), of_raw(NOT_SAVEABLE));
    CHECK_IS(admin(namespace, SET_FEATURES, 1, 0x84, 1, NULL, 0), SUCCESS);
    CHECK_IS(admin(namespace, GET_FEATURES, 1, 0x84, 0, NULL, 0), SUCCESS);
    CHECK_IS(result, 1);
    CHECK_IS(on_blocks(namespace, WRITE, 0, 1, room), PROTECTED);
    CHECK_IS(admin(namespace, SET_FEATURES, 1, 0x84, 0, NULL, 0), SUCCESS);
    CHECK_IS(on_blocks(namespace, WRITE, 0, 1, room), SUCCESS);
    CHECK_IS(admin(namespace, SET_FEATURES, 1, 0x84, 7, NULL, 0), INVALID_FIELD);
    CHECK_IS(admin(namespace, GET_FEATURES, 9, 0x84, 0, NULL, 0), INVALID_NAMESPACE);
    free(room);
}

void try_admin(void) {
    int fd = open_device("/dev/nvme0"), namespace = open_device("/dev/nvme0n1");
    try_identify(fd);
    try_controller_features(fd);
    try_protection(namespace);
    CHECK_IS(admin(fd, 0x02, UINT32_MAX, 0, 0, NULL, 0), INVALID_OPCODE);
    CHECK_IS(admin(fd, 0x0d, 1, 0, 0, NULL, 0), INVALID_OPCODE);
    struct nvme_passthru_cmd fused = {.opcode = GET_FEATURES, .flags = 1, .cdw10 = 7};
    CHECK_IS(ioctl(fd, NVME_IOCTL_ADMIN_CMD, &fused), INVALID_FIELD);
#ifdef NVME_IOCTL_ADMIN64_CMD
    struct nvme_passthru_cmd64 wide = {.opcode = GET_FEATURES, .cdw10 = 7, .result = UINT64_MAX};
    CHECK_IS(ioctl(fd, NVME_IOCTL_ADMIN64_CMD, &wide), of_raw(SUCCESS));
    CHECK_IS(wide.result, has_driver ? 0 : 0x30003);
#endif
    CHECK_IS(ioctl(namespace, NVME_IOCTL_ID), 1);
    CHECK_FAILS(ioctl(fd, NVME_IOCTL_ID), ENOTTY);
    CHECK_FAILS(ioctl(fd, NVME_IOCTL_SUBSYS_RESET), ENOTTY);
    CHECK_IS(ioctl(fd, NVME_IOCTL_RESCAN), 0);
}

// More commands than a queue has places, so that both ends of it come round.
static void come_round(int fd) {
    for (int i = 0; i < 200; i++) {
        CHECK_IS(io(fd, FLUSH, 1, 0, 0, 0, NULL, 0), SUCCESS);
    }
}

void try_queues(void) {
    int fd = open_device("/dev/nvme0"), namespace = open_device("/dev/nvme0n1");
    uint8_t *room = room_at(PAGE, 4);
    come_round(namespace);
    CHECK_IS(admin(fd, CREATE_CQ, 0, 0x00070002, 0, NULL, 0), INVALID_FIELD);
    CHECK_IS(admin(fd, CREATE_CQ, 0, 0x00070005, 1, NULL, 0), INVALID_QUEUE);
    CHECK_IS(admin(fd, CREATE_CQ, 0, 0x00070001, 1, NULL, 0), INVALID_QUEUE);
    CHECK_IS(admin(fd, CREATE_SQ, 0, 0x00030002, 0x00020001, NULL, 0), NO_CQ);
    // The place of a queue may be given as data; this one is no page.
    CHECK_IS(admin(fd, CREATE_CQ, 0, 0x00070002, 1, room, PAGE), 0x13);
    CHECK_IS(admin(fd, CREATE_CQ, 0, 0x00070002, 1, NULL, 0), SUCCESS);
    CHECK_IS(admin(fd, CREATE_SQ, 0, 0x00030002, 0x00020001, NULL, 0), SUCCESS);
    CHECK_IS(admin(fd, DELETE_CQ, 0, 2, 0, NULL, 0), INVALID_DELETION);
    come_round(namespace);
    // Without the first pair commands go to the second, whose queues have 4 and 8 places.
    CHECK_IS(admin(fd, DELETE_SQ, 0, 1, 0, NULL, 0), SUCCESS);
    come_round(namespace);
    CHECK_IS(admin(fd, DELETE_SQ, 0, 1, 0, NULL, 0), INVALID_QUEUE);
    CHECK_IS(admin(fd, DELETE_SQ, 0, 2, 0, NULL, 0), SUCCESS);
    CHECK_FAILS(io(namespace, FLUSH, 1, 0, 0, 0, NULL, 0), EIO);
    CHECK_IS(admin(fd, SET_FEATURES, 0, 7, 0x10001, NULL, 0), SEQUENCE);
    CHECK_IS(admin(fd, CREATE_SQ, 0, 0x00010003, 0x00020001, NULL, 0), SUCCESS);
    come_round(namespace);
    CHECK_IS(ioctl(fd, NVME_IOCTL_RESET), 0);
    come_round(namespace);
    CHECK_IS(admin(fd, DELETE_CQ, 0, 2, 0, NULL, 0), INVALID_QUEUE);
    free(room - 4);
}

static int with_list(int fd, uint32_t nsid, uint32_t select, uint16_t cntlid) {
    uint8_t list[PAGE] = {1, 0, (uint8_t)cntlid, (uint8_t)(cntlid >> 8)};
    return admin(fd, ATTACHMENT, nsid, select, 0, list, PAGE);
}

// A device is there as long as its namespace is attached.
void try_attachment(void) {
    struct stat found;
    int fd = open_device("/dev/nvme0"), namespace = open_device("/dev/nvme0n2");
    CHECK_FAILS(stat("/dev/nvme1n2", &found), ENOENT);
    CHECK_IS(with_list(fd, 2, 0, 2), IS_PRIVATE);
    CHECK_IS(with_list(fd, 2, 0, 1), ALREADY_ATTACHED);
    CHECK_IS(with_list(fd, 2, 1, 2), NOT_ATTACHED);
    CHECK_IS(with_list(fd, 2, 1, 1), SUCCESS);
    CHECK_FAILS(stat("/dev/nvme0n2", &found), ENOENT);
    CHECK_FAILS(stat("/sys/class/nvme/nvme0/nvme0n2/size", &found), ENOENT);
    CHECK_FAILS(io(namespace, FLUSH, 2, 0, 0, 0, NULL, 0), ENODEV);
    CHECK_IS(io(fd, FLUSH, 2, 0, 0, 0, NULL, 0), INVALID_FIELD);
    CHECK_IS(with_list(fd, 2, 0, 2), SUCCESS);
    int other = open_device("/dev/nvme1n2");
    CHECK_IS(io(other, FLUSH, 2, 0, 0, 0, NULL, 0), SUCCESS);
    CHECK_IS(with_list(fd, 2, 1, 2), SUCCESS);
    CHECK_IS(with_list(fd, 2, 0, 1), SUCCESS);
    CHECK_IS(stat("/dev/nvme0n2", &found), 0);
    CHECK_IS(io(namespace, FLUSH, 2, 0, 0, 0, NULL, 0), SUCCESS);
}
