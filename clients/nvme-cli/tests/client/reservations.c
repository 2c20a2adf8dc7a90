// Two hosts and a reservation: who may write, before and after a preemption.
#include "client.h"

#include <string.h>

#define HEADER 64

static uint64_t number_at(const uint8_t *at, int bytes) {
    uint64_t number = 0;
    for (int i = 0; i < bytes; i++) {
        number |= (uint64_t)at[i] << (8 * i);
    }
    return number;
}

static int with_keys(int fd, uint8_t opcode, uint32_t cdw10, uint64_t first, uint64_t second) {
    uint8_t keys[16];
    for (int i = 0; i < 8; i++) {
        keys[i] = (uint8_t)(first >> (8 * i));
        keys[8 + i] = (uint8_t)(second >> (8 * i));
    }
    return io(fd, opcode, 1, cdw10, 0, 0, keys, opcode == RELEASE ? 8 : 16);
}

void try_reservations(void) {
    int a = open_device("/dev/nvme0n1"), b = open_device("/dev/nvme1n1");
    uint8_t block[BLOCK], seen[BLOCK], report[PAGE];
    memset(block, 0x5a, sizeof block);
    CHECK_IS(io(a, REPORT, 1, PAGE / 4 - 1, 1, 0, report, PAGE), SUCCESS);
    uint64_t generation = number_at(report, 4);
    CHECK_IS(number_at(report + 4, 3), 0);
    CHECK_IS(with_keys(a, ACQUIRE, 1 << 8, 0xa, 0), CONFLICT);
    CHECK_IS(with_keys(a, REGISTER, 0, 0, 0xa), SUCCESS);
    CHECK_IS(with_keys(b, REGISTER, 0, 0, 0xb), SUCCESS);
    CHECK_IS(with_keys(a, ACQUIRE, 1 << 8, 0xa, 0), SUCCESS);
    CHECK_IS(on_blocks(a, WRITE, 7, 1, block), SUCCESS);
    CHECK_IS(on_blocks(b, WRITE, 7, 1, block), CONFLICT);
    CHECK_IS(on_blocks(b, READ, 7, 1, seen), SUCCESS);
    CHECK(memcmp(block, seen, BLOCK) == 0);
    // The second host preempts the first.
    CHECK_IS(with_keys(b, ACQUIRE, 1 << 8 | 1, 0xb, 0xa), SUCCESS);
    memset(block, 0xc3, sizeof block);
    CHECK_IS(on_blocks(a, WRITE, 7, 1, block), CONFLICT);
    CHECK_IS(io(a, FLUSH, 1, 0, 0, 0, NULL, 0), CONFLICT);
    CHECK_IS(on_blocks(b, COMPARE, 7, 1, seen), SUCCESS);
    // The extended data structure: a header of 64 bytes, and an entry of 64 for the second host's controller.
    CHECK_IS(io(a, REPORT, 1, PAGE / 4 - 1, 1, 0, report, PAGE), SUCCESS);
    CHECK_IS(number_at(report, 4), generation + 3);
    CHECK_IS(report[4], 1);
    CHECK_IS(number_at(report + 5, 2), 1);
    CHECK_IS(number_at(report + HEADER, 2), 2);
    CHECK_IS(report[HEADER + 2], 1);
    CHECK_IS(number_at(report + HEADER + 8, 8), 0xb);
    CHECK_IS(number_at(report + HEADER + 16, 8), 0xb2);
    CHECK_IS(number_at(report + HEADER + 24, 8), 0);
    CHECK_IS(io(a, REPORT, 1, PAGE / 4 - 1, 0, 0, report, PAGE), of_raw(INCONSISTENT_FORMAT));
    CHECK_IS(with_keys(b, RELEASE, 2 << 8, 0xb, 0), INVALID_FIELD);
    CHECK_IS(with_keys(b, RELEASE, 1 << 8, 0xb, 0), SUCCESS);
    CHECK_IS(on_blocks(a, WRITE, 7, 1, block), SUCCESS);
    CHECK_IS(with_keys(b, REGISTER, 1, 0xb, 0), SUCCESS);
}
