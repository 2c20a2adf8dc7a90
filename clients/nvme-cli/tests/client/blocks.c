// Commands on blocks: all lengths, all places of a buffer in its page, all forms of the control calls.
#include "client.h"

#include <errno.h>
#include <string.h>
#include <sys/ioctl.h>
#include <sys/mman.h>
#include <sys/uio.h>

static const uint32_t lengths[] = {512, 1024, 3584, 4096, 4608, 8192, 8704, 12288, 65536, 130560, 131072};
static const size_t offsets[] = {0, 4, 512, 2052, 4092, 1, 511, 4095};

static void round_trip(int fd, uint32_t length, size_t offset, unsigned seed) {
    uint8_t *out = room_at(length, offset), *in = room_at(length, (offset * 7) % PAGE);
    uint32_t count = length / BLOCK;
    uint64_t first = seed % 5;
    fill(out, length, seed);
    CHECK_IS(on_blocks(fd, WRITE, first, count, out), SUCCESS);
    CHECK(is_filled(out, length, seed));
    CHECK_IS(on_blocks(fd, READ, first, count, in), SUCCESS);
    CHECK(is_filled(in, length, seed));
    CHECK(is_guarded(in, length));
    CHECK_IS(on_blocks(fd, COMPARE, first, count, in), SUCCESS);
    in[length - 1] ^= 1;
    CHECK_IS(on_blocks(fd, COMPARE, first, count, in), MISCOMPARE);
    free(out - offset);
    free(in - (offset * 7) % PAGE);
}

// The form that names blocks, and the forms with results of 64 bits, at one address and in parts.
static void other_forms(int fd) {
    uint8_t *out = room_at(MOST, 0), *in = room_at(MOST, 0);
    fill(out, MOST, 77);
    struct nvme_user_io by_blocks = {.opcode = WRITE, .nblocks = 8, .addr = (uintptr_t)out, .slba = 3};
    CHECK_IS(ioctl(fd, NVME_IOCTL_SUBMIT_IO, &by_blocks), SUCCESS);
    by_blocks.opcode = READ;
    by_blocks.addr = (uintptr_t)in;
    CHECK_IS(ioctl(fd, NVME_IOCTL_SUBMIT_IO, &by_blocks), SUCCESS);
    CHECK(is_filled(in, 9 * BLOCK, 77));
    CHECK_IS(in[9 * BLOCK], 0xa5);
    by_blocks.opcode = ZEROES;
    CHECK_FAILS(ioctl(fd, NVME_IOCTL_SUBMIT_IO, &by_blocks), EINVAL);
#ifdef NVME_IOCTL_IO64_CMD
    struct nvme_passthru_cmd64 wide = {
        .opcode = READ, .nsid = 1, .cdw10 = 3, .cdw12 = 8, .addr = (uintptr_t)in, .data_len = 9 * BLOCK,
        .result = 0x1122334455667788};
    memset(in, 0xa5, MOST);
    CHECK_IS(ioctl(fd, NVME_IOCTL_IO64_CMD, &wide), SUCCESS);
    CHECK(is_filled(in, 9 * BLOCK, 77));
    CHECK_IS(wide.result, 0);
#endif
#ifdef NVME_IOCTL_IO64_CMD_VEC
    memset(in, 0xa5, MOST);
    struct iovec parts[3] = {{in + 8192, 100}, {NULL, 0}, {in, 9 * BLOCK - 100}};
    wide.addr = (uintptr_t)parts;
    wide.vec_cnt = 3;
    CHECK_IS(ioctl(fd, NVME_IOCTL_IO64_CMD_VEC, &wide), SUCCESS);
    memmove(in + 8292, in, 9 * BLOCK - 100);
    CHECK(is_filled(in + 8192, 9 * BLOCK, 77));
#endif
    free(out);
    free(in);
}

// A failed command leaves the buffer unchanged.
static void failures(int fd) {
    uint8_t *room = room_at(MOST, 0);
    CHECK_IS(on_blocks(fd, READ, 1 << 20, 1, room), OUT_OF_RANGE);
    CHECK_IS(on_blocks(fd, WRITE, UINT64_MAX, 1, room), OUT_OF_RANGE);
    CHECK_IS(on_blocks(fd, ZEROES, 0, 65536, NULL), OUT_OF_RANGE);
    CHECK_IS(io(fd, READ, 1, 0, 0, 256, room, MOST), INVALID_FIELD);
    CHECK_IS(io(fd, READ, 0, 0, 0, 0, room, BLOCK), INVALID_NAMESPACE);
    CHECK_IS(io(fd, READ, 5, 0, 0, 0, room, BLOCK), INVALID_FIELD);
    CHECK_IS(io(fd, FLUSH, UINT32_MAX, 0, 0, 0, NULL, 0), INVALID_NAMESPACE);
    CHECK_IS(io(fd, 0x7f, 1, 0, 0, 0, NULL, 0), INVALID_OPCODE);
    CHECK_IS(room[0], 0xa5);
    CHECK(is_guarded(room, 0));
    free(room);
}

void try_blocks(void) {
    int fd = open_device("/dev/nvme0n1");
    unsigned seed = 1;
    size_t places = sizeof offsets / sizeof *offsets;
    // Each length at three places, and each place with several lengths.
    for (size_t i = 0; i < sizeof lengths / sizeof *lengths; i++) {
        for (size_t j = 0; j < 3; j++) {
            round_trip(fd, lengths[i], offsets[(3 * i + j) % places], seed++);
        }
    }
    other_forms(fd);
    failures(fd);
    uint8_t *room = room_at(MOST, 0), *zeros = room_at(MOST, 0);
    memset(zeros, 0, MOST);
    CHECK_IS(on_blocks(fd, WRITE, 0, 256, room), SUCCESS);
    CHECK_IS(on_blocks(fd, ZEROES, 0, 256, NULL), SUCCESS);
    CHECK_IS(on_blocks(fd, COMPARE, 0, 256, zeros), SUCCESS);
    CHECK_IS(io(fd, FLUSH, 1, 0, 0, 0, NULL, 0), SUCCESS);
    free(room);
    free(zeros);
}

// Data whose second page a longer command takes for a list, one that names the queues of the host itself: only this
// host can lose by it, and until a reset at most.
static void try_hostile(int fd, int controller) {
    uint8_t *room = room_at(2 * PAGE, 0);
    memset(room, 0, 2 * PAGE);
    for (uint32_t page = 0; page < 31; page++) {
        room[PAGE + 8 * page + 1] = (uint8_t)(page % 11 << 4);
    }
    int status = io(fd, READ, 1, 0, 0, 255, room, 2 * PAGE);
    CHECK(status == SUCCESS || (status == -1 && errno == EIO));
    CHECK_IS(ioctl(controller, NVME_IOCTL_RESET), 0);
    CHECK_IS(io(fd, FLUSH, 1, 0, 0, 0, NULL, 0), SUCCESS);
    CHECK_IS(io(open_device("/dev/nvme1n1"), FLUSH, 1, 0, 0, 0, NULL, 0), SUCCESS);
    free(room);
}

// Data without an address, at none that is there, at one that can't be written, and of another length than the command.
void try_pointers(void) {
    int fd = open_device("/dev/nvme0n1"), controller = open_device("/dev/nvme0");
    uint8_t *room = room_at(MOST + PAGE, 0);
    fill(room, MOST, 5);
    CHECK_IS(on_blocks(fd, WRITE, 0, 256, room), SUCCESS);
    CHECK_IS(io(fd, READ, 1, 0, 0, 0, NULL, BLOCK), DATA_TRANSFER);
    CHECK_IS(io(fd, WRITE, 1, 0, 0, 0, NULL, BLOCK), DATA_TRANSFER);
    CHECK_IS(io(fd, READ, 1, 0, 0, 0, NULL, 0), DATA_TRANSFER);
    CHECK_IS(io(fd, READ, 1, 0, 0, 0, room, 0), DATA_TRANSFER);
    CHECK_IS(io(fd, FLUSH, 1, 0, 0, 0, NULL, BLOCK), SUCCESS);
    CHECK_IS(admin(controller, IDENTIFY, 0, 1, 0, NULL, PAGE), DATA_TRANSFER);
    CHECK_FAILS(io(fd, READ, 1, 0, 0, 0, (void *)8, BLOCK), EFAULT);
    CHECK_FAILS(io(fd, WRITE, 1, 0, 0, 0, (void *)4096, MOST), EFAULT);
    void *sealed = mmap(NULL, PAGE, PROT_READ, MAP_PRIVATE | MAP_ANONYMOUS, -1, 0);
    CHECK(sealed != MAP_FAILED);
    CHECK_FAILS(io(fd, READ, 1, 0, 0, 0, sealed, BLOCK), EFAULT);
    CHECK_IS(io(fd, COMPARE, 1, 4, 0, 0, sealed, BLOCK), MISCOMPARE);
    CHECK_FAILS(ioctl(fd, NVME_IOCTL_IO_CMD, NULL), EFAULT);
    CHECK_FAILS(io(fd, READ, 1, 0, 0, 255, room, MOST + BLOCK), EINVAL);
    // More than the data have: they end with a page, and nothing is after it.
    CHECK_IS(io(fd, READ, 1, 0, 0, 8, room, PAGE), DATA_TRANSFER);
    CHECK_IS(io(fd, READ, 1, 0, 0, 255, room, 3 * PAGE), DATA_TRANSFER);
    CHECK(is_filled(room, MOST, 5));
    // Less than the data have: the rest stays.
    memset(room, 0xa5, MOST);
    CHECK_IS(io(fd, READ, 1, 0, 0, 0, room, MOST), SUCCESS);
    CHECK(is_filled(room, BLOCK, 5));
    for (uint32_t i = BLOCK; i < MOST; i++) {
        CHECK_IS(room[i], 0xa5);
    }
    // Metadata: no namespace has any.
    struct nvme_passthru_cmd command = {
        .opcode = READ, .nsid = 1, .addr = (uintptr_t)room, .data_len = BLOCK, .metadata = (uintptr_t)room,
        .metadata_len = 8};
    CHECK_FAILS(ioctl(fd, NVME_IOCTL_IO_CMD, &command), EINVAL);
    free(room);
    if (!has_driver) {
        try_hostile(fd, controller);
    }
}
