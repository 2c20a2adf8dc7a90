/* A subsystem over a file of blocks, by mmap. A Write changes the file at once; a Flush is followed by a sync, before
 * its completion is used. The file is locked as nvmesim, nvmelive and nvmetcp lock it; one of another size is refused.
 *
 *     cc image.c $(pkg-config --cflags --libs nvmesim) && ./a.out disk.img
 */
#define _POSIX_C_SOURCE 200809L
#include <fcntl.h>
#include <nvmesim.h>
#include <stdio.h>
#include <stdlib.h>
#include <string.h>
#include <sys/file.h>
#include <sys/mman.h>
#include <sys/stat.h>
#include <unistd.h>

enum { BLOCKS = 64, SIZE = BLOCKS * 512 };
enum { ADMIN_SQ = 0x0000, ADMIN_CQ = 0x1000, IO_SQ = 0x2000, IO_CQ = 0x3000, DATA = 0x10000, ENTRIES = 16 };
enum { FLUSH = 0x00, WRITE = 0x01 };

static nvmesim sim = NVMESIM_NONE;
static uint8_t *blocks;
static uint32_t tails[2];

static void fail(const char *what) {
    perror(what);
    exit(1);
}

/* Opens the file of the blocks and locks it, before it is read, until this program ends. A new file has zeros. */
static int opened(const char *path) {
    int file = open(path, O_RDWR | O_CREAT, 0600);
    struct stat found;
    if (file < 0 || flock(file, LOCK_EX | LOCK_NB) != 0 || fstat(file, &found) != 0)
        fail(path);
    if (found.st_size != 0 && found.st_size != SIZE) {
        fprintf(stderr, "%s: it does not have %d bytes\n", path, SIZE);
        exit(1);
    }
    if (found.st_size == 0 && ftruncate(file, SIZE) != 0)
        fail(path);
    return file;
}

/* Submits a command to queue 0 or 1 of controller 1 and executes it; returns the status, or -1. */
static int submit(uint16_t qid, uint8_t opcode, uint32_t nsid, uint64_t prp1, uint32_t dw10, uint32_t dw11) {
    uint8_t entry[64] = {opcode};
    memcpy(entry + 4, &nsid, 4);
    memcpy(entry + 24, &prp1, 8);
    memcpy(entry + 40, &dw10, 4);
    memcpy(entry + 44, &dw11, 4);
    nvmesim_store(&sim, 1, (qid ? IO_SQ : ADMIN_SQ) + 64 * tails[qid], entry, sizeof entry);
    tails[qid] = (tails[qid] + 1) % ENTRIES;
    nvmesim_write32(&sim, 1, 0x1000 + 8 * qid, tails[qid]);
    nvmesim_fetch(&sim, 1, qid);
    nvmesim_answer answer = nvmesim_execute(&sim, 1, 0);
    if (answer.what != NVMESIM_POSTED)
        return -1;
    if (qid == 1 && opcode == FLUSH && msync(blocks, SIZE, MS_SYNC) != 0)
        fail("msync");
    nvmesim_write32(&sim, 1, 0x1000 + 8 * qid + 4, tails[qid]);
    return answer.sct << 8 | answer.sc;
}

int main(int count, char **words) {
    static const nvmesim_controller controllers[] = {{1, 0, 1, false}};
    static const nvmesim_namespace namespaces[] = {{BLOCKS, 1, false}};
    static const nvmesim_attached attached[] = {{1, 1}};
    if (count != 2) {
        fprintf(stderr, "usage: image FILE\n");
        return 2;
    }
    int file = opened(words[1]);
    blocks = mmap(NULL, SIZE, PROT_READ | PROT_WRITE, MAP_SHARED, file, 0);
    if (blocks == MAP_FAILED)
        fail("mmap");
    uint32_t opened = nvmesim_open_lent(&sim, NVMESIM_VERSION, NVMESIM_ANY_SIZE, controllers, 1, namespaces, 1, attached,
                                        1, (nvmesim_bytes){blocks, SIZE});
    if (opened != NVMESIM_OK) {
        fprintf(stderr, "not opened: %u\n", opened);
        return 1;
    }
    nvmesim_write32(&sim, 1, 0x24, (ENTRIES - 1) << 16 | (ENTRIES - 1));
    nvmesim_write32(&sim, 1, 0x28, ADMIN_SQ);
    nvmesim_write32(&sim, 1, 0x30, ADMIN_CQ);
    nvmesim_write32(&sim, 1, 0x14, 4 << 20 | 6 << 16 | 1);
    submit(0, 0x05, 0, IO_CQ, (ENTRIES - 1) << 16 | 1, 1);
    submit(0, 0x01, 0, IO_SQ, (ENTRIES - 1) << 16 | 1, 1 << 16 | 1);

    uint8_t block[512];
    memset(block, 0x5a, sizeof block);
    nvmesim_store(&sim, 1, DATA, block, sizeof block);
    printf("write of block 5: status %x\n", (unsigned)submit(1, WRITE, 1, DATA, 5, 0));
    printf("flush: status %x\n", (unsigned)submit(1, FLUSH, 1, 0, 0, 0));

    nvmesim_close(&sim);
    munmap(blocks, SIZE);
    uint8_t read[512];
    if (pread(file, read, sizeof read, 5 * 512) != sizeof read)
        fail("pread");
    close(file);
    printf("block 5 of the file has %s\n", memcmp(read, block, sizeof read) ? "something else" : "what was written");
    return 0;
}
