/* Measures the calls of libnvmesim: nanoseconds for each event of a command, and for a whole Read of a block.
 *
 * Batches of eight commands are measured event by event, as `bench/measure events` does; the quickest batch counts.
 * usage: library ROUNDS, built and run by bench/measure c
 */
#define _POSIX_C_SOURCE 200809L
#include <nvmesim.h>
#include <stdio.h>
#include <stdlib.h>
#include <string.h>
#include <time.h>

enum { ADMIN_CQ = 0x1000, IO_CQ = 0x3000, IO_SQ = 0x4000, LIST = 0x8000, DATA = 0x10000 };
enum { ENTRIES = 64, BATCH = 8, PHASES = 6, BLOCKS = 256 };

static nvmesim sim = NVMESIM_NONE;
static uint16_t cntlid;
static uint32_t tail;
static uint64_t statuses;

static uint64_t now(void) {
    struct timespec t;
    clock_gettime(CLOCK_MONOTONIC, &t);
    return (uint64_t)t.tv_sec * 1000000000u + (uint64_t)t.tv_nsec;
}

static void must(int holds, const char *what) {
    if (!holds) {
        fprintf(stderr, "library: %s\n", what);
        exit(1);
    }
}

static void entry(uint8_t bytes[64], uint8_t opcode, uint64_t prp1, uint64_t prp2, uint32_t dw10, uint32_t dw11,
                  uint32_t dw12) {
    const uint32_t nsid = 1;
    memset(bytes, 0, 64);
    bytes[0] = opcode;
    memcpy(bytes + 4, &nsid, 4);
    memcpy(bytes + 24, &prp1, 8);
    memcpy(bytes + 32, &prp2, 8);
    memcpy(bytes + 40, &dw10, 4);
    memcpy(bytes + 44, &dw11, 4);
    memcpy(bytes + 48, &dw12, 4);
}

/* Opens one controller or sixteen, enables the last, and creates its I/O queues and a list of pages for 256 blocks. */
static void up(int count) {
    static uint8_t blocks[BLOCKS * 512];
    nvmesim_controller controllers[16];
    nvmesim_attached attached[16];
    nvmesim_namespace namespaces[] = {{BLOCKS, 1, true}};
    uint8_t bytes[64];
    for (int i = 0; i < count; i++) {
        controllers[i] = (nvmesim_controller){0x101u + (unsigned)i, 0, (uint16_t)(i + 1)};
        attached[i] = (nvmesim_attached){1, (uint16_t)(i + 1)};
    }
    must(nvmesim_open(&sim, NVMESIM_VERSION, NVMESIM_ANY_SIZE, controllers, (size_t)count, namespaces, 1, attached,
                      (size_t)count, blocks, sizeof blocks) == NVMESIM_OK, "not opened");
    cntlid = (uint16_t)count;
    tail = 0;
    nvmesim_write32(&sim, cntlid, 0x24, 0x001f0007);
    nvmesim_write32(&sim, cntlid, 0x30, ADMIN_CQ);
    nvmesim_write32(&sim, cntlid, 0x14, 0x00460001);
    entry(bytes, 0x05, IO_CQ, 0, (ENTRIES - 1) << 16 | 1, 1, 0);
    memset(bytes + 4, 0, 4);
    nvmesim_store(&sim, cntlid, 0, bytes, 64);
    entry(bytes, 0x01, IO_SQ, 0, (ENTRIES - 1) << 16 | 1, 1 << 16 | 1, 0);
    memset(bytes + 4, 0, 4);
    nvmesim_store(&sim, cntlid, 64, bytes, 64);
    nvmesim_write32(&sim, cntlid, 0x1000, 2);
    for (int i = 0; i < 2; i++) {
        nvmesim_fetch(&sim, cntlid, 0);
        nvmesim_answer answer = nvmesim_execute(&sim, cntlid, 0);
        must(answer.what == NVMESIM_POSTED && answer.sct == 0 && answer.sc == 0, "no queues");
    }
    for (uint64_t i = 0; i < 31; i++) {
        uint64_t page = DATA + 4096 * (i + 1);
        nvmesim_store(&sim, cntlid, LIST + 8 * i, (uint8_t *)&page, 8);
    }
}

/* Batches of Reads of `blocks` blocks, from this one on. `wanted` is its status code. */
static void batches(const char *what, uint32_t slba, uint32_t blocks, uint8_t wanted, int rounds) {
    uint64_t best[PHASES], all = 0;
    uint8_t bytes[64], completion[16];
    memset(best, 255, sizeof best);
    entry(bytes, 0x02, DATA, blocks > 16 ? LIST : 0, slba, 0, blocks - 1);
    for (int r = 0; r < rounds; r++) {
        uint64_t at[PHASES + 1];
        uint32_t first = tail;
        int posted = 0;
        at[0] = now();
        for (uint32_t i = 0; i < BATCH; i++)
            nvmesim_store(&sim, cntlid, IO_SQ + 64 * ((first + i) % ENTRIES), bytes, 64);
        tail = (tail + BATCH) % ENTRIES;
        at[1] = now();
        for (int i = 0; i < BATCH; i++)
            nvmesim_write32(&sim, cntlid, 0x1008, tail);
        at[2] = now();
        for (int i = 0; i < BATCH; i++)
            nvmesim_fetch(&sim, cntlid, 1);
        at[3] = now();
        for (int i = 0; i < BATCH; i++) {
            nvmesim_answer answer = nvmesim_execute(&sim, cntlid, 0);
            posted += answer.what == NVMESIM_POSTED && answer.sc == wanted;
        }
        at[4] = now();
        for (int i = 0; i < BATCH; i++)
            nvmesim_write32(&sim, cntlid, 0x100c, tail);
        at[5] = now();
        for (uint32_t i = 0; i < BATCH; i++) {
            nvmesim_load(&sim, cntlid, IO_CQ + 16 * ((first + i) % ENTRIES), completion, 16);
            statuses += completion[14];
        }
        at[6] = now();
        must(posted == BATCH, "a Read was answered otherwise");
        for (int k = 0; k < PHASES; k++)
            if (at[k + 1] - at[k] < best[k])
                best[k] = at[k + 1] - at[k];
    }
    printf("| %s |", what);
    for (int k = 0; k < PHASES - 1; k++) {
        printf(" %.0f |", (double)best[k] / BATCH);
        all += best[k];
    }
    printf(" %.0f | %.0f |\n", (double)all / BATCH, (double)best[PHASES - 1] / BATCH);
}

/* Whole Reads of a block, one at a time. */
static void whole(const char *what, int rounds) {
    uint64_t best = UINT64_MAX;
    uint8_t bytes[64], completion[16];
    for (int r = 0; r < rounds; r++) {
        uint64_t begun = now(), taken;
        for (uint32_t i = 0; i < ENTRIES; i++) {
            uint32_t slot = tail;
            entry(bytes, 0x02, DATA, 0, i, 0, 0);
            tail = (tail + 1) % ENTRIES;
            nvmesim_store(&sim, cntlid, IO_SQ + 64 * slot, bytes, 64);
            nvmesim_write32(&sim, cntlid, 0x1008, tail);
            nvmesim_fetch(&sim, cntlid, 1);
            statuses += nvmesim_execute(&sim, cntlid, 0).what == NVMESIM_POSTED;
            nvmesim_load(&sim, cntlid, IO_CQ + 16 * slot, completion, 16);
            nvmesim_write32(&sim, cntlid, 0x100c, tail);
        }
        taken = now() - begun;
        if (taken < best)
            best = taken;
    }
    printf("%s: %.0f ns\n", what, (double)best / ENTRIES);
}

/* Reads, one at a time, each in one call: of one block, or of more through the list of pages. */
static void in_one_call(const char *what, uint32_t blocks, int rounds) {
    uint64_t best = UINT64_MAX;
    uint8_t bytes[64], completion[16];
    for (int r = 0; r < rounds; r++) {
        uint64_t begun = now(), taken;
        int posted = 0;
        for (uint32_t i = 0; i < ENTRIES; i++) {
            entry(bytes, 0x02, DATA, blocks > 16 ? LIST : 0, blocks > 1 ? 0 : i, 0, blocks - 1);
            posted += nvmesim_submit(&sim, cntlid, 1, bytes, completion).what == NVMESIM_POSTED;
            statuses += completion[14];
        }
        taken = now() - begun;
        must(posted == ENTRIES, "a command was not submitted");
        if (taken < best)
            best = taken;
    }
    printf("%s: %.0f ns\n", what, (double)best / ENTRIES);
}

int main(int count, char **words) {
    int rounds = count > 1 ? atoi(words[1]) : 20000;
    printf("| Nanoseconds | store | doorbell | fetch | execute | head doorbell | these five | load of the completion |\n"
           "|---|---|---|---|---|---|---|---|\n");
    for (int hosts = 1; hosts <= 16; hosts += 15) {
        up(hosts);
        batches(hosts == 1 ? "one controller, Read of a block" : "the last of 16, Read of a block", 0, 1, 0, rounds);
        batches(hosts == 1 ? "one controller, denied Read" : "the last of 16, denied Read", BLOCKS, 1, 0x80, rounds);
        batches(hosts == 1 ? "one controller, Read of 256 blocks" : "the last of 16, Read of 256 blocks", 0, 256, 0,
                rounds / 20);
        if (hosts == 16) {
            whole("a whole Read of a block by six calls", rounds / 10);
            in_one_call("the same by nvmesim_submit", 1, rounds / 10);
            in_one_call("a Read of 256 blocks by nvmesim_submit", 256, rounds / 200);
        }
        nvmesim_close(&sim);
    }
    return statuses == 0;
}
