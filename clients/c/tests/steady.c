/* No call but an opening takes memory, and none but a close gives any back: rounds of every kind of event and query,
 * over copied and over borrowed bytes, for a number of calls.
 *
 * The linker has each request for memory of the library, and of this program, come by here (--wrap). With -DPLANTED
 * each memcpy that the library makes takes memory, which must be found. */
#include <nvmesim.h>
#include <stdio.h>
#include <stdlib.h>
#include <string.h>

void *__real_malloc(size_t size);
void *__real_calloc(size_t count, size_t size);
void *__real_realloc(void *old, size_t size);
void *__real_aligned_alloc(size_t alignment, size_t size);
int __real_posix_memalign(void **made, size_t alignment, size_t size);
void __real_free(void *memory);
void *__wrap_malloc(size_t size);
void *__wrap_calloc(size_t count, size_t size);
void *__wrap_realloc(void *old, size_t size);
void *__wrap_aligned_alloc(size_t alignment, size_t size);
int __wrap_posix_memalign(void **made, size_t alignment, size_t size);
void __wrap_free(void *memory);

/* The requests for memory, and what was given back. */
static unsigned long taken, freed;

void *__wrap_malloc(size_t size) {
    taken++;
    return __real_malloc(size);
}

void *__wrap_calloc(size_t count, size_t size) {
    taken++;
    return __real_calloc(count, size);
}

void *__wrap_realloc(void *old, size_t size) {
    taken++;
    return __real_realloc(old, size);
}

void *__wrap_aligned_alloc(size_t alignment, size_t size) {
    taken++;
    return __real_aligned_alloc(alignment, size);
}

int __wrap_posix_memalign(void **made, size_t alignment, size_t size) {
    taken++;
    return __real_posix_memalign(made, alignment, size);
}

void __wrap_free(void *memory) {
    freed += memory != NULL;
    __real_free(memory);
}

#ifdef PLANTED
void *__real_memcpy(void *to, const void *from, size_t length);
void *__wrap_memcpy(void *to, const void *from, size_t length);

void *__wrap_memcpy(void *to, const void *from, size_t length) {
    free(malloc(length));
    return __real_memcpy(to, from, length);
}
#endif

enum { CC = 0x14, CSTS = 0x1c, AQA = 0x24, ASQ = 0x28, ACQ = 0x30, DOORBELLS = 0x1000 };
enum { ADMIN_CQ = 0x1000, IO_SQ = 0x2000, IO_CQ = 0x3000, DATA = 0x10000, LAST = 15, BLOCKS = 16 };

/* A command, its status, and the 16 bytes of its data that matter: keys, or a list of controllers. */
typedef struct step {
    uint16_t host, qid;
    uint8_t opcode, sct, sc;
    uint32_t dw10, dw11, dw12;
    uint64_t data[2];
} step;

static const step rising[] = {
    {0, 0, 0x05, 0, 0, LAST << 16 | 1, 1, 0, {0}},            /* Create I/O Completion Queue */
    {0, 0, 0x01, 0, 0, LAST << 16 | 1, 1 << 16 | 1, 0, {0}},  /* Create I/O Submission Queue */
};

static const step steps[] = {
    {1, 0, 0x06, 0, 0, 0, 0, 0, {0}}, {1, 0, 0x06, 0, 0, 1, 0, 0, {0}}, {1, 0, 0x06, 0, 0, 2, 0, 0, {0}}, /* Identify */
    {1, 0, 0x0a, 0, 0, 0x07, 0, 0, {0}}, {1, 0, 0x0a, 0, 0, 0x81, 1, 0, {0}}, {1, 0, 0x0a, 0, 0, 0x84, 0, 0, {0}},
    {1, 0, 0x09, 0, 0, 0x84, 1, 0, {0}},                      /* Set Features: write protected */
    {1, 1, 0x01, 0, 0x20, 0, 0, 0, {5}},                      /* Write, denied */
    {1, 0, 0x09, 0, 0, 0x84, 0, 0, {0}},
    {1, 0, 0x15, 0, 0, 1, 0, 0, {2 << 16 | 1}},               /* Namespace Attachment: detach, attach */
    {2, 1, 0x02, 0, 0x02, 0, 0, 0, {0}},                      /* Read, denied */
    {1, 0, 0x15, 0, 0, 0, 0, 0, {2 << 16 | 1}},
    {1, 1, 0x0d, 0, 0, 0, 0, 0, {0, 0x11}}, {2, 1, 0x0d, 0, 0, 0, 0, 0, {0, 0x22}}, /* Reservation Register */
    {1, 1, 0x11, 0, 0, 1 << 8, 0, 0, {0x11}},                 /* Reservation Acquire */
    {2, 1, 0x01, 0, 0x83, 0, 0, 1, {5}},                      /* Write, fenced */
    {1, 1, 0x01, 0, 0, 0, 0, 1, {7, 9}}, {1, 1, 0x05, 0, 0, 0, 0, 1, {7, 9}}, /* Write, Compare */
    {1, 1, 0x05, 2, 0x85, 0, 0, 1, {7, 8}},                   /* Compare, another byte */
    {1, 1, 0x08, 0, 0, 2, 0, 1, {0}}, {2, 1, 0x02, 0, 0, 0, 0, 3, {0}}, /* Write Zeroes, Read */
    {2, 1, 0x00, 0, 0x83, 0, 0, 0, {0}}, {1, 1, 0x00, 0, 0, 0, 0, 0, {0}}, /* Flush, fenced and not */
    {2, 1, 0x0e, 0, 0, 63, 1, 0, {0}},                        /* Reservation Report */
    {1, 1, 0x11, 0, 0, 1 << 8 | 2, 0, 0, {0x11, 0x22}},       /* Preempt and Abort */
    {1, 1, 0x15, 0, 0, 1 << 8, 0, 0, {0x11}},                 /* Reservation Release */
    {1, 1, 0x02, 0, 0x80, 9999, 0, 0, {0}}, {1, 1, 0x7f, 0, 0x01, 0, 0, 0, {0}}, /* Read outside, no command */
    {1, 0, 0x00, 0, 0, 1, 0, 0, {0}}, {1, 0, 0x04, 0, 0, 1, 0, 0, {0}}, /* the queues are deleted */
    {1, 0, 0x05, 0, 0, LAST << 16 | 1, 1, 0, {0}}, {1, 0, 0x01, 0, 0, LAST << 16 | 1, 1 << 16 | 1, 0, {0}},
};

static unsigned long calls;
static int failures;

/* Counts a call, and reports a wrong answer. */
static void must(int holds, const char *what, int line) {
    calls++;
    if (!holds && failures++ < 10)
        fprintf(stderr, "line %d, call %lu: not so: %s\n", line, calls, what);
}

#define MUST(holds) must((holds) != 0, #holds, __LINE__)

static void fill(uint8_t bytes[64], const step *it) {
    const uint32_t nsid = 1;
    const uint64_t prp1 = it->qid || it->opcode > 5 ? DATA : it->opcode == 5 ? IO_CQ : IO_SQ;
    memset(bytes, 0, 64);
    bytes[0] = it->opcode;
    memcpy(bytes + 4, it->qid || it->opcode > 5 ? &nsid : (const uint32_t *)bytes + 1, 4);
    memcpy(bytes + 24, &prp1, 8);
    memcpy(bytes + 40, &it->dw10, 4);
    memcpy(bytes + 44, &it->dw11, 4);
    memcpy(bytes + 48, &it->dw12, 4);
}

/* A command by one call, with its data stored before it. */
static void submit(nvmesim *sim, uint16_t host, const step *it) {
    uint8_t entry[64], completion[16];
    fill(entry, it);
    MUST(nvmesim_store(sim, host, DATA, (const uint8_t *)it->data, sizeof it->data).what == NVMESIM_STORED);
    nvmesim_answer answer = nvmesim_submit(sim, host, it->qid, entry, completion);
if (answer.sct != it->sct || answer.sc != it->sc) fprintf(stderr, "%x %u %u:%02x %u\n", it->opcode, answer.what, answer.sct, answer.sc, answer.rule);
    MUST(answer.what == NVMESIM_POSTED && answer.sct == it->sct && answer.sc == it->sc);
}

static void up(nvmesim *sim, uint16_t host) {
    MUST(nvmesim_write32(sim, host, CC, 0).what == NVMESIM_WROTE);
    MUST(nvmesim_write32(sim, host, AQA, LAST << 16 | LAST).what == NVMESIM_WROTE);
    MUST(nvmesim_write32(sim, host, ASQ, 0).what == NVMESIM_WROTE);
    MUST(nvmesim_write32(sim, host, ACQ, ADMIN_CQ).what == NVMESIM_WROTE);
    MUST(nvmesim_write32(sim, host, CC, 4 << 20 | 6 << 16 | 1).what == NVMESIM_WROTE);
    MUST(nvmesim_read32(sim, host, CSTS).value == 1);
    submit(sim, host, &rising[0]);
    submit(sim, host, &rising[1]);
}

/* The events one by one: a command that waits for room, and one that is aborted. */
static void events(nvmesim *sim) {
    static const step flush = {1, 1, 0, 0, 0, 0, 0, 0, {0}};
    uint8_t entry[64];
    fill(entry, &flush);
    for (uint32_t i = 0; i <= LAST; i++) {
        MUST(nvmesim_store(sim, 1, IO_SQ + 64 * i, entry, 64).what == NVMESIM_STORED);
        MUST(nvmesim_write32(sim, 1, DOORBELLS + 8, (i + 1) % (LAST + 1)).what == NVMESIM_WROTE);
        MUST(nvmesim_fetch(sim, 1, 1).what == NVMESIM_TOOK);
        MUST(nvmesim_execute(sim, 1, 0).what == (i < LAST ? NVMESIM_POSTED : NVMESIM_CQ_FULL));
    }
    MUST(nvmesim_fetch(sim, 1, 1).what == NVMESIM_IDLE);
    MUST(nvmesim_execute(sim, 1, 9).what == NVMESIM_NO_SUCH);
    MUST(nvmesim_store(sim, 1, 4194304, entry, 64).what == NVMESIM_OUTSIDE);
    MUST(nvmesim_store(sim, 9, 0, entry, 64).what == NVMESIM_NO_CONTROLLER);
    MUST(nvmesim_submit(sim, 1, 1, entry, entry).what == NVMESIM_BUSY);
}

static void looks(nvmesim *sim) {
    uint8_t bytes[1024];
    MUST(nvmesim_load(sim, 1, DATA, bytes, sizeof bytes) == NVMESIM_OK);
    MUST(nvmesim_read_blocks(sim, 1, 0, bytes, sizeof bytes) == NVMESIM_OK);
    MUST(nvmesim_read_blocks(sim, 1, BLOCKS, bytes, 512) == NVMESIM_OUTSIDE);
    MUST(nvmesim_submission_queue(sim, 1, 1).what == NVMESIM_OK);
    MUST(nvmesim_completion_queue(sim, 1, 1).what == NVMESIM_OK);
    MUST(nvmesim_fetched(sim, 1, 0).what == NVMESIM_OK);
    MUST(nvmesim_needs(sim, 1, 0).what == NVMESIM_OK);
    MUST(nvmesim_is_attached(sim, 1, 1).value == 1);
    MUST(nvmesim_reservation(sim, 1).what == NVMESIM_OK);
    MUST(nvmesim_registrant(sim, 1, 0).what == NVMESIM_OK);
    MUST(nvmesim_status_name(0, 0x83, bytes, sizeof bytes) == 20);
    MUST(nvmesim_version() == NVMESIM_VERSION);
}

/* Every kind of event and look; the next round begins as this one did. */
static void play(nvmesim *sim) {
    nvmesim none = NVMESIM_NONE;
    uint8_t entry[64];
    up(sim, 1);
    up(sim, 2);
    for (size_t i = 0; i < sizeof steps / sizeof *steps; i++)
        submit(sim, steps[i].host, &steps[i]);
    events(sim);
    looks(sim);
    MUST(nvmesim_power_cycle(sim).what == NVMESIM_CYCLED);
    MUST(nvmesim_submit(&none, 1, 0, entry, entry).what == NVMESIM_CLOSED);
}

/* Rounds over copied or borrowed bytes, for a number of calls. Only the opening takes memory, and the close frees as
 * much. */
static void play_until(unsigned long most, int is_lent) {
    static const nvmesim_controller two[] = {{0xa1, 0, 1, false}, {0xb2, 0xc3, 2, false}};
    static const nvmesim_namespace shared[] = {{BLOCKS, 1, true}};
    static const nvmesim_attached both[] = {{1, 1}, {1, 2}};
    static uint8_t blocks[BLOCKS * 512];
    nvmesim sim = NVMESIM_NONE;
    taken = freed = 0;
    MUST((is_lent ? nvmesim_open_lent(&sim, NVMESIM_VERSION, NVMESIM_SCRIPT_BLOCKS, two, 2, shared, 1, both, 2,
                                      (nvmesim_bytes){blocks, sizeof blocks})
                  : nvmesim_open(&sim, NVMESIM_VERSION, NVMESIM_SCRIPT_BLOCKS, two, 2, shared, 1, both, 2, blocks,
                                 sizeof blocks)) == NVMESIM_OK);
    unsigned long at_first = taken, given_back = freed, begun = calls;
    while (calls < most && failures == 0)
        play(&sim);
    printf("%s: %lu requests for memory by the opening; by %lu events and looks %lu, and %lu given back\n",
           is_lent ? "borrowed bytes" : "copied bytes", at_first, calls - begun, taken - at_first, freed - given_back);
    failures += at_first < 3 || taken != at_first || freed != given_back;
    nvmesim_close(&sim);
    failures += freed != taken;
}

int main(int count, char **words) {
    unsigned long most = count > 1 ? strtoul(words[1], NULL, 10) : 1000;
    play_until(most / 2, 0);
    play_until(most, 1);
    return failures ? 1 : 0;
}
