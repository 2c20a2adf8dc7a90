/* Tests of commands that are placed, and completed later. */
#include "hosts.h"

enum { WRITE = 0x01, READ = 0x02, BLOCK = 512, CLOSING = 4 << 20 | 6 << 16 | 1 << 14 | 1 };

/* What nvmesim_place has to do, call by call. */
static void placed_by_calls(nvmesim *sim, uint32_t slot, const uint8_t *command, uint64_t at, const uint8_t *data) {
    CHECK(nvmesim_store(sim, 1, IO_SQ + 64 * slot, command, 64).what == NVMESIM_STORED);
    if (data != NULL)
        CHECK(nvmesim_store(sim, 1, at, data, BLOCK).what == NVMESIM_STORED);
    CHECK(nvmesim_write32(sim, 1, DOORBELLS + 8, (slot + 1) % ENTRIES).what == NVMESIM_WROTE);
    CHECK(nvmesim_fetch(sim, 1, 1).what == NVMESIM_TOOK);
}

/* Whether two subsystems have the same blocks, memory of the first host, and queues. */
static bool same(nvmesim *one, nvmesim *other) {
    static uint8_t left[WINDOW], right[WINDOW];
    CHECK(nvmesim_load(one, 1, 0, left, WINDOW) == NVMESIM_OK && nvmesim_load(other, 1, 0, right, WINDOW) == NVMESIM_OK);
    bool is_same = memcmp(left, right, WINDOW) == 0;
    CHECK(nvmesim_read_blocks(one, 1, 0, left, 64 * BLOCK) == NVMESIM_OK);
    CHECK(nvmesim_read_blocks(other, 1, 0, right, 64 * BLOCK) == NVMESIM_OK);
    nvmesim_queue a = nvmesim_submission_queue(one, 1, 1), b = nvmesim_submission_queue(other, 1, 1);
    nvmesim_queue c = nvmesim_completion_queue(one, 1, 1), d = nvmesim_completion_queue(other, 1, 1);
    return is_same && memcmp(left, right, 64 * BLOCK) == 0 && a.head == b.head && a.tail == b.tail && c.head == d.head
           && c.tail == d.tail && nvmesim_fetched(one, 1, 0).count == nvmesim_fetched(other, 1, 0).count;
}

/* Three commands are fetched, and completed in another order; round and round the queues. */
static void as_by_calls(void) {
    nvmesim one = NVMESIM_NONE, other = NVMESIM_NONE;
    uint8_t commands[3][64], data[BLOCK], completion[16], wanted[16];
    CHECK(open_two(&one) == NVMESIM_OK && open_two(&other) == NVMESIM_OK);
    up(&one, 1);
    up(&other, 1);
    CHECK(nvmesim_write32(&one, 1, DOORBELLS + 4, 2).what == NVMESIM_WROTE);
    for (uint32_t turn = 0, slot = 0, head = 0; turn < 2 * ENTRIES; turn++) {
        for (uint32_t i = 0; i < 3; i++, slot = (slot + 1) % ENTRIES) {
            bool has_data = i != 1;
            uint64_t at = DATA + 4096 * i;
            entry(commands[i], has_data ? WRITE : READ, 1, at, (turn + 7 * i) % 64, 0);
            commands[i][2] = (uint8_t)(3 * turn + i);
            memset(data, (int)(turn + i), BLOCK);
            nvmesim_placed it = nvmesim_place(&one, 1, 1, commands[i], at, data, has_data ? BLOCK : 0);
            CHECK(it.what == NVMESIM_TOOK && it.index == i && it.entry_at == IO_SQ + 64 * slot);
            CHECK(it.tail == (slot + 1) % ENTRIES);
            nvmesim_command fetched = nvmesim_fetched(&one, 1, i);
            CHECK(memcmp(fetched.entry, commands[i], 64) == 0 && fetched.qid == 1 && !fetched.marked);
            placed_by_calls(&other, slot, commands[i], at, has_data ? data : NULL);
        }
        static const size_t order[] = {1, 1, 0}, were[] = {1, 2, 0};
        for (size_t i = 0; i < 3; i++, head = (head + 1) % ENTRIES) {
            nvmesim_completed done = nvmesim_complete(&one, 1, order[i], completion);
            nvmesim_answer answer = nvmesim_execute(&other, 1, order[i]);
            CHECK(nvmesim_load(&other, 1, IO_CQ + 16 * head, wanted, 16) == NVMESIM_OK);
            CHECK(nvmesim_write32(&other, 1, DOORBELLS + 12, (head + 1) % ENTRIES).what == NVMESIM_WROTE);
            CHECK(done.answer.what == NVMESIM_POSTED && answer.what == NVMESIM_POSTED && done.answer.sc == answer.sc);
            CHECK(done.cqid == 1 && done.head == (head + 1) % ENTRIES && memcmp(completion, wanted, 16) == 0);
            CHECK(completion[12] == commands[were[i]][2]);
        }
        CHECK(same(&one, &other));
    }
    nvmesim_close(&one);
    nvmesim_close(&other);
}

/* What is refused has not happened. */
static void refusals(void) {
    nvmesim sim = NVMESIM_NONE, other = NVMESIM_NONE;
    uint8_t command[64], data[BLOCK] = {7}, completion[16];
    entry(command, WRITE, 1, DATA, 0, 0);
    memset(completion, 7, sizeof completion);
#define PLACE(cntlid, qid, at, count) nvmesim_place(&sim, cntlid, qid, command, at, data, count)
#define REFUSED(cntlid, qid, at, count, why) \
    do { \
        nvmesim_placed it = PLACE(cntlid, qid, at, count); \
        CHECK(it.what == (why) && it.entry_at == 0 && it.index == 0 && it.tail == 0); \
    } while (0)
    REFUSED(1, 1, DATA, BLOCK, NVMESIM_CLOSED);
    CHECK(nvmesim_complete(&sim, 1, 0, completion).answer.what == NVMESIM_CLOSED);
    CHECK(open_two(&sim) == NVMESIM_OK && open_two(&other) == NVMESIM_OK);
    REFUSED(1, 1, DATA, BLOCK, NVMESIM_NOT_READY);
    REFUSED(3, 1, DATA, BLOCK, NVMESIM_NO_CONTROLLER);
    CHECK(nvmesim_complete(&sim, 3, 0, completion).answer.what == NVMESIM_NO_CONTROLLER);
    up(&sim, 1);
    up(&other, 1);
    REFUSED(1, 0, DATA, BLOCK, NVMESIM_BUSY);
    REFUSED(1, 2, DATA, BLOCK, NVMESIM_NO_QUEUE);
    REFUSED(1, 1, WINDOW - BLOCK + 1, BLOCK, NVMESIM_OUTSIDE);
    REFUSED(1, 1, UINT64_MAX, 1, NVMESIM_OUTSIDE);
    REFUSED(1, 1, IO_SQ, 1, NVMESIM_OVERLAPS);
    REFUSED(1, 1, IO_SQ + 63, 1, NVMESIM_OVERLAPS);
    REFUSED(1, 1, IO_SQ - 1, 2, NVMESIM_OVERLAPS);
    nvmesim_completed none = nvmesim_complete(&sim, 1, 0, completion);
    CHECK(none.answer.what == NVMESIM_NO_SUCH && none.cqid == 0 && none.head == 0 && completion[0] == 7);
    CHECK(same(&sim, &other));
    CHECK(PLACE(1, 1, IO_SQ - 1, 1).what == NVMESIM_TOOK && PLACE(1, 1, IO_SQ + 128, 1).what == NVMESIM_TOOK);
    CHECK(PLACE(1, 1, UINT64_MAX, 0).what == NVMESIM_TOOK);
    CHECK(nvmesim_write32(&sim, 1, CC, CLOSING).what == NVMESIM_WROTE);
    REFUSED(1, 1, DATA, BLOCK, NVMESIM_NOT_READY);
    CHECK(nvmesim_complete(&sim, 1, 2, completion).answer.what == NVMESIM_POSTED && completion[0] == 0);
    CHECK(nvmesim_completion_queue(&sim, 1, 1).head == 1 && nvmesim_completion_queue(&sim, 1, 1).tail == 1);
    nvmesim_close(&sim);
    nvmesim_close(&other);
}

/* A controller takes 64 commands. A completion shows those before it as consumed. */
static void most(void) {
    nvmesim sim = NVMESIM_NONE;
    uint8_t command[64], data[1] = {0}, completion[16];
    CHECK(open_two(&sim) == NVMESIM_OK);
    up(&sim, 1);
    entry(command, 0x00, 1, 0, 0, 0);
    for (size_t i = 0; i < 64; i++)
        CHECK(PLACE(1, 1, 0, 0).index == i);
    REFUSED(1, 1, 0, 0, NVMESIM_BUSY);
    for (int i = 0; i + 1 < ENTRIES; i++)
        CHECK(nvmesim_execute(&sim, 1, 0).what == NVMESIM_POSTED);
    memset(completion, 7, sizeof completion);
    CHECK(nvmesim_complete(&sim, 1, 0, completion).answer.what == NVMESIM_CQ_FULL && completion[0] == 7);
    CHECK(nvmesim_write32(&sim, 1, DOORBELLS + 12, 1).what == NVMESIM_WROTE);
    CHECK(nvmesim_complete(&sim, 1, 0, completion).head == 0 && nvmesim_completion_queue(&sim, 1, 1).head == 0);
    CHECK(nvmesim_fetched(&sim, 1, 0).count == 48 && PLACE(1, 1, 0, 0).index == 48);
#undef PLACE
#undef REFUSED
    nvmesim_close(&sim);
}

void placing(void) {
    as_by_calls();
    refusals();
    most();
}
