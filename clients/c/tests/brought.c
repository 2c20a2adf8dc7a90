/* Tests of commands over blocks that the program brings. */
#include "hosts.h"

enum { BLOCK = 512, WRITE = 0x01, READ = 0x02, COMPARE = 0x05, ZEROES = 0x08, FLUSH = 0x00 };
static const nvmesim_disk disk = {UINT64_C(1) << 63 | UINT64_C(1) << 40};
static const uint64_t last = (UINT64_C(1) << 63) - 1;
static uint8_t bytes[2 * BLOCK + 1];
static uint32_t tail;

/* Has a command on two blocks of the second namespace, the last two, fetched. */
static void fetch(nvmesim *sim, uint8_t opcode) {
    uint8_t command[64];
    entry(command, opcode, 2, DATA, (uint32_t)(last - 1), (uint32_t)((last - 1) >> 32));
    command[48] = 1;
    CHECK(nvmesim_store(sim, 1, IO_SQ + 64 * tail, command, 64).what == NVMESIM_STORED);
    CHECK(nvmesim_write32(sim, 1, DOORBELLS + 8, ++tail).what == NVMESIM_WROTE);
    CHECK(nvmesim_fetch(sim, 1, 1).what == NVMESIM_TOOK);
}

/* Executes the fetched command over a room of `count` bytes, of which `brought` blocks are brought. */
static nvmesim_executed_over over(nvmesim *sim, size_t count, uint64_t brought, bool flushes) {
    nvmesim_bytes room = {bytes, count};
    nvmesim_needed needed = nvmesim_needs(sim, 1, 0);
    CHECK(needed.what == NVMESIM_OK && (needed.blocks == 0 || needed.first == disk.blocks - 2));
    return nvmesim_execute_over(sim, room, 1, 0, needed.first, brought, flushes);
}

static bool ends(nvmesim_executed_over result, uint64_t at_hand, uint8_t sct, uint8_t sc) {
    return result.at_hand == at_hand && result.answer.what == NVMESIM_POSTED && result.answer.sct == sct
           && result.answer.sc == sc;
}

/* Whether the room has this byte in its blocks, and its last byte is untouched. */
static bool has(uint8_t first, uint8_t second) {
    for (int at = 0; at < 2 * BLOCK; at++)
        if (bytes[at] != (at < BLOCK ? first : second))
            return false;
    return bytes[2 * BLOCK] == 9;
}

static void fill(uint8_t first, uint8_t second) {
    memset(bytes, first, BLOCK);
    memset(bytes + BLOCK, second, BLOCK);
    bytes[2 * BLOCK] = 9;
}

/* What is refused changes nothing, and returns the room. */
static void refusals(nvmesim *sim) {
    nvmesim memory = NVMESIM_NONE;
    nvmesim_bytes room = {bytes, sizeof bytes};
    fill(1, 2);
    CHECK(nvmesim_execute_over(&memory, room, 1, 0, 0, 2, true).answer.what == NVMESIM_CLOSED);
    CHECK(open_two(&memory) == NVMESIM_OK);
    CHECK(nvmesim_execute_over(&memory, room, 1, 0, 0, 2, true).answer.what == NVMESIM_IN_MEMORY);
    nvmesim_close(&memory);
    CHECK(nvmesim_execute_over(sim, room, 1, 0, disk.blocks - 1, 2, true).answer.what == NVMESIM_OUTSIDE);
    CHECK(nvmesim_execute_over(sim, room, 1, 0, UINT64_MAX, 2, true).answer.what == NVMESIM_OUTSIDE);
    CHECK(nvmesim_execute_over(sim, room, 3, 0, 0, 2, true).answer.what == NVMESIM_NO_CONTROLLER);
    CHECK(nvmesim_execute_over(sim, room, 1, 1, 0, 2, true).answer.what == NVMESIM_NO_SUCH && has(1, 2));
}

/* A command is completed over a room; what is refused changes nothing, the room and the completion included. */
static void completes(nvmesim *sim) {
    nvmesim memory = NVMESIM_NONE;
    nvmesim_bytes room = {bytes, sizeof bytes};
    uint8_t completion[16] = {7};
#define OVER(of, first) nvmesim_complete_over(of, room, 1, 0, first, 1, true, completion)
    fill(1, 2);
    CHECK(OVER(&memory, 0).completed.answer.what == NVMESIM_CLOSED);
    CHECK(open_two(&memory) == NVMESIM_OK);
    CHECK(OVER(&memory, 0).completed.answer.what == NVMESIM_IN_MEMORY);
    nvmesim_close(&memory);
    CHECK(OVER(sim, disk.blocks).completed.answer.what == NVMESIM_OUTSIDE);
    CHECK(OVER(sim, 0).completed.answer.what == NVMESIM_NO_SUCH && has(1, 2) && completion[0] == 7);
    fetch(sim, READ);
    nvmesim_completed_over over = OVER(sim, disk.blocks - 2);
    CHECK(over.at_hand == 1 && over.completed.answer.sct == 2 && over.completed.answer.sc == 0x81);
    CHECK(over.completed.cqid == 1 && over.completed.head == tail && completion[8] == tail && completion[0] == 0);
    fill(3, 4);
    fetch(sim, WRITE);
    over = OVER(sim, disk.blocks - 2);
    CHECK(over.at_hand == 2 && over.completed.answer.sc == 0 && has(1, 5) && completion[8] == tail);
    CHECK(nvmesim_completion_queue(sim, 1, 1).head == tail && nvmesim_completion_queue(sim, 1, 1).tail == tail);
#undef OVER
}

/* Reads: of what was brought, of one block of two, and of none. */
static void reads(nvmesim *sim) {
    uint8_t read[2 * BLOCK];
    fill(1, 2);
    fetch(sim, READ);
    CHECK(ends(over(sim, sizeof bytes, 2, false), 2, 0, 0) && has(1, 2));
    CHECK(nvmesim_load(sim, 1, DATA, read, sizeof read) == NVMESIM_OK && memcmp(read, bytes, sizeof read) == 0);
    fetch(sim, READ);
    CHECK(ends(over(sim, sizeof bytes, 1, true), 1, 2, 0x81));
    fetch(sim, READ);
    nvmesim_answer answer = nvmesim_execute(sim, 1, 0);
    CHECK(answer.what == NVMESIM_POSTED && answer.sct == 2 && answer.sc == 0x81);
    CHECK(nvmesim_read_blocks(sim, 2, last, read, BLOCK) == NVMESIM_MEDIUM_FAULT);
    fetch(sim, COMPARE);
    CHECK(ends(over(sim, sizeof bytes, 2, false), 2, 0, 0));
    fill(1, 3);
    fetch(sim, COMPARE);
    CHECK(ends(over(sim, sizeof bytes, 2, false), 2, 2, 0x85) && has(1, 3));
}

/* Writes: in a room for both blocks, for one, and for none. */
static void writes(nvmesim *sim) {
    uint8_t written[2 * BLOCK];
    memset(written, 5, sizeof written);
    CHECK(nvmesim_store(sim, 1, DATA, written, sizeof written).what == NVMESIM_STORED);
    fill(1, 2);
    fetch(sim, WRITE);
    CHECK(ends(over(sim, sizeof bytes, 0, false), 2, 0, 0) && has(5, 5));
    fill(1, 2);
    fetch(sim, WRITE);
    CHECK(ends(over(sim, 2 * BLOCK - 1, 0, true), 1, 2, 0x80) && has(5, 2));
    fetch(sim, WRITE);
    nvmesim_answer answer = nvmesim_execute(sim, 1, 0);
    CHECK(answer.what == NVMESIM_POSTED && answer.sct == 2 && answer.sc == 0x80);
    fill(1, 2);
    fetch(sim, ZEROES);
    CHECK(ends(over(sim, sizeof bytes, 0, false), 2, 0, 0) && has(0, 0));
    fill(1, 2);
    fetch(sim, FLUSH);
    CHECK(ends(over(sim, 0, 0, true), 0, 0, 0));
    fetch(sim, FLUSH);
    CHECK(ends(over(sim, 0, 0, false), 0, 2, 0x80) && has(1, 2));
}

void brought(void) {
    static const nvmesim_namespace spaces[] = {{UINT64_C(1) << 40, 1, true}, {UINT64_C(1) << 63, 2, true}};
    static const nvmesim_attached attached[] = {{1, 1}, {2, 1}};
    static const nvmesim_disk small = {7};
    nvmesim sim = NVMESIM_NONE;
    CHECK(nvmesim_open_brought(&sim, NVMESIM_VERSION, NVMESIM_ANY_SIZE, two, 2, spaces, 2, attached, 2, small)
          == NVMESIM_DOES_NOT_FIT && !sim.is_open);
    CHECK(nvmesim_open_brought(&sim, NVMESIM_VERSION, NVMESIM_ANY_SIZE, two, 2, spaces, 2, attached, 2, disk)
          == NVMESIM_OK);
    CHECK(nvmesim_open_brought(&sim, NVMESIM_VERSION, NVMESIM_ANY_SIZE, two, 2, spaces, 2, attached, 2, disk)
          == NVMESIM_ALREADY_OPEN);
    up(&sim, 1);
    refusals(&sim);
    reads(&sim);
    CHECK(nvmesim_write32(&sim, 1, DOORBELLS + 12, tail).what == NVMESIM_WROTE);
    writes(&sim);
    completes(&sim);
    nvmesim_close(&sim);
    CHECK(!sim.is_open);
}
