/* Tests of the calls on data buffers. */
#include "hosts.h"
#include <nvmetcp.h>

enum { NOWHERE = 4 << 20 };

/* A number of eight bytes. */
static uint64_t number(const uint8_t *bytes) {
    uint64_t it = 0;
    for (int i = 7; i >= 0; i--)
        it = it << 8 | bytes[i];
    return it;
}

/* Whether a command with this opcode and NLB gets these PRP entries, and is otherwise as before. */
static bool leads(uint8_t opcode, uint8_t nlb, uint32_t buffer, uint64_t length, uint64_t first, uint64_t second) {
    uint8_t entry[64], wanted[64];
    memset(entry, 0x5a, sizeof entry);
    entry[0] = opcode, entry[48] = nlb, entry[49] = 0;
    memcpy(wanted, entry, sizeof wanted);
    nvmesim_buffers_place(entry, false, buffer, length);
    wanted[1] &= 0x3f;
    memcpy(wanted + 24, entry + 24, 16);
    return number(entry + 24) == first && number(entry + 32) == second && memcmp(entry, wanted, 64) == 0;
}

/* The places of data, and their PRP entries. */
static void places(void) {
    const uint32_t at_once = NVMESIM_BUFFER_AT_ONCE;
    CHECK(nvmesim_buffers_start(at_once, 512) == NOWHERE - 512);
    CHECK(nvmesim_buffers_start(at_once, 4097) == NOWHERE - 4100);
    CHECK(nvmesim_buffers_start(at_once, 131072) == NOWHERE - 131072);
    CHECK(nvmesim_buffers_start(at_once, 131073) == NOWHERE && nvmesim_buffers_start(at_once, UINT64_MAX) == NOWHERE);
    CHECK(nvmesim_buffers_start(1, 8192) == NOWHERE - 131072 - 8192);
    CHECK(nvmesim_buffers_start(16, 512) == NOWHERE - 131072 - 15 * 8192 - 512);
    CHECK(nvmesim_buffers_start(16, 8193) == NOWHERE && nvmesim_buffers_start(17, 1) == NOWHERE);
    CHECK(nvmesim_buffers_start(UINT32_MAX, 1) == NOWHERE);
    CHECK(leads(2, 0, at_once, 512, NOWHERE - 512, NOWHERE) && leads(2, 7, at_once, 4096, NOWHERE - 4096, NOWHERE));
    CHECK(leads(2, 15, at_once, 8192, NOWHERE - 8192, NOWHERE - 4096));
    CHECK(leads(1, 255, at_once, 131072, NOWHERE - 131072, 65536));
    CHECK(leads(1, 16, at_once, 8704, NOWHERE - 8704, 65536 + 8 * 29));
    /* Fewer bytes than the data have, and more. */
    CHECK(leads(2, 15, at_once, 131072, NOWHERE - 131072, NOWHERE - 131072 + 4096));
    CHECK(leads(1, 23, at_once, 8192, NOWHERE, NOWHERE) && leads(5, 0, at_once, 511, NOWHERE, NOWHERE));
    CHECK(leads(2, 0, 17, 512, NOWHERE, NOWHERE) && leads(2, 0, 1, 8193, NOWHERE, NOWHERE));
}

/* Which Reads fill their data, the PRP list, and the pages of queues. */
static void others(void) {
    uint8_t entry[64] = {2}, list[248];
    entry[48] = 7;
    CHECK(nvmesim_buffers_is_filled(entry, false, 4096) && !nvmesim_buffers_is_filled(entry, false, 4097));
    CHECK(!nvmesim_buffers_is_filled(entry, true, 4096));
    entry[0] = 5;
    CHECK(!nvmesim_buffers_is_filled(entry, false, 4096));
    CHECK(nvmesim_buffers_list(list) == 65536);
    for (uint64_t i = 0; i < 31; i++)
        CHECK(number(list + 8 * i) == NOWHERE - 131072 + 4096 * (i + 1));
    CHECK(nvmesim_buffers_submission_queue(0) == 4096 && nvmesim_buffers_completion_queue(0) == 8192);
    CHECK(nvmesim_buffers_submission_queue(4) == 9 * 4096 && nvmesim_buffers_completion_queue(4) == 10 * 4096);
    CHECK(nvmesim_buffers_completion_queue(5) == nvmesim_buffers_completion_queue(65535));
}

void buffers(void) {
    places();
    others();
}
