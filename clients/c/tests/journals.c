/* Tests of the calls on journals. */
#include "hosts.h"
#include <nvmetcp.h>

static bool lasts(uint8_t opcode, uint8_t dw10, bool is_admin) {
    uint8_t entry[64] = {opcode};
    entry[40] = dw10;
    return nvmesim_journal_lasts(entry, is_admin);
}

static int how_many(bool is_admin, uint8_t dw10) {
    int count = 0;
    for (int opcode = 0; opcode < 256; opcode++)
        count += lasts((uint8_t)opcode, dw10, is_admin);
    return count;
}

void journals(void) {
    /* Reservation Register, Acquire and Release; Namespace Attachment, and Set Features of the write protection. */
    CHECK(lasts(0x0d, 0, false) && lasts(0x11, 0, false) && lasts(0x15, 0, false) && how_many(false, 0) == 3);
    CHECK(lasts(0x15, 0, true) && how_many(true, 0) == 1);
    CHECK(lasts(0x09, 0x84, true) && how_many(true, 0x84) == 2);
    const uint8_t three[2] = {3, 0}, most[2] = {255, 255};
    CHECK(nvmesim_journal_kept_length(three, true) == 8 && nvmesim_journal_kept_length(most, true) == 131072);
    CHECK(nvmesim_journal_kept_length(three, false) == 16);
}
