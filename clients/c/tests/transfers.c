/* Tests of which data that a host sends are whose. */
#include "hosts.h"
#include <nvmetcp.h>

enum { ROOM = 12 };

/* The entry of a command with this identifier. */
static const uint8_t *named(uint8_t cid) {
    static uint8_t bytes[64] = {1, 0x40};
    bytes[2] = cid;
    return bytes;
}

static nvmesim_part part(uint16_t tag, uint32_t offset, uint32_t length, bool is_last) {
    const nvmesim_part it = {
        .cid = 1, .tag = tag, .offset = offset, .length = length, .is_last = is_last, .is_sound = true};
    return it;
}

/* Command 1, which was asked for 8 bytes. */
static nvmesim_transfers asked(void) {
    nvmesim_transfers it = NVMESIM_NO_TRANSFERS;
    CHECK(nvmesim_transfers_open(&it) == NVMESIM_OK && it.is_open);
    CHECK(nvmesim_transfers_open(&it) == NVMESIM_ALREADY_OPEN);
    CHECK(nvmesim_transfers_begin(&it, named(1), 8) == NVMESIM_OK);
    const nvmesim_next_request request = nvmesim_transfers_next_request(&it);
    CHECK(request.what == NVMESIM_OK && request.cid == 1 && request.tag == 0 && request.length == 8);
    CHECK(nvmesim_transfers_next_request(&it).what == NVMESIM_NO_REQUEST);
    return it;
}

/* Parts in their order, by a store; a wrong digest of one is remembered. */
static void stored(void) {
    static const uint8_t bytes[4] = {1, 2, 3, 4}, whole[ROOM] = {1, 2, 3, 4, 1, 2, 3, 4};
    nvmesim_transfers it = asked();
    uint8_t room[ROOM] = {0};
    nvmesim_part next = part(0, 0, 4, false);
    next.is_sound = false;
    nvmesim_part_taken taken = nvmesim_transfers_store(&it, &next, bytes, 4, room, 3);
    CHECK(taken.what == NVMESIM_BAD_PDU && taken.status == 4 && taken.field == 0 && memcmp(room, zeros, ROOM) == 0);
    taken = nvmesim_transfers_store(&it, &next, bytes, 3, room, ROOM);
    CHECK(taken.what == NVMESIM_BAD_PDU && memcmp(room, zeros, ROOM) == 0);
    taken = nvmesim_transfers_store(&it, &next, bytes, 4, room, 8);
    CHECK(taken.what == NVMESIM_OK && !taken.is_complete && taken.begin == 0 && taken.length == 0);
    next = part(0, 4, 4, true);
    taken = nvmesim_transfers_store(&it, &next, bytes, 4, room, 8);
    CHECK(taken.what == NVMESIM_OK && taken.is_complete && !taken.is_sound && taken.begin == 4 && taken.length == 8);
    CHECK(memcmp(taken.entry, named(1), 64) == 0 && memcmp(room, whole, ROOM) == 0);
    CHECK(nvmesim_transfers_store(&it, &next, bytes, 4, room, 8).what == NVMESIM_BAD_PDU);
    CHECK(nvmesim_transfers_count(&it) == 0);
    nvmesim_transfers_close(&it);
    CHECK(!it.is_open);
}

/* A part that is not the next one changes nothing; the data of one part stay where they are. */
static void refused(void) {
    const nvmesim_part wrong[] = {part(0, 4, 4, true),  part(0, 0, 9, true), part(0, 0, 8, false), part(0, 0, 4, true),
                                  part(0, 0, 0, false), part(1, 0, 4, false), part(UINT16_MAX, 0, 8, true),
                                  part(0, UINT32_MAX, UINT32_MAX, true)};
    nvmesim_transfers it = asked();
    for (size_t i = 0; i < sizeof wrong / sizeof *wrong; i++)
        CHECK(nvmesim_transfers_take(&it, &wrong[i]).what == NVMESIM_BAD_PDU);
    nvmesim_part next = part(0, 0, 8, true);
    next.cid = 2;
    CHECK(nvmesim_transfers_take(&it, &next).status == 4 && nvmesim_transfers_has(&it, 1));
    next.cid = 1;
    const nvmesim_part_taken taken = nvmesim_transfers_take(&it, &next);
    CHECK(taken.what == NVMESIM_OK && taken.is_complete && taken.is_sound && taken.length == 8);
    CHECK(!nvmesim_transfers_has(&it, 1));
    nvmesim_transfers_close(&it);
}

/* Eight tags, 64 that wait, and the end. */
static void many(void) {
    nvmesim_transfers it = asked();
    CHECK(nvmesim_transfers_begin(&it, named(2), 0) == NVMESIM_NO_DATA);
    CHECK(nvmesim_transfers_begin(&it, named(1), 8) == NVMESIM_IN_FLIGHT);
    for (uint8_t cid = 100; cid < 164; cid++)
        CHECK(nvmesim_transfers_begin(&it, named(cid), 4) == NVMESIM_OK);
    CHECK(nvmesim_transfers_begin(&it, named(2), 4) == NVMESIM_MANY_WAIT && nvmesim_transfers_count(&it) == 65);
    for (uint16_t tag = 1; tag < 8; tag++) {
        const nvmesim_next_request request = nvmesim_transfers_next_request(&it);
        CHECK(request.what == NVMESIM_OK && request.tag == tag && request.cid == 99 + tag && request.length == 4);
    }
    CHECK(nvmesim_transfers_next_request(&it).what == NVMESIM_NO_REQUEST);
    nvmesim_part next = part(3, 0, 4, true);
    next.cid = 102;
    CHECK(nvmesim_transfers_take(&it, &next).is_complete && nvmesim_transfers_next_request(&it).tag == 3);
    CHECK(nvmesim_transfers_end(&it) == NVMESIM_OK && nvmesim_transfers_count(&it) == 0);
    CHECK(nvmesim_transfers_begin(&it, named(2), 4) == NVMESIM_ENDED && !nvmesim_transfers_has(&it, 1));
    CHECK(nvmesim_transfers_next_request(&it).what == NVMESIM_NO_REQUEST);
    nvmesim_transfers_close(&it);
}

/* None are open: each call reports that, and changes nothing. */
static void closed(void) {
    nvmesim_transfers it = NVMESIM_NO_TRANSFERS;
    const nvmesim_part next = part(0, 0, 4, true);
    uint8_t room[ROOM] = {0};
    CHECK(nvmesim_transfers_count(&it) == 0 && !nvmesim_transfers_has(&it, 0));
    CHECK(nvmesim_transfers_begin(&it, named(1), 8) == NVMESIM_CLOSED);
    CHECK(nvmesim_transfers_next_request(&it).what == NVMESIM_CLOSED);
    CHECK(nvmesim_transfers_take(&it, &next).what == NVMESIM_CLOSED);
    CHECK(nvmesim_transfers_store(&it, &next, named(1), 4, room, ROOM).what == NVMESIM_CLOSED);
    CHECK(memcmp(room, zeros, ROOM) == 0 && nvmesim_transfers_end(&it) == NVMESIM_CLOSED && !it.is_open);
    nvmesim_transfers_close(&it);
}

void transfers(void) {
    stored();
    refused();
    many();
    closed();
}
