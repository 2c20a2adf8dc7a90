/* Tests of the calls on responses. */
#include "hosts.h"
#include <nvmetcp.h>

/* Answers a command with a status; what the call returned. */
static uint32_t respond(nvmesim_responses *it, uint16_t cid, uint8_t sct, uint8_t sc, uint8_t *entry) {
    const nvmesim_reply reply = {.dw0 = 0x04030201, .dw1 = 0x08070605, .cid = cid, .sct = sct, .sc = sc};
    return nvmesim_responses_respond(it, &reply, entry);
}

/* A queue of four entries, whose Connect has identifier 0x0105 and got its response. */
static nvmesim_responses connected(bool is_flow_control_disabled) {
    static const uint8_t wanted[16] = {1, 2, 3, 4, 5, 6, 7, 8, 1, 0, 0, 0, 5, 1, 0, 0};
    nvmesim_responses it = {0};
    uint8_t entry[16];
    CHECK(nvmesim_responses_accept(&it, 0x0105) == NVMESIM_OK);
    CHECK(nvmesim_responses_accept(&it, 6) == NVMESIM_QUEUE_FULL);
    nvmesim_responses_connected(&it, 3, is_flow_control_disabled);
    CHECK(respond(&it, 0x0105, 0, 0, entry) == NVMESIM_OK && it.count == 0);
    CHECK(is_flow_control_disabled ? entry[8] == 0xff && entry[9] == 0xff : memcmp(entry, wanted, 16) == 0);
    return it;
}

/* Commands get their responses, each once. */
static void commands(void) {
    nvmesim_responses it = connected(false);
    uint8_t entry[16];
    memset(entry, 7, sizeof entry);
    CHECK(nvmesim_responses_accept(&it, 1) == NVMESIM_OK && nvmesim_responses_accept(&it, 2) == NVMESIM_OK);
    CHECK(nvmesim_responses_accept(&it, 1) == NVMESIM_CONFLICT && nvmesim_responses_accept(&it, 4) == NVMESIM_OK);
    CHECK(it.head == 1 && it.count == 4);
    CHECK(nvmesim_responses_accept(&it, 9) == NVMESIM_QUEUE_FULL && it.head == 1 && it.count == 4);
    CHECK(respond(&it, 9, 0, 0, entry) == NVMESIM_NO_COMMAND && entry[0] == 7 && entry[15] == 7);
    CHECK(respond(&it, 1, 0, 3, entry) == NVMESIM_OK && entry[12] == 1 && entry[14] == 6 && entry[15] == 0x80);
    CHECK(respond(&it, 1, 0, 0, entry) == NVMESIM_OK && entry[14] == 0 && entry[15] == 0);
    CHECK(respond(&it, 1, 0, 0, entry) == NVMESIM_NO_COMMAND);
    CHECK(nvmesim_responses_forget(&it, 2) == NVMESIM_OK && nvmesim_responses_forget(&it, 2) == NVMESIM_NO_COMMAND);
    nvmesim_responses_end(&it);
    CHECK(nvmesim_responses_accept(&it, 5) == NVMESIM_QUEUE_ENDED && it.stage == NVMESIM_QUEUE_STAGE_ENDING);
    nvmesim_responses other = it;
    CHECK(respond(&it, 4, 0, 0, entry) == NVMESIM_OK && entry[8] == 1);
    nvmesim_responses_stop(&other), nvmesim_responses_end(&other);
    CHECK(respond(&other, 4, 0, 0, entry) == NVMESIM_NO_COMMAND && other.stage == NVMESIM_QUEUE_STAGE_ENDED);
}

/* Statuses, and which of them have Do Not Retry. Whatever numbers a struct has, each call returns. */
static void statuses(void) {
    CHECK(nvmesim_responses_status(0, 0) == 0 && nvmesim_responses_status(0, 0x83) == 0x8106);
    CHECK(nvmesim_responses_status(0, 0x22) == 0x0044 && nvmesim_responses_status(1, 0x81) == 0x0302);
    (void)connected(true);
    for (unsigned byte = 0; byte < 256; byte++) {
        nvmesim_responses it;
        uint8_t entry[16];
        memset(&it, (int)byte, sizeof it);
        it.is_flow_control_disabled = byte % 2 == 1;
        const uint16_t cid = (uint16_t)(byte * 257);
        const bool is_there = byte > 0 && byte < 2;
        CHECK((respond(&it, cid, 0, 0, entry) == NVMESIM_OK) == is_there);
        (void)nvmesim_responses_accept(&it, cid), (void)nvmesim_responses_forget(&it, cid);
        CHECK(it.count <= 64 || it.count == cid);
        nvmesim_responses_connected(&it, cid, false), nvmesim_responses_end(&it), nvmesim_responses_stop(&it);
        CHECK(it.count == 0 && it.stage == NVMESIM_QUEUE_STAGE_ENDED);
    }
}

void responses(void) {
    commands();
    statuses();
}
