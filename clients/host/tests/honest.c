/* The port over a controller in memory that does as the standard asks, and over controllers that differ in one thing,
 * each of which is refused by name before anything is sent to its blocks. Prints nothing if all is as expected. */
#include "trial.h"

static void transfers(void)
{
    static uint8_t bytes[NVMEHOST_BUFFER], other[512];
    static const uint32_t lengths[] = { 512, 4096, 4608, 8192, 8704, 65536, NVMEHOST_BUFFER };
    for (size_t i = 0; i < sizeof bytes; i++)
        bytes[i] = (uint8_t)(i * 2654435761u >> 13);
    for (size_t i = 0; i < sizeof lengths / sizeof *lengths; i++) {
        uint32_t len = lengths[i];
        memset(device.blocks, 0, sizeof device.blocks);
        struct nvmehost_outcome outcome = answer(nvmehost_write(&p.host, 1, 100, bytes, len));
        EXPECT(outcome.code == NVMEHOST_DONE && outcome.sct == 0 && outcome.sc == 0);
        EXPECT(memcmp(device.blocks + 51200, bytes, len) == 0 && device.blocks[51200 + len] == 0);
        outcome = answer(nvmehost_read(&p.host, 1, 100, len / 512));
        EXPECT(outcome.code == NVMEHOST_DONE && outcome.len == len && memcmp(p.buffer, bytes, len) == 0);
        outcome = answer(nvmehost_compare(&p.host, 1, 100, bytes, len));
        EXPECT(outcome.code == NVMEHOST_DONE && outcome.sct == 0 && outcome.sc == 0);
    }
    struct nvmehost_outcome outcome = answer(nvmehost_compare(&p.host, 1, 100, other, 512));
    EXPECT(outcome.code == NVMEHOST_DONE && outcome.sct == 2 && outcome.sc == 0x85);
    outcome = answer(nvmehost_write_zeroes(&p.host, 1, 101, 2));
    EXPECT(outcome.code == NVMEHOST_DONE && outcome.sc == 0 && memcmp(device.blocks + 51200, bytes, 512) == 0);
    EXPECT(memcmp(device.blocks + 51712, other, 512) == 0);
    outcome = answer(nvmehost_flush(&p.host, 1));
    EXPECT(outcome.code == NVMEHOST_DONE && outcome.sc == 0);
    outcome = answer(nvmehost_identify(&p.host, 1, 0));
    EXPECT(outcome.code == NVMEHOST_DONE && outcome.len == 4096 && p.buffer[4] == 'T');
}

static void refusals(void)
{
    static uint8_t bytes[1024];
    EXPECT_IS(nvmehost_read(&p.host, 1, DEVICE_BLOCKS - 1, 2).code, NVMEHOST_PAST_THE_END);
    EXPECT_IS(nvmehost_read(&p.host, 1, UINT64_MAX, 2).code, NVMEHOST_PAST_THE_END);
    EXPECT_IS(nvmehost_read(&p.host, 2, 0, 1).code, NVMEHOST_NAMESPACE_NOT_ASKED);
    EXPECT_IS(nvmehost_read(&p.host, 1, 0, 0).code, NVMEHOST_BAD_REQUEST);
    EXPECT_IS(nvmehost_write(&p.host, 1, 0, bytes, 1000).code, NVMEHOST_BAD_REQUEST);
    EXPECT_IS(nvmehost_ask(&p.host, 65).code, NVMEHOST_NSID_TOO_HIGH);
    EXPECT_IS(ask(2), NVMEHOST_DONE);
    EXPECT_IS(nvmehost_namespace(&p.host, 2).code, NVMEHOST_NOT_THERE);
    EXPECT_IS(nvmehost_read(&p.host, 2, 0, 1).code, NVMEHOST_NOT_THERE);
    /* A poll and a ring that have to wait for the actions of a placing. */
    EXPECT_IS(nvmehost_read(&p.host, 1, 0, 1).code, NVMEHOST_OK);
    EXPECT_IS(nvmehost_ring(&p.host), NVMEHOST_ACTIONS_PENDING);
    EXPECT_IS(nvmehost_poll(&p.host, p.buffer, NVMEHOST_BUFFER).code, NVMEHOST_ACTIONS_PENDING);
    EXPECT_IS(nvmehost_poll(&p.host, p.buffer, NVMEHOST_BUFFER - 1).code, NVMEHOST_OUTSIDE);
    EXPECT_IS(nvmehost_reset(&p.host), NVMEHOST_ACTIONS_PENDING);
    port_perform(&p);
    port_ring(&p);
    device_turn(&device);
    EXPECT_IS(port_poll(&p).code, NVMEHOST_DONE);
    EXPECT_IS(port_poll(&p).code, NVMEHOST_NOTHING);
}

/* All that waits is aborted by a reset, and delivered once; then the controller comes up again, and has to be asked
 * again. */
static void resets(void)
{
    uint64_t last = 0;
    for (int i = 0; i < 7; i++) {
        last = nvmehost_read(&p.host, 1, 0, 1).ticket;
        port_perform(&p);
    }
    EXPECT_IS(nvmehost_read(&p.host, 1, 0, 1).code, NVMEHOST_RING_FULL);
    port_ring(&p);
    device_turn(&device);
    EXPECT_IS(port_reset(&p), NVMEHOST_OK);
    for (int i = 6; i >= 0; i--) {
        struct nvmehost_outcome outcome = port_poll(&p);
        EXPECT(outcome.code == NVMEHOST_ABORTED && outcome.ticket == last - (uint64_t)i);
    }
    EXPECT_IS(port_poll(&p).code, NVMEHOST_NOT_UP);
    EXPECT_IS(start(), NVMEHOST_OK);
    EXPECT_IS(nvmehost_read(&p.host, 1, 0, 1).code, NVMEHOST_CONTROLLER_NOT_ASKED);
    EXPECT_IS(ask(0), NVMEHOST_DONE);
    EXPECT_IS(nvmehost_read(&p.host, 1, 0, 1).code, NVMEHOST_NAMESPACE_NOT_ASKED);
    EXPECT_IS(ask(1), NVMEHOST_DONE);
    struct nvmehost_outcome outcome = answer(nvmehost_read(&p.host, 1, 0, 1));
    EXPECT(outcome.code == NVMEHOST_DONE && outcome.ticket > last);
    EXPECT_IS(port_shutdown(&p), NVMEHOST_OK);
    EXPECT_IS(nvmehost_read(&p.host, 1, 0, 1).code, NVMEHOST_NOT_UP);
    EXPECT_IS(port_reset(&p), NVMEHOST_OK);
}

static void good(void)
{
    struct nvmehost_outcome outcome;
    begin();
    EXPECT_IS(nvmehost_bring_up(&p.host).code, NVMEHOST_NOT_JUDGED);
    device.ready_after = 3;
    EXPECT_IS(start(), NVMEHOST_OK);
    EXPECT_IS(port_start(&p, &outcome), NVMEHOST_OK);
    EXPECT_IS(ask(0), NVMEHOST_DONE);
    EXPECT_IS(ask(1), NVMEHOST_DONE);
    EXPECT(nvmehost_namespace(&p.host, 1).blocks == DEVICE_BLOCKS && nvmehost_controller(&p.host).mdts == 5);
    transfers();
    refusals();
    resets();
}

/* A Read that is not answered in time: nothing is sent before a reset. */
static struct nvmehost_placed expire_read(void)
{
    device.is_silent = true;
    struct nvmehost_placed placed = nvmehost_read(&p.host, 1, 0, 1);
    struct nvmehost_outcome outcome = port_answer(&p, placed, 5);
    EXPECT(outcome.code == NVMEHOST_EXPIRED && outcome.ticket == placed.ticket);
    EXPECT_IS(nvmehost_read(&p.host, 1, 0, 1).code, NVMEHOST_EXPIRED);
    EXPECT_IS(nvmehost_ring(&p.host), NVMEHOST_EXPIRED);
    EXPECT_IS(nvmehost_bring_up(&p.host).code, NVMEHOST_NOT_DISABLED);
    device.is_silent = false;
    return placed;
}

/* A late completion is the answer to its own request; without it the reset aborts the request. */
static void expires(void)
{
    begin();
    open_namespace();
    EXPECT_IS(nvmehost_expire(&p.host, 1000), NVMEHOST_NOT_WAITING);
    struct nvmehost_placed placed = expire_read();
    device_turn(&device);
    struct nvmehost_outcome outcome = port_poll(&p);
    EXPECT(outcome.code == NVMEHOST_DONE && outcome.ticket == placed.ticket);
    EXPECT_IS(port_reset(&p), NVMEHOST_OK);
    open_namespace();
    placed = expire_read();
    EXPECT_IS(port_reset(&p), NVMEHOST_OK);
    device_turn(&device);
    outcome = port_poll(&p);
    EXPECT(outcome.code == NVMEHOST_ABORTED && outcome.ticket == placed.ticket);
    open_namespace();
    EXPECT_IS(answer(nvmehost_read(&p.host, 1, 0, 1)).code, NVMEHOST_DONE);
}

/* A controller that goes away while a request waits is named long before the time is over. Nothing is sent before a
 * reset. */
static void goes_away(void)
{
    static const uint32_t wanted[] = { NVMEHOST_REMOVED, NVMEHOST_FATAL, NVMEHOST_NOT_READY };
    for (int i = 0; i < 3; i++) {
        begin();
        open_namespace();
        device.is_silent = true, device.is_gone = i == 0, device.is_fatal = i == 1, device.is_stuck = i == 2;
        if (device.is_stuck)
            *(volatile uint32_t *)(p.registers + 0x1c) = 0;
        struct nvmehost_placed placed = nvmehost_read(&p.host, 1, 0, 1);
        struct nvmehost_outcome outcome = port_answer(&p, placed, 30000);
        EXPECT_IS(outcome.code, wanted[i]);
        EXPECT(outcome.ticket == placed.ticket);
        EXPECT_IS(nvmehost_read(&p.host, 1, 0, 1).code, NVMEHOST_EXPIRED);
    }
}

/* The doorbells of a controller are 32 bytes apart. */
static void strides(void)
{
    begin();
    device.cap |= (uint64_t)3 << 32;
    EXPECT_IS(start(), NVMEHOST_OK);
    EXPECT_IS(ask(0), NVMEHOST_DONE);
    EXPECT_IS(ask(1), NVMEHOST_DONE);
    EXPECT_IS(answer(nvmehost_read(&p.host, 1, 0, 1)).code, NVMEHOST_DONE);
    begin();
    device.cap |= (uint64_t)15 << 32;
    EXPECT_IS(start(), NVMEHOST_OUTSIDE);
}

/* Controllers that do not come up. */
static void unfit(void)
{
    begin();
    device.cap = (device.cap & ~(uint64_t)0xffff) | 30;
    EXPECT_IS(start(), NVMEHOST_QUEUES_TOO_SHORT);
    begin();
    device.cap &= ~((uint64_t)1 << 37);
    EXPECT_IS(start(), NVMEHOST_NO_NVM_COMMANDS);
    begin();
    device.cap |= (uint64_t)1 << 48;
    EXPECT_IS(start(), NVMEHOST_PAGE_SIZE);
    begin();
    device.is_gone = true;
    EXPECT_IS(start(), NVMEHOST_REMOVED);
    begin();
    device.is_fatal = true;
    EXPECT_IS(start(), NVMEHOST_FATAL);
    EXPECT_IS(nvmehost_bring_up(&p.host).code, NVMEHOST_NOT_DISABLED);
    begin();
    device.is_stuck = true;
    EXPECT_IS(start(), NVMEHOST_TIMED_OUT);
    begin();
    EXPECT_IS(start(), NVMEHOST_OK);
    device.is_stuck = true;
    EXPECT_IS(port_reset(&p), NVMEHOST_TIMED_OUT);
    EXPECT_IS(nvmehost_bring_up(&p.host).code, NVMEHOST_NOT_DISABLED);
    device.is_stuck = false, device.is_gone = true;
    EXPECT_IS(port_reset(&p), NVMEHOST_REMOVED);
    begin();
    device.is_silent = true;
    EXPECT_IS(start(), NVMEHOST_NO_ANSWER);
}

/* Controllers and namespaces that are refused once they were asked: nothing is sent to their blocks. */
static void refused(uint32_t of_controller, uint32_t of_read, uint32_t of_compare)
{
    static uint8_t block[4096];
    EXPECT_IS(start(), NVMEHOST_OK);
    EXPECT_IS(ask(0), NVMEHOST_DONE);
    EXPECT_IS(nvmehost_controller(&p.host).code, of_controller);
    EXPECT_IS(ask(1), NVMEHOST_DONE);
    struct nvmehost_placed placed = nvmehost_read(&p.host, 1, 0, 256);
    EXPECT_IS(placed.code, of_read);
    if (placed.code == NVMEHOST_OK)
        EXPECT_IS(answer(placed).code, NVMEHOST_DONE);
    EXPECT_IS(nvmehost_compare(&p.host, 1, 0, block, 512).code, of_compare);
}

static void asked(void)
{
    begin();
    device.lbads = 12;
    refused(NVMEHOST_OK, NVMEHOST_BLOCK_SIZE, NVMEHOST_BLOCK_SIZE);
    begin();
    device.metadata = 8;
    refused(NVMEHOST_OK, NVMEHOST_METADATA, NVMEHOST_METADATA);
    begin();
    device.dps = 1;
    refused(NVMEHOST_OK, NVMEHOST_METADATA, NVMEHOST_METADATA);
    begin();
    device.nsze = 0;
    refused(NVMEHOST_OK, NVMEHOST_NOT_THERE, NVMEHOST_NOT_THERE);
    begin();
    device.nsze = 255;
    refused(NVMEHOST_OK, NVMEHOST_PAST_THE_END, NVMEHOST_OK);
    begin();
    device.oncs = 8;
    refused(NVMEHOST_OK, NVMEHOST_OK, NVMEHOST_NOT_SUPPORTED);
    begin();
    device.mdts = 3;
    refused(NVMEHOST_OK, NVMEHOST_TOO_LONG, NVMEHOST_OK);
    begin();
    device.sqes = 0x55;
    refused(NVMEHOST_ENTRY_SIZE, NVMEHOST_ENTRY_SIZE, NVMEHOST_ENTRY_SIZE);
}

int main(void)
{
    trial_begin();
    EXPECT_IS(nvmehost_ring(&p.host), NVMEHOST_CLOSED);
    good();
    expires();
    goes_away();
    strides();
    unfit();
    asked();
    return trial_end();
}
