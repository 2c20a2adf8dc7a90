/* Tests of the library through its header alone. Each failed check is printed with its line; the status is then 1. */
#include "hosts.h"

/* Every call on a struct that is not open answers so, and leaves it as it was. */
static void closed(void) {
    nvmesim sim = NVMESIM_NONE;
    uint8_t bytes[512];
    memset(bytes, 7, sizeof bytes);
    CHECK(nvmesim_store(&sim, 1, 0, bytes, 1).what == NVMESIM_CLOSED);
    CHECK(nvmesim_write32(&sim, 1, CC, 1).what == NVMESIM_CLOSED);
    CHECK(nvmesim_read32(&sim, 1, CC).what == NVMESIM_CLOSED);
    CHECK(nvmesim_fetch(&sim, 1, 0).what == NVMESIM_CLOSED);
    CHECK(nvmesim_execute(&sim, 1, 0).what == NVMESIM_CLOSED);
    CHECK(nvmesim_power_cycle(&sim).what == NVMESIM_CLOSED);
    CHECK(nvmesim_load(&sim, 1, 0, bytes, 512) == NVMESIM_CLOSED && bytes[0] == 7);
    CHECK(nvmesim_read_blocks(&sim, 1, 0, bytes, 512) == NVMESIM_CLOSED && bytes[0] == 7);
    CHECK(nvmesim_submit(&sim, 1, 0, bytes, bytes + 64).what == NVMESIM_CLOSED && bytes[64] == 7);
    CHECK(nvmesim_submission_queue(&sim, 1, 0).what == NVMESIM_CLOSED);
    CHECK(nvmesim_completion_queue(&sim, 1, 0).what == NVMESIM_CLOSED);
    CHECK(nvmesim_fetched(&sim, 1, 0).what == NVMESIM_CLOSED);
    CHECK(nvmesim_needs(&sim, 1, 0).what == NVMESIM_CLOSED);
    CHECK(nvmesim_is_attached(&sim, 1, 1).what == NVMESIM_CLOSED);
    CHECK(nvmesim_reservation(&sim, 1).what == NVMESIM_CLOSED);
    CHECK(nvmesim_registrant(&sim, 1, 0).what == NVMESIM_CLOSED);
    nvmesim_close(&sim);
    CHECK(sim.subsystem == NULL && !sim.is_open);
}

/* A wrong configuration is refused by its first fault, and nothing is opened. */
static void configurations(void) {
    nvmesim sim = NVMESIM_NONE;
    const nvmesim_controller unnumbered[] = {{0xa1, 0, 2, true}}, hostless[] = {{0, 0, 1, true}};
    const nvmesim_namespace ninth[] = {{64, 9, true}}, empty[] = {{0, 1, true}}, larger[] = {{65, 1, true}};
    const nvmesim_attached unknown[] = {{1, 3}};
    nvmesim_controller many[17];
    for (uint16_t i = 0; i < 17; i++)
        many[i] = (nvmesim_controller){1, 0, (uint16_t)(i + 1), true};
#define OPENED(version, controllers, n, namespaces, attached, m) \
    nvmesim_open(&sim, version, NVMESIM_SCRIPT_BLOCKS, controllers, n, namespaces, 1, attached, m, zeros, sizeof zeros)
    CHECK(OPENED(NVMESIM_VERSION + 1, two, 2, shared, both, 2) == NVMESIM_BAD_VERSION);
    CHECK(OPENED(NVMESIM_VERSION, unnumbered, 1, shared, both, 0) == NVMESIM_BAD_ID);
    CHECK(OPENED(NVMESIM_VERSION, hostless, 1, shared, both, 0) == NVMESIM_BAD_ID);
    CHECK(OPENED(NVMESIM_VERSION, two, 2, ninth, both, 0) == NVMESIM_BAD_ID);
    CHECK(OPENED(NVMESIM_VERSION, two, 2, shared, unknown, 1) == NVMESIM_BAD_ID);
    CHECK(OPENED(NVMESIM_VERSION, two, 2, empty, both, 2) == NVMESIM_BAD_SIZE);
    CHECK(OPENED(NVMESIM_VERSION, two, 2, larger, both, 2) == NVMESIM_DOES_NOT_FIT);
    CHECK(nvmesim_open(&sim, NVMESIM_VERSION, 63, two, 2, shared, 1, both, 2, zeros, sizeof zeros) ==
          NVMESIM_BAD_SIZE);
    CHECK(OPENED(NVMESIM_VERSION, many, 17, shared, both, 0) == NVMESIM_TOO_MANY);
    CHECK(!sim.is_open);
    CHECK(OPENED(NVMESIM_VERSION, two, 2, shared, both, 2) == NVMESIM_OK && sim.is_open);
    void *subsystem = sim.subsystem;
    CHECK(OPENED(NVMESIM_VERSION, two, 2, shared, both, 2) == NVMESIM_ALREADY_OPEN && sim.subsystem == subsystem);
#undef OPENED
    nvmesim_close(&sim);
    CHECK(!sim.is_open);
    CHECK(nvmesim_version() == NVMESIM_VERSION);
}

/* Addresses and identifiers that are not there are answers, and change nothing. */
static void refusals(void) {
    nvmesim sim = NVMESIM_NONE;
    uint8_t bytes[1024];
    memset(bytes, 7, sizeof bytes);
    CHECK(open_two(&sim) == NVMESIM_OK);
    CHECK(nvmesim_store(&sim, 1, WINDOW - 1, bytes, 1).what == NVMESIM_STORED);
    CHECK(nvmesim_store(&sim, 1, WINDOW - 1, bytes, 2).what == NVMESIM_OUTSIDE);
    CHECK(nvmesim_store(&sim, 1, UINT64_MAX, bytes, 2).what == NVMESIM_OUTSIDE);
    CHECK(nvmesim_store(&sim, 0, 0, bytes, 1).what == NVMESIM_NO_CONTROLLER);
    CHECK(nvmesim_store(&sim, 3, 0, bytes, 1).what == NVMESIM_NO_CONTROLLER);
    CHECK(nvmesim_load(&sim, 1, WINDOW - 1, bytes, 2) == NVMESIM_OUTSIDE && bytes[1] == 7);
    CHECK(nvmesim_load(&sim, 65535, 0, bytes, 2) == NVMESIM_NO_CONTROLLER && bytes[1] == 7);
    CHECK(nvmesim_read_blocks(&sim, 1, 63, bytes, 1024) == NVMESIM_OUTSIDE && bytes[0] == 7);
    CHECK(nvmesim_read_blocks(&sim, 2, 0, bytes, 512) == NVMESIM_OUTSIDE && bytes[0] == 7);
    CHECK(nvmesim_read_blocks(&sim, 1, 0, bytes, 511) == NVMESIM_NOT_WHOLE && bytes[0] == 7);
    CHECK(nvmesim_read_blocks(&sim, 1, 62, bytes, 1024) == NVMESIM_OK && bytes[0] == 0 && bytes[1023] == 0);
    CHECK(nvmesim_read32(&sim, 1, 0x7fffffff).what == NVMESIM_VALUE);
    CHECK(nvmesim_fetch(&sim, 1, 0).what == NVMESIM_IDLE);
    CHECK(nvmesim_execute(&sim, 1, 0).what == NVMESIM_NO_SUCH);
    nvmesim_close(&sim);
}

/* Borrowed bytes are the medium: a command changes them at once. An opening that is refused, or that finds one open,
 * leaves all of them unchanged, and so does a close. */
static void lent(void) {
    nvmesim sim = NVMESIM_NONE;
    static uint8_t bytes[64 * 512], wanted[64 * 512];
    const nvmesim_controller unnumbered[] = {{0xa1, 0, 2, false}};
    const nvmesim_namespace ninth[] = {{64, 9, true}}, empty[] = {{0, 1, true}}, larger[] = {{65, 1, true}};
    const nvmesim_attached unknown[] = {{1, 3}};
    uint8_t command[64], block[512];
    for (size_t i = 0; i < sizeof bytes; i++)
        bytes[i] = wanted[i] = (uint8_t)(7 * i + 1);
#define OPENED(version, controllers, namespaces, attached) \
    nvmesim_open_lent(&sim, version, NVMESIM_SCRIPT_BLOCKS, controllers, 1, namespaces, 1, attached, 1, \
                      (nvmesim_bytes){bytes, sizeof bytes})
#define KEPT(holds) CHECK((holds) && memcmp(bytes, wanted, sizeof bytes) == 0)
    KEPT(OPENED(NVMESIM_VERSION + 1, two, shared, both) == NVMESIM_BAD_VERSION);
    KEPT(OPENED(NVMESIM_VERSION, unnumbered, shared, both) == NVMESIM_BAD_ID);
    KEPT(OPENED(NVMESIM_VERSION, two, ninth, both) == NVMESIM_BAD_ID);
    KEPT(OPENED(NVMESIM_VERSION, two, shared, unknown) == NVMESIM_BAD_ID);
    KEPT(OPENED(NVMESIM_VERSION, two, empty, both) == NVMESIM_BAD_SIZE);
    KEPT(OPENED(NVMESIM_VERSION, two, larger, both) == NVMESIM_DOES_NOT_FIT);
    KEPT(OPENED(NVMESIM_VERSION, two, shared, both) == NVMESIM_OK);
    KEPT(OPENED(NVMESIM_VERSION, two, shared, both) == NVMESIM_ALREADY_OPEN);
    up(&sim, 1);
    memset(block, 0x5a, sizeof block);
    CHECK(nvmesim_store(&sim, 1, DATA, block, sizeof block).what == NVMESIM_STORED);
    entry(command, 0x01, 1, DATA, 9, 0);
    KEPT(nvmesim_write32(&sim, 1, 0x9999, 1).what == NVMESIM_WROTE);
    CHECK(by_calls(&sim, 1, 1, 0, command).what == NVMESIM_POSTED);
    memcpy(wanted + 9 * 512, block, sizeof block);
    KEPT(nvmesim_power_cycle(&sim).what == NVMESIM_CYCLED);
    nvmesim_close(&sim);
    KEPT(!sim.is_open);
#undef OPENED
#undef KEPT
}

/* Two subsystems at a time have nothing in common, and sixteen controllers with the largest namespaces work. */
static void largest(void) {
    enum { COUNT = 16, BLOCKS = 65536 };
    nvmesim one = NVMESIM_NONE, other = NVMESIM_NONE;
    nvmesim_controller controllers[COUNT];
    nvmesim_namespace namespaces[2] = {{BLOCKS, 1, true}, {BLOCKS, 8, true}};
    nvmesim_attached attached[COUNT];
    for (uint16_t i = 0; i < COUNT; i++) {
        controllers[i] = (nvmesim_controller){i + 1u, 5, (uint16_t)(i + 1), true};
        attached[i] = (nvmesim_attached){8, (uint16_t)(i + 1)};
    }
    size_t size = (size_t)2 * BLOCKS * 512;
    uint8_t *bytes = calloc(1, size), block[512], read[512];
    if (bytes == NULL)
        exit(2);
    CHECK(nvmesim_open_lent(&one, NVMESIM_VERSION, NVMESIM_SCRIPT_BLOCKS, controllers, COUNT, namespaces, 2, attached,
                            COUNT, (nvmesim_bytes){bytes, size}) == NVMESIM_OK);
    CHECK(open_two(&other) == NVMESIM_OK);
    up(&one, COUNT);
    CHECK(nvmesim_read32(&one, COUNT, CSTS).value == 1 && nvmesim_read32(&other, 1, CSTS).value == 0);
    memset(block, 0x5a, sizeof block);
    nvmesim_store(&one, COUNT, DATA, block, sizeof block);
    uint8_t command[64];
    entry(command, 0x01, 8, DATA, BLOCKS - 1, 0);
    nvmesim_answer answer = by_calls(&one, COUNT, 1, 0, command);
    CHECK(answer.what == NVMESIM_POSTED && answer.sct == 0 && answer.sc == 0);
    CHECK(nvmesim_read_blocks(&one, 8, BLOCKS - 1, read, 512) == NVMESIM_OK && memcmp(read, block, 512) == 0);
    entry(command, 0x01, 1, DATA, 0, 0);
    answer = by_calls(&one, COUNT, 1, 1, command);
    CHECK(answer.what == NVMESIM_POSTED && (answer.sct || answer.sc) && answer.rule != 0);
    CHECK(nvmesim_power_cycle(&one).what == NVMESIM_CYCLED && nvmesim_read32(&one, COUNT, CSTS).value == 0);
    nvmesim_close(&one);
    nvmesim_close(&other);
    CHECK(memcmp(bytes + size - 512, block, 512) == 0 && bytes[0] == 0);
    free(bytes);
}

/* A command waits while the completion queue has no room. */
static void full(void) {
    nvmesim sim = NVMESIM_NONE;
    uint8_t command[64];
    CHECK(open_two(&sim) == NVMESIM_OK);
    up(&sim, 1);
    entry(command, 0x00, 1, 0, 0, 0);
    for (uint32_t i = 0; i + 1 < ENTRIES; i++)
        CHECK(by_calls(&sim, 1, 1, i, command).what == NVMESIM_POSTED);
    nvmesim_store(&sim, 1, IO_SQ + 64 * (ENTRIES - 1), command, 64);
    CHECK(nvmesim_write32(&sim, 1, DOORBELLS + 8, 0).what == NVMESIM_WROTE);
    CHECK(nvmesim_fetch(&sim, 1, 1).what == NVMESIM_TOOK);
    CHECK(nvmesim_execute(&sim, 1, 0).what == NVMESIM_CQ_FULL);
    CHECK(nvmesim_write32(&sim, 1, DOORBELLS + 12, 1).what == NVMESIM_WROTE);
    CHECK(nvmesim_execute(&sim, 1, 0).what == NVMESIM_POSTED);
    nvmesim_close(&sim);
}

/* One call does what six do: the same answers, completions and blocks, round and round the queues. */
static void submitting(void) {
    nvmesim one = NVMESIM_NONE, other = NVMESIM_NONE;
    uint8_t command[64], completion[16], wanted[16], block[512];
    CHECK(open_two(&one) == NVMESIM_OK && open_two(&other) == NVMESIM_OK);
    up(&one, 2);
    up(&other, 2);
    memset(block, 0x5a, sizeof block);
    for (uint32_t i = 0; i < 3 * ENTRIES + 1; i++) {
        uint32_t slot = i % ENTRIES, slba = 8 * (i % 9);
        entry(command, i % 3 ? 0x01 : 0x02, 1, DATA, slba, 0);
        CHECK(nvmesim_store(&one, 2, DATA, block, sizeof block).what == NVMESIM_STORED);
        CHECK(nvmesim_store(&other, 2, DATA, block, sizeof block).what == NVMESIM_STORED);
        nvmesim_answer answer = nvmesim_submit(&one, 2, 1, command, completion);
        CHECK(nvmesim_store(&other, 2, IO_SQ + 64 * slot, command, 64).what == NVMESIM_STORED);
        CHECK(nvmesim_write32(&other, 2, DOORBELLS + 8, (slot + 1) % ENTRIES).what == NVMESIM_WROTE);
        CHECK(nvmesim_fetch(&other, 2, 1).what == NVMESIM_TOOK);
        nvmesim_answer same = nvmesim_execute(&other, 2, 0);
        CHECK(nvmesim_load(&other, 2, IO_CQ + 16 * slot, wanted, 16) == NVMESIM_OK);
        CHECK(nvmesim_write32(&other, 2, DOORBELLS + 12, (slot + 1) % ENTRIES).what == NVMESIM_WROTE);
        CHECK(answer.what == NVMESIM_POSTED && answer.sct == same.sct && answer.sc == same.sc);
        CHECK(answer.rule == same.rule && answer.value == same.value);
        CHECK(memcmp(completion, wanted, 16) == 0);
        block[i % 512]++;
    }
    uint8_t left[64 * 512], right[64 * 512];
    CHECK(nvmesim_read_blocks(&one, 1, 0, left, sizeof left) == NVMESIM_OK);
    CHECK(nvmesim_read_blocks(&other, 1, 0, right, sizeof right) == NVMESIM_OK);
    CHECK(memcmp(left, right, sizeof left) == 0);
    nvmesim_close(&one);
    nvmesim_close(&other);
}

/* A turn that can't be taken is refused, and nothing has happened. */
static void no_turn(void) {
    nvmesim sim = NVMESIM_NONE;
    uint8_t command[64], completion[16];
    CHECK(open_two(&sim) == NVMESIM_OK);
    entry(command, 0x00, 1, 0, 0, 0);
    memset(completion, 7, sizeof completion);
#define REFUSED(cntlid, qid, why) \
    CHECK(nvmesim_submit(&sim, cntlid, qid, command, completion).what == (why) && completion[0] == 7)
    REFUSED(1, 0, NVMESIM_NOT_READY);
    REFUSED(0, 0, NVMESIM_NO_CONTROLLER);
    REFUSED(3, 0, NVMESIM_NO_CONTROLLER);
    up(&sim, 1);
    REFUSED(1, 0, NVMESIM_BUSY);
    CHECK(nvmesim_completion_queue(&sim, 1, 0).head == 0 && nvmesim_completion_queue(&sim, 1, 0).tail == 2);
    REFUSED(1, 2, NVMESIM_NO_QUEUE);
    REFUSED(1, 65535, NVMESIM_NO_QUEUE);
    CHECK(nvmesim_store(&sim, 1, IO_SQ, command, 64).what == NVMESIM_STORED);
    CHECK(nvmesim_write32(&sim, 1, DOORBELLS + 8, 1).what == NVMESIM_WROTE);
    REFUSED(1, 1, NVMESIM_BUSY);
    CHECK(nvmesim_submission_queue(&sim, 1, 1).head == 0 && nvmesim_submission_queue(&sim, 1, 1).tail == 1);
    CHECK(nvmesim_fetch(&sim, 1, 1).what == NVMESIM_TOOK);
    CHECK(nvmesim_submit(&sim, 1, 1, command, completion).what == NVMESIM_POSTED);
    CHECK(nvmesim_fetched(&sim, 1, 0).count == 1 && completion[8] == 2);
    memset(completion, 7, sizeof completion);
    CHECK(nvmesim_write32(&sim, 1, CC, 4 << 20 | 6 << 16 | 1 << 14 | 1).what == NVMESIM_WROTE);
    REFUSED(1, 1, NVMESIM_NOT_READY);
#undef REFUSED
    nvmesim_close(&sim);
}

/* Looks at queues and at fetched commands. */
static void looks(void) {
    nvmesim sim = NVMESIM_NONE;
    uint8_t command[64];
    CHECK(open_two(&sim) == NVMESIM_OK);
    CHECK(nvmesim_submission_queue(&sim, 1, 0).what == NVMESIM_NO_QUEUE);
    CHECK(nvmesim_completion_queue(&sim, 3, 0).what == NVMESIM_NO_CONTROLLER);
    CHECK(nvmesim_fetched(&sim, 3, 0).what == NVMESIM_NO_CONTROLLER);
    up(&sim, 1);
    for (uint32_t i = 0; i < 3; i++) {
        entry(command, 0x00, 1, 0, i, 0);
        CHECK(nvmesim_store(&sim, 1, IO_SQ + 64 * i, command, 64).what == NVMESIM_STORED);
    }
    CHECK(nvmesim_write32(&sim, 1, DOORBELLS + 8, 3).what == NVMESIM_WROTE);
    CHECK(nvmesim_fetch(&sim, 1, 1).what == NVMESIM_TOOK && nvmesim_fetch(&sim, 1, 1).what == NVMESIM_TOOK);
    nvmesim_queue queue = nvmesim_submission_queue(&sim, 1, 1);
    CHECK(queue.what == NVMESIM_OK && queue.base == IO_SQ && queue.size == ENTRIES && queue.cqid == 1);
    CHECK(queue.head == 2 && queue.tail == 3);
    nvmesim_command second = nvmesim_fetched(&sim, 1, 1);
    CHECK(second.what == NVMESIM_OK && second.count == 2 && second.qid == 1 && !second.marked);
    CHECK(second.entry[40] == 1 && second.entry[4] == 1);
    CHECK(nvmesim_fetched(&sim, 1, 2).what == NVMESIM_NO_SUCH && nvmesim_fetched(&sim, 1, 2).count == 2);
    CHECK(nvmesim_execute(&sim, 1, 0).what == NVMESIM_POSTED);
    queue = nvmesim_completion_queue(&sim, 1, 1);
    CHECK(queue.what == NVMESIM_OK && queue.base == IO_CQ && queue.size == ENTRIES && queue.cqid == 1);
    CHECK(queue.head == 0 && queue.tail == 1 && queue.phase);
    CHECK(nvmesim_fetched(&sim, 1, 0).entry[40] == 1);
    nvmesim_close(&sim);
}

/* The reservation, its registrants, and what a Preempt and Abort marks. */
static void reservations(void) {
    nvmesim sim = NVMESIM_NONE;
    uint8_t command[64], completion[16];
    const uint64_t first[] = {0, 0x11}, second[] = {0, 0x22}, current[] = {0x11, 0}, preempt[] = {0x11, 0x22};
    CHECK(open_two(&sim) == NVMESIM_OK);
    CHECK(nvmesim_is_attached(&sim, 2, 1).what == NVMESIM_VALUE && nvmesim_is_attached(&sim, 2, 1).value == 1);
    CHECK(nvmesim_is_attached(&sim, 2, 2).value == 0 && nvmesim_is_attached(&sim, 0, 1).value == 0);
    CHECK(nvmesim_reservation(&sim, 2).what == NVMESIM_NO_NAMESPACE);
    CHECK(nvmesim_registrant(&sim, 2, 0).what == NVMESIM_NO_NAMESPACE);
    CHECK(nvmesim_registrant(&sim, 1, 0).what == NVMESIM_NO_REGISTRANT);
    nvmesim_hold hold = nvmesim_reservation(&sim, 1);
    CHECK(hold.what == NVMESIM_OK && hold.registrants == 0 && hold.rtype == 0 && hold.generation == 0 && !hold.ptpl);
    up(&sim, 1);
    up(&sim, 2);
#define DONE(cntlid, opcode, keys, dw10) \
    do { \
        CHECK(nvmesim_store(&sim, cntlid, DATA, (const uint8_t *)(keys), sizeof(keys)).what == NVMESIM_STORED); \
        entry(command, opcode, 1, DATA, dw10, 0); \
        nvmesim_answer answer = nvmesim_submit(&sim, cntlid, 1, command, completion); \
        CHECK(answer.what == NVMESIM_POSTED && answer.sct == 0 && answer.sc == 0); \
    } while (0)
    DONE(1, 0x0d, first, 0);
    DONE(2, 0x0d, second, 3u << 30);
    DONE(1, 0x11, current, 1 << 8);
    hold = nvmesim_reservation(&sim, 1);
    CHECK(hold.what == NVMESIM_OK && hold.registrants == 2 && hold.rtype == 1 && hold.generation == 2 && hold.ptpl);
    CHECK(hold.host_low == 0xa1 && hold.host_high == 0 && hold.protection == 0);
    nvmesim_registered one = nvmesim_registrant(&sim, 1, 0), other = nvmesim_registrant(&sim, 1, 1);
    CHECK(one.what == NVMESIM_OK && one.host_low == 0xa1 && one.host_high == 0 && one.key == 0x11);
    CHECK(other.what == NVMESIM_OK && other.host_low == 0xb2 && other.host_high == 0xc3 && other.key == 0x22);
    CHECK(nvmesim_registrant(&sim, 1, 2).what == NVMESIM_NO_REGISTRANT);
    entry(command, 0x02, 1, DATA, 0, 0);
    CHECK(nvmesim_store(&sim, 2, IO_SQ + 64, command, 64).what == NVMESIM_STORED);
    CHECK(nvmesim_write32(&sim, 2, DOORBELLS + 8, 2).what == NVMESIM_WROTE);
    CHECK(nvmesim_fetch(&sim, 2, 1).what == NVMESIM_TOOK && !nvmesim_fetched(&sim, 2, 0).marked);
    DONE(1, 0x11, preempt, 1 << 8 | 2);
    CHECK(nvmesim_fetched(&sim, 2, 0).marked && nvmesim_reservation(&sim, 1).registrants == 1);
    nvmesim_answer aborted = nvmesim_execute(&sim, 2, 0);
    CHECK(aborted.what == NVMESIM_POSTED && aborted.sct == 0 && aborted.sc == 0x1b && aborted.rule == 1);
#undef DONE
    nvmesim_close(&sim);
}

/* The names of statuses. */
static void names(void) {
    char name[48];
    CHECK(nvmesim_status_name(0, 0x83, (uint8_t *)name, sizeof name) == 20);
    CHECK(strcmp(name, "Reservation Conflict") == 0);
    CHECK(nvmesim_status_name(2, 0x85, (uint8_t *)name, 7) == 15 && memcmp(name, "Compare Conflict", 7) == 0);
    int unlisted = 0;
    for (unsigned code = 0; code < 0x10000; code++) {
        CHECK(nvmesim_status_name((uint8_t)(code >> 8), (uint8_t)code, (uint8_t *)name, sizeof name) == strlen(name));
        unlisted += strcmp(name, "Unlisted") == 0;
    }
    CHECK(0x10000 - unlisted == 25);
}

/* Whether exactly this text was written, followed by the buffer's 7s. */
static bool is_text(nvmesim_written it, const uint8_t *buffer, const char *text) {
    size_t count = strlen(text);
    return it.what == NVMESIM_OK && it.length == count && !memcmp(buffer, text, count) && buffer[count] == 7;
}

static const char described[] = "controller 1 host 0xa1 raw\ncontroller 2 host 0xc300000000000000b2\n"
                                "namespace 1 blocks 64 shared\nattached 1 1\nattached 2 1\n";

static const char too_few[] = "3:1: namespace 1 ends after the 63 blocks of the medium, on which "
                              "namespaces follow one another";

/* A configuration is parsed, and formatted as it was parsed; a refusal gives place and reason, if the buffer has space
 * for it, and leaves the arrays unchanged. */
static void texts(void) {
    nvmesim_controller controllers[16];
    nvmesim_namespace namespaces[8];
    nvmesim_attached attached[128];
    uint8_t text[8192], reason[128];
    memset(text, 7, sizeof text);
    nvmesim_written lines = nvmesim_configuration_lines(two, 2, shared, 1, both, 2, text, sizeof text);
    CHECK(is_text(lines, text, described));
    lines = nvmesim_configuration_lines(two, 2, shared, 1, both, 2, text, sizeof described - 2);
    CHECK(lines.what == NVMESIM_NO_ROOM && lines.length == 0);
    memset(reason, 7, sizeof reason);
    memset(controllers, 7, sizeof controllers);
#define READ(count, blocks, most, room) \
    nvmesim_read_configuration(text, count, NVMESIM_SCRIPT_BLOCKS, blocks, controllers, most, namespaces, 8, attached, \
                               128, reason, room)
    nvmesim_read read = READ(sizeof described - 1, 64, 1, sizeof reason);
    CHECK(read.what == NVMESIM_NO_ROOM && controllers[0].host_low == UINT64_C(0x0707070707070707));
    read = READ(sizeof described - 1, 63, 16, sizeof reason);
    CHECK(read.what == NVMESIM_DOES_NOT_FIT && read.line == 3 && read.column == 1 && read.controllers == 0);
    CHECK(read.length == sizeof too_few - 1 && !memcmp(reason, too_few, read.length) && reason[read.length] == 7);
    CHECK(controllers[0].host_low == UINT64_C(0x0707070707070707));
    memset(reason, 7, sizeof reason);
    read = READ(sizeof described - 1, 63, 16, sizeof too_few - 2);
    CHECK(read.what == NVMESIM_DOES_NOT_FIT && read.line == 3 && read.length == 0 && reason[0] == 7);
    read = READ(sizeof described - 1, 64, 16, sizeof reason);
    CHECK(read.what == NVMESIM_OK && read.line == 0 && read.column == 0 && read.length == 0 && reason[0] == 7);
    CHECK(read.controllers == 2 && read.namespaces == 1 && read.attached == 2 && controllers[2].cntlid == 0x0707);
    CHECK(controllers[1].host_low == 0xb2 && controllers[1].host_high == 0xc3 && controllers[1].cntlid == 2);
    CHECK(controllers[0].raw && !controllers[1].raw && attached[1].cntlid == 2 && attached[1].nsid == 1);
    CHECK(namespaces[0].blocks == 64 && namespaces[0].nsid == 1 && namespaces[0].shared);
    CHECK(READ(0, 64, 16, sizeof reason).what == NVMESIM_EMPTY);
#undef READ
}

/* Lines of scripts and of transcripts. */
static void spelled(void) {
    uint8_t line[64];
    const uint8_t bytes[] = {0, 0xaf};
    const nvmesim_event store = {4096, NVMESIM_EVENT_STORE, 0, 1, 0}, fetch = {0, NVMESIM_EVENT_FETCH, 0, 2, 3},
                        reading = {0, NVMESIM_EVENT_READ32, 0, 1, 0}, none = {0, 99, 0, 1, 0};
    memset(line, 7, sizeof line);
    CHECK(is_text(nvmesim_event_line(&store, bytes, 2, line, sizeof line), line, "store 1 4096 hex:00af\n"));
    memset(line, 7, sizeof line);
    CHECK(nvmesim_event_line(&store, bytes, 2, line, 21).what == NVMESIM_NO_ROOM && line[0] == 7);
    CHECK(nvmesim_event_line(&store, bytes, 0, line, sizeof line).what == NVMESIM_NO_LINE && line[0] == 7);
    CHECK(nvmesim_event_line(&reading, bytes, 0, line, sizeof line).what == NVMESIM_NO_LINE);
    CHECK(nvmesim_event_line(&none, bytes, 0, line, sizeof line).what == NVMESIM_NO_LINE && line[0] == 7);
    CHECK(is_text(nvmesim_event_line(&fetch, bytes, 0, line, sizeof line), line, "fetch 2 3\n"));
    memset(line, 7, sizeof line);
    nvmesim_answer answer = {0, NVMESIM_TOOK, 0, 0, 0};
    CHECK(is_text(nvmesim_answer_line(&fetch, &answer, line, sizeof line), line, "fetch 2 3 took\n"));
    CHECK(nvmesim_answer_line(&store, &answer, line, sizeof line).what == NVMESIM_NO_LINE);
}

/* Lines that look, with the answers of a session. */
static void lines(void) {
    nvmesim sim = NVMESIM_NONE;
    uint8_t answer[262240];
#define LOOK(line, count) \
    (memset(answer, 7, sizeof answer), nvmesim_look(&sim, 3, (const uint8_t *)(line), strlen(line), answer, count))
    CHECK(LOOK("?attached", sizeof answer).what == NVMESIM_CLOSED && answer[0] == 7);
    CHECK(open_two(&sim) == NVMESIM_OK);
    CHECK(LOOK("fetch 1 0", sizeof answer).what == NVMESIM_NO_LINE && answer[0] == 7);
    CHECK(LOOK("", sizeof answer).what == NVMESIM_NO_LINE && answer[0] == 7);
    CHECK(LOOK("?fetched 1", 9).what == NVMESIM_NO_ROOM && answer[0] == 7);
    CHECK(is_text(LOOK("?fetched 1", 10), answer, "fetched 1\n"));
    CHECK(is_text(LOOK("?register 1 28", sizeof answer), answer, "register 1 28 0x00000000\n"));
    CHECK(is_text(LOOK("?blocks 1 63 1", sizeof answer), answer, "blocks 1 63 1 -\n"));
    CHECK(is_text(LOOK("?queues 3", sizeof answer), answer, "! line 3 word 2: there is no such controller\n"));
    CHECK(is_text(LOOK("?fetched", sizeof answer), answer, "! line 3 word 1: the line is ?fetched C\n"));
    nvmesim_close(&sim);
#undef LOOK
}

/* What is opened is given back: valgrind and the sanitizer see what is not, and the address space can't hold them all.
 * Two controllers have 8 MiB of windows; without a controller there are the blocks. */
static void again(int count) {
    nvmesim sim = NVMESIM_NONE;
    const nvmesim_namespace one[] = {{256, 1, true}};
    static const uint8_t blocks[256 * 512];
    for (int i = 0; i < count; i++) {
        CHECK(open_two(&sim) == NVMESIM_OK);
        nvmesim_close(&sim);
    }
    for (int i = 0; i < 10 * count; i++) {
        CHECK(nvmesim_open(&sim, NVMESIM_VERSION, NVMESIM_SCRIPT_BLOCKS, two, 0, one, 1, both, 0, blocks,
                           sizeof blocks) == NVMESIM_OK);
        nvmesim_close(&sim);
    }
}

int main(int count, char **words) {
    closed();
    configurations();
    refusals();
    lent();
    largest();
    full();
    submitting();
    no_turn();
    placing();
    looks();
    needs();
    brought();
    pdus();
    connections();
    responses();
    buffers();
    journals();
    transfers();
    capsules();
    reservations();
    names();
    texts();
    spelled();
    lines();
    again(count > 1 ? atoi(words[1]) : 100);
    return failures ? 1 : 0;
}
