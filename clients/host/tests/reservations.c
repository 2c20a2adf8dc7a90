/* Reservations, events, log pages and Abort over a controller in memory. Prints nothing if all is as expected. */
#include "trial.h"

enum { READ_OPCODE = 2, TURNS = 8 };

static const uint8_t host_identifier[16] = { 1, 2, 3, 4, 5, 6, 7, 8, 9, 10, 11, 12, 13, 14, 15, 16 };
static const uint64_t key = 0x0123456789abcdef, other_key = 0xfedcba9876543210;

/* Whether a request was answered with this status, such as 0x083 for 0:83. */
static bool ends(struct nvmehost_placed placed, uint32_t status)
{
    struct nvmehost_outcome outcome = answer(placed);
    return outcome.code == NVMEHOST_DONE && outcome.ticket == placed.ticket
        && ((uint32_t)outcome.sct << 8 | outcome.sc) == status;
}

static struct nvmehost_placed identify_host(void)
{
    return nvmehost_set_host_identifier(&p.host, host_identifier);
}

static struct nvmehost_placed register_key(uint64_t crkey, uint64_t nrkey)
{
    return nvmehost_register(&p.host, 1, crkey == 0 ? 0 : 2, false, 3, crkey, nrkey);
}

/* Register, Acquire and Release need the identifier of this host, since the last reset; Report does not. */
static void refused_without_identifier(void)
{
    EXPECT_IS(register_key(0, key).code, NVMEHOST_NO_HOST_IDENTIFIER);
    EXPECT_IS(nvmehost_acquire(&p.host, 1, 0, 1, key, 0).code, NVMEHOST_NO_HOST_IDENTIFIER);
    EXPECT_IS(nvmehost_release(&p.host, 1, 0, 1, key).code, NVMEHOST_NO_HOST_IDENTIFIER);
    EXPECT(ends(nvmehost_report(&p.host, 1, 16), 0));
}

static void identifies_host(void)
{
    begin();
    open_namespace();
    refused_without_identifier();
    /* Its placing is not enough. */
    struct nvmehost_placed placed = identify_host();
    port_perform(&p);
    refused_without_identifier();
    EXPECT_IS(placed.code, NVMEHOST_OK);
    EXPECT(device.has_host && memcmp(device.host, host_identifier, sizeof host_identifier) == 0);
    EXPECT(ends(identify_host(), 0));
    EXPECT(ends(register_key(0, key), 0));
    /* An answer that is no success does not count either. */
    device.refuses_host = true;
    EXPECT(ends(identify_host(), 2));
    refused_without_identifier();
    device.refuses_host = false;
    EXPECT(ends(identify_host(), 0));
    EXPECT(ends(register_key(key, other_key), 0));
    EXPECT_IS(port_reset(&p), NVMEHOST_OK);
    open_namespace();
    refused_without_identifier();
}

static uint64_t number_at(size_t at, size_t len)
{
    uint64_t value = 0;
    memcpy(&value, p.buffer + at, len);
    return value;
}

/* The report of 128 bytes: generation, type, persistence, and the registrant, if there is one. */
static bool reports(uint32_t generation, uint8_t type, uint64_t of_key)
{
    bool is_registered = of_key != 0;
    memset(p.buffer, 0xaa, 132);
    struct nvmehost_outcome outcome = answer(nvmehost_report(&p.host, 1, 32));
    bool is_right = outcome.code == NVMEHOST_DONE && outcome.len == 128 && device.given == 128
        && number_at(0, 4) == generation && p.buffer[4] == type && number_at(5, 2) == is_registered
        && p.buffer[9] == is_registered;
    if (!is_registered)
        return is_right;
    return is_right && p.buffer[66] == (type != 0) && number_at(72, 8) == of_key
        && memcmp(p.buffer + 80, host_identifier, sizeof host_identifier) == 0;
}

static void reserves(void)
{
    begin();
    open_namespace();
    EXPECT(ends(identify_host(), 0));
    EXPECT(reports(0, 0, 0));
    EXPECT(ends(nvmehost_acquire(&p.host, 1, 0, 1, key, 0), 0x83));
    EXPECT(ends(register_key(0, key), 0));
    EXPECT(reports(1, 0, key));
    EXPECT(ends(nvmehost_acquire(&p.host, 1, 0, 3, other_key, 0), 0x83));
    EXPECT(ends(nvmehost_acquire(&p.host, 1, 0, 3, key, 0), 0));
    EXPECT(ends(nvmehost_acquire(&p.host, 1, 0, 1, key, 0), 0x83));
    EXPECT(reports(1, 3, key));
    EXPECT(ends(register_key(other_key, key), 0x83));
    EXPECT(ends(register_key(key, other_key), 0));
    EXPECT(ends(nvmehost_acquire(&p.host, 1, 1, 6, other_key, other_key), 0));
    EXPECT(reports(3, 6, other_key));
    EXPECT(ends(nvmehost_release(&p.host, 1, 0, 3, other_key), 2));
    EXPECT(ends(nvmehost_release(&p.host, 1, 0, 6, other_key), 0));
    EXPECT(reports(3, 0, other_key));
    /* Whatever the key is, if it is ignored. */
    EXPECT(ends(nvmehost_register(&p.host, 1, 2, true, 0, 0, key), 0));
    EXPECT(reports(4, 0, key));
    EXPECT(ends(nvmehost_release(&p.host, 1, 1, 0, key), 0));
    EXPECT(!device.reservation.is_registered && device.reservation.generation == 5);
}

/* What the driver refuses to place, on a controller without a limit of its transfers. */
static void refuses(void)
{
    begin();
    device.mdts = 0;
    EXPECT_IS(start(), NVMEHOST_OK);
    EXPECT_IS(nvmehost_report(&p.host, 1, 16).code, NVMEHOST_CONTROLLER_NOT_ASKED);
    EXPECT_IS(ask(0), NVMEHOST_DONE);
    EXPECT_IS(nvmehost_report(&p.host, 1, 16).code, NVMEHOST_NAMESPACE_NOT_ASKED);
    EXPECT_IS(ask(1), NVMEHOST_DONE);
    EXPECT(ends(identify_host(), 0));
    EXPECT_IS(nvmehost_register(&p.host, 1, 8, false, 0, 0, 1).code, NVMEHOST_BAD_REQUEST);
    EXPECT_IS(nvmehost_register(&p.host, 1, 0, false, 4, 0, 1).code, NVMEHOST_BAD_REQUEST);
    EXPECT_IS(nvmehost_acquire(&p.host, 1, 8, 1, 0, 0).code, NVMEHOST_BAD_REQUEST);
    EXPECT_IS(nvmehost_release(&p.host, 1, 8, 1, 0).code, NVMEHOST_BAD_REQUEST);
    EXPECT_IS(nvmehost_report(&p.host, 1, 0).code, NVMEHOST_BAD_REQUEST);
    EXPECT_IS(nvmehost_report(&p.host, 1, 32769).code, NVMEHOST_BAD_REQUEST);
    EXPECT_IS(nvmehost_log(&p.host, 0, DEVICE_NOTIFICATIONS, false, 0).code, NVMEHOST_BAD_REQUEST);
    EXPECT_IS(nvmehost_log(&p.host, 0, DEVICE_NOTIFICATIONS, false, 32769).code, NVMEHOST_BAD_REQUEST);
    EXPECT_IS(nvmehost_abort(&p.host, 1000).code, NVMEHOST_NOT_WAITING);
    begin();
    device.oncs = 9;
    open_namespace();
    EXPECT(ends(identify_host(), 0));
    EXPECT_IS(register_key(0, key).code, NVMEHOST_NOT_SUPPORTED);
    EXPECT_IS(nvmehost_report(&p.host, 1, 16).code, NVMEHOST_NOT_SUPPORTED);
}

/* Whether nothing is delivered in some turns. */
static bool is_quiet(void)
{
    for (int i = 0; i < TURNS; i++) {
        device_turn(&device);
        if (port_poll(&p).code != NVMEHOST_NOTHING)
            return false;
    }
    return true;
}

static struct nvmehost_placed send_out(struct nvmehost_placed placed)
{
    EXPECT_IS(placed.code, NVMEHOST_OK);
    port_perform(&p);
    port_ring(&p);
    return placed;
}

static void names_events(void)
{
    static const struct { uint32_t dw0, kind; } known[] = {
        { 0x010000, NVMEHOST_EVENT_ERROR }, { 0x010300, NVMEHOST_EVENT_ERROR }, { 0x020101, NVMEHOST_EVENT_HEALTH },
        { 0x040002, NVMEHOST_EVENT_NAMESPACES }, { 0x030102, NVMEHOST_EVENT_FIRMWARE },
        { DEVICE_PREEMPTED, NVMEHOST_EVENT_RESERVATION }, { 0x810106, NVMEHOST_EVENT_SANITIZE },
        { 0x0c0302, NVMEHOST_EVENT_OTHER }, { 0x810206, NVMEHOST_EVENT_OTHER }, { 0xff07, NVMEHOST_EVENT_OTHER } };
    for (size_t i = 0; i < sizeof known / sizeof *known; i++) {
        struct nvmehost_event event = nvmehost_event(known[i].dw0 | 0xff0000f8);
        EXPECT(event.kind == known[i].kind && event.type == (known[i].dw0 & 7));
        EXPECT(event.info == (known[i].dw0 >> 8 & 0xff) && event.log_page == known[i].dw0 >> 16);
    }
}

/* Reads the log page of notifications; whether it has this number of them. */
static bool notes(bool retain, uint64_t count)
{
    struct nvmehost_outcome outcome = answer(nvmehost_log(&p.host, UINT32_MAX, DEVICE_NOTIFICATIONS, retain, 16));
    return outcome.code == NVMEHOST_DONE && outcome.sc == 0 && outcome.len == 64 && device.given == 64
        && number_at(0, 8) == count && p.buffer[8] == 3 && number_at(12, 4) == 1;
}

/* An event is reported once, and its kind is reported again once its log page was read. */
static void awaits_events(void)
{
    begin();
    open_namespace();
    struct nvmehost_placed placed = send_out(nvmehost_await_event(&p.host));
    EXPECT(is_quiet());
    EXPECT(ends(nvmehost_flush(&p.host, 1), 0));
    device_raise(&device, DEVICE_PREEMPTED);
    device_turn(&device);
    struct nvmehost_outcome outcome = port_poll(&p);
    EXPECT(outcome.code == NVMEHOST_DONE && outcome.ticket == placed.ticket && outcome.sct == 0 && outcome.sc == 0);
    EXPECT(outcome.dw0 == DEVICE_PREEMPTED && nvmehost_event(outcome.dw0).kind == NVMEHOST_EVENT_RESERVATION);
    EXPECT(is_quiet());
    placed = send_out(nvmehost_await_event(&p.host));
    EXPECT(is_quiet());
    device_raise(&device, DEVICE_PREEMPTED);
    EXPECT(is_quiet());
    EXPECT(notes(true, 2));
    EXPECT(is_quiet());
    EXPECT(notes(false, 2));
    device_turn(&device);
    outcome = port_poll(&p);
    EXPECT(outcome.code == NVMEHOST_DONE && outcome.ticket == placed.ticket && outcome.dw0 == DEVICE_PREEMPTED);
    EXPECT(is_quiet());
}

/* Only events of the configuration are reported, and a reset forgets it. */
static void configures_events(void)
{
    enum { WARNING = 0x020101, NAMESPACES = 0x040002 };
    begin();
    open_namespace();
    device.is_configured = true;
    struct nvmehost_placed placed = send_out(nvmehost_await_event(&p.host));
    device_raise(&device, NAMESPACES);
    EXPECT(is_quiet());
    EXPECT(ends(nvmehost_configure_events(&p.host, 0xff), 0));
    EXPECT(device.event_configuration == 0xff && is_quiet());
    EXPECT(ends(nvmehost_configure_events(&p.host, 0x80000100), 0));
    EXPECT_IS(device.event_configuration, 0x80000100);
    device_turn(&device);
    struct nvmehost_outcome outcome = port_poll(&p);
    EXPECT(outcome.code == NVMEHOST_DONE && outcome.ticket == placed.ticket && outcome.dw0 == NAMESPACES);
    EXPECT_IS(port_start(&p, &outcome), NVMEHOST_OK);
    EXPECT_IS(device.event_configuration, 0);
    send_out(nvmehost_await_event(&p.host));
    device.reported = 0;
    device_raise(&device, WARNING);
    EXPECT(is_quiet());
}

/* The longest log page, and the longest report, where a Read had other data. */
static void reads_long_pages(void)
{
    begin();
    open_namespace();
    memset(device.blocks, 0xaa, NVMEHOST_BUFFER);
    for (int i = 0; i < 2; i++) {
        EXPECT(ends(nvmehost_read(&p.host, 1, 0, NVMEHOST_BUFFER / 512), 0));
        struct nvmehost_outcome outcome = answer(i == 0 ? nvmehost_log(&p.host, 0, 1, false, 32768)
                                                        : nvmehost_report(&p.host, 1, 32768));
        EXPECT(outcome.code == NVMEHOST_DONE && outcome.sc == 0 && outcome.len == NVMEHOST_BUFFER);
        EXPECT(device.given == NVMEHOST_BUFFER);
        size_t zeros = 0;
        while (zeros < NVMEHOST_BUFFER && p.buffer[zeros] == 0)
            zeros++;
        EXPECT(zeros == NVMEHOST_BUFFER);
    }
}

static struct nvmehost_placed hold_read(void)
{
    device.is_holding = true, device.held_opcode = READ_OPCODE;
    struct nvmehost_placed held = send_out(nvmehost_read(&p.host, 1, 0, 1));
    EXPECT(is_quiet());
    return held;
}

/* The answers to a request that the controller was asked to abort, and to the Abort: each comes once. */
static void expect_aborted(struct nvmehost_placed request, uint32_t status, uint32_t dw0)
{
    struct nvmehost_placed abort = send_out(nvmehost_abort(&p.host, request.ticket));
    EXPECT(abort.ticket != request.ticket);
    uint32_t requests = 0, aborts = 0;
    for (int i = 0; i < TURNS; i++) {
        device_turn(&device);
        struct nvmehost_outcome outcome = port_poll(&p);
        if (outcome.code == NVMEHOST_NOTHING)
            continue;
        EXPECT_IS(outcome.code, NVMEHOST_DONE);
        if (outcome.ticket == request.ticket)
            requests++, EXPECT(outcome.sct == 0 && outcome.sc == status);
        else if (outcome.ticket == abort.ticket)
            aborts++, EXPECT(outcome.sct == 0 && outcome.sc == 0 && outcome.dw0 == dw0);
        else
            EXPECT(!"an answer to neither");
    }
    EXPECT(requests == (status != 0) && aborts == 1);
}

static void aborts(void)
{
    begin();
    open_namespace();
    EXPECT_IS(nvmehost_abort(&p.host, 0).code, NVMEHOST_NOT_WAITING);
    expect_aborted(hold_read(), 7, 0);
    /* An answered request does not wait. */
    struct nvmehost_placed flush = nvmehost_flush(&p.host, 1);
    EXPECT(ends(flush, 0));
    EXPECT_IS(nvmehost_abort(&p.host, flush.ticket).code, NVMEHOST_NOT_WAITING);
    expect_aborted(send_out(nvmehost_await_event(&p.host)), 7, 0);
    /* One of two that are held back, neither the first nor in the first slot. */
    struct nvmehost_placed other = hold_read();
    expect_aborted(hold_read(), 7, 0);
    EXPECT(device.held_count == 1);
    device_release(&device);
    struct nvmehost_outcome outcome = port_poll(&p);
    EXPECT(outcome.code == NVMEHOST_DONE && outcome.ticket == other.ticket && outcome.sc == 0 && outcome.len == 512);
    /* The controller aborts nothing: the request still waits. */
    struct nvmehost_placed held = hold_read();
    device.aborts_nothing = true;
    expect_aborted(held, 0, 1);
    device_release(&device);
    outcome = port_poll(&p);
    EXPECT(outcome.code == NVMEHOST_DONE && outcome.ticket == held.ticket && outcome.sc == 0);
    EXPECT(is_quiet());
}

/* A completion that comes after Abort and reset is the answer to no request, and both are delivered as aborted. */
static void comes_late(void)
{
    begin();
    open_namespace();
    memset(device.blocks, 0x11, 512), memset(device.blocks + 512, 0x22, 512);
    struct nvmehost_placed held = hold_read();
    device.is_silent = true;
    struct nvmehost_placed abort = send_out(nvmehost_abort(&p.host, held.ticket));
    EXPECT_IS(port_answer(&p, held, 5).code, NVMEHOST_EXPIRED);
    EXPECT_IS(nvmehost_abort(&p.host, held.ticket).code, NVMEHOST_EXPIRED);
    device.is_silent = false;
    device_release(&device);
    device_turn(&device);
    EXPECT_IS(port_reset(&p), NVMEHOST_OK);
    for (int i = 0; i < 2; i++) {
        struct nvmehost_outcome outcome = port_poll(&p);
        EXPECT_IS(outcome.code, NVMEHOST_ABORTED);
        EXPECT(outcome.ticket == (i == 0 ? held.ticket : abort.ticket));
    }
    EXPECT_IS(port_poll(&p).code, NVMEHOST_NOT_UP);
    open_namespace();
    EXPECT_IS(nvmehost_abort(&p.host, held.ticket).code, NVMEHOST_NOT_WAITING);
    struct nvmehost_placed placed = nvmehost_read(&p.host, 1, 1, 1);
    struct nvmehost_outcome outcome = answer(placed);
    EXPECT(outcome.code == NVMEHOST_DONE && outcome.ticket == placed.ticket && placed.ticket > abort.ticket);
    EXPECT(outcome.len == 512 && p.buffer[0] == 0x22);
    EXPECT(is_quiet());
}

int main(void)
{
    trial_begin();
    EXPECT_IS(nvmehost_abort(&p.host, 1).code, NVMEHOST_CLOSED);
    EXPECT_IS(identify_host().code, NVMEHOST_CLOSED);
    EXPECT_IS(nvmehost_configure_events(&p.host, 0x100).code, NVMEHOST_CLOSED);
    identifies_host();
    reserves();
    refuses();
    names_events();
    awaits_events();
    configures_events();
    reads_long_pages();
    aborts();
    comes_late();
    return trial_end();
}
