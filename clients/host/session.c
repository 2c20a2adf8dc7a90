#include "session.h"

#include <errno.h>
#include <signal.h>
#include <stdio.h>
#include <stdlib.h>
#include <string.h>
#include <unistd.h>

/* How long an aborted request is waited for. */
enum { ABORT_MS = 2000 };
/* Turns of a port that waits, until it looks for a recall again: a look is a system call. */
enum { TURNS = 256 };

struct session session;

void session_leave(int status)
{
    struct port *p = &session.port;
    if (p->memory) {
        port_perform(p);
        port_shutdown(p);
        port_reset(p);
    }
    vfio_close(&session.vfio);
    nvmehost_close(&p->host);
    exit(status);
}

/* A line of standard error: the address, what it is about, and what there is to say. */
static void report(const char *what, const char *reason)
{
    fprintf(stderr, "nvmehost: %s: %s%s%s\n", session.address, what, *what ? ": " : "", reason);
}

void session_fail(const char *what, const char *reason)
{
    report(what, reason);
    session_leave(SESSION_FAILED);
}

void session_succeed(const char *what, struct nvmehost_outcome outcome)
{
    char status[80];
    if (outcome.code != NVMEHOST_DONE)
        session_fail(what, port_name(outcome.code));
    if (outcome.sct != 0 || outcome.sc != 0) {
        snprintf(status, sizeof status, "the controller answered status %x:%02x", outcome.sct, outcome.sc);
        session_fail(what, status);
    }
}

/* Resets the controller, which aborts a request: whether it did, as the driver delivers it. */
static bool abort_by_reset(uint64_t ticket)
{
    struct port *p = &session.port;
    struct nvmehost_outcome outcome;
    nvmehost_expire(&p->host, ticket);
    uint32_t what = port_reset(p);
    if (what != NVMEHOST_OK)
        report("reset", port_name(what));
    do
        outcome = port_poll(p);
    while ((outcome.code == NVMEHOST_DONE || outcome.code == NVMEHOST_ABORTED) && outcome.ticket != ticket);
    return what == NVMEHOST_OK && outcome.code == NVMEHOST_ABORTED;
}

void session_give_up(const char *what, uint64_t ticket)
{
    struct port *p = &session.port;
    struct nvmehost_outcome outcome = { .code = NVMEHOST_NOTHING };
    char text[80];
    snprintf(text, sizeof text, "timed out after %u s", session.timeout_ms / 1000);
    report(what, text);
    struct nvmehost_placed placed = nvmehost_abort(&p->host, ticket);
    if (placed.code != NVMEHOST_OK)
        report("Abort", port_name(placed.code));
    else
        outcome = port_wait(p, (struct nvmehost_placed){ ticket, NVMEHOST_OK }, ABORT_MS);
    if (outcome.code != NVMEHOST_DONE) {
        if (outcome.code != NVMEHOST_NOTHING)
            report("Abort", port_name(outcome.code));
        report(what, abort_by_reset(ticket) ? "aborted by the reset: it may have been executed"
                                            : "it is not known whether it was executed");
    } else if (outcome.sct == 0 && outcome.sc == 7) {
        report(what, "aborted by the controller");
    } else {
        snprintf(text, sizeof text, "answered late: status %x:%02x", outcome.sct, outcome.sc);
        report(what, text);
    }
    session_leave(SESSION_FAILED);
}

struct nvmehost_outcome session_answer(const char *what, struct nvmehost_placed placed)
{
    struct nvmehost_outcome outcome = port_wait(&session.port, placed, session.timeout_ms);
    if (outcome.code == NVMEHOST_NOTHING)
        session_give_up(what, placed.ticket);
    return outcome;
}

bool session_finish(const char *what, struct nvmehost_placed placed)
{
    struct nvmehost_outcome outcome = session_answer(what, placed);
    if (outcome.code == NVMEHOST_DONE && outcome.sct == 2 && outcome.sc == 0x85)
        return false;
    session_succeed(what, outcome);
    return true;
}

void session_ask(uint32_t nsid)
{
    session_finish("Identify", nvmehost_ask(&session.port.host, nsid));
}

void session_identify_host(const uint8_t identifier[16])
{
    session_finish("Set Features", nvmehost_set_host_identifier(&session.port.host, identifier));
}

/* The message of a program whose registers are gone. */
static char lost[120];

/* VFIO takes the registers of a device without power away: an access is then this signal. The end of the program closes
 * the device. */
static void end_without_registers(int number)
{
    ssize_t written = write(STDERR_FILENO, lost, strlen(lost));
    (void)number, (void)written;
    _exit(SESSION_FAILED);
}

static void expect_lost_registers(void)
{
    struct sigaction action = { .sa_handler = end_without_registers };
    snprintf(lost, sizeof lost, "nvmehost: %s: its registers are gone: it was removed, or is without power\n",
             session.address);
    sigaction(SIGBUS, &action, NULL);
}

/* What the port does while it waits: ends the program if Linux wants the device, and what it did before. */
static struct { void (*turn)(void *); void *turned; unsigned count; } others;

static void look_for_recall(void *unused)
{
    struct port *p = &session.port;
    (void)unused;
    if (++others.count % TURNS == 0 && vfio_is_recalled(&session.vfio)) {
        p->turn = others.turn, p->turned = others.turned;
        session_fail("", "Linux wants to remove the device");
    }
    if (others.turn)
        others.turn(others.turned);
}

void session_begin(void)
{
    struct port *p = &session.port;
    struct nvmehost_outcome outcome;
    char text[120];
    expect_lost_registers();
    p->buffer = malloc(NVMEHOST_BUFFER), p->copy = malloc(NVMEHOST_BUFFER);
    if (!p->buffer || !p->copy || nvmehost_open(&p->host, 1) != NVMEHOST_OK)
        session_fail("", "no memory");
    if (vfio_open(&session.vfio, session.address, p)) {
        fprintf(stderr, "nvmehost: %s\n", session.vfio.fault);
        exit(SESSION_FAILED);
    }
    others.turn = p->turn, others.turned = p->turned, p->turn = look_for_recall;
    uint32_t what = port_start(p, &outcome);
    if (what == NVMEHOST_REFUSED) {
        snprintf(text, sizeof text, "%s, status %x:%02x", port_name(what), outcome.sct, outcome.sc);
        session_fail("bring-up", text);
    }
    if (what != NVMEHOST_OK)
        session_fail("bring-up", port_name(what));
    session_ask(0);
}

void session_print_data(size_t len)
{
    fputs(",\"data\":\"", stdout);
    for (size_t i = 0; i < len; i++)
        printf("%02x", session.port.buffer[i]);
    putchar('"');
}

bool session_number(const char *text, uint64_t most, uint64_t *value)
{
    char *end;
    errno = 0;
    *value = strtoull(text, &end, 0);
    return *text >= '0' && *text <= '9' && *end == 0 && errno == 0 && *value <= most;
}
