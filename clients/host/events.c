#include "commands.h"
#include "session.h"

#include <stdio.h>
#include <time.h>

/* Between two looks at the queues while an event is awaited. */
enum { REST_NS = 1000000 };
/* Log pages, and the identifier that a page of the controller has instead of a namespace. */
enum { HEALTH = 2, CHANGED = 4, NOTIFICATIONS = 0x80 };
enum { CHANGED_NAMESPACES = 1024, NOTIFICATION_BYTES = 64 };
#define ALL_NAMESPACES UINT32_MAX

static const struct { const char *name; uint32_t bytes; } kinds[] = {
    [NVMEHOST_EVENT_OTHER] = { "other", 512 }, [NVMEHOST_EVENT_ERROR] = { "error", 64 },
    [NVMEHOST_EVENT_HEALTH] = { "health", 512 }, [NVMEHOST_EVENT_NAMESPACES] = { "namespaces", 4096 },
    [NVMEHOST_EVENT_FIRMWARE] = { "firmware", 512 }, [NVMEHOST_EVENT_RESERVATION] = { "reservation", NOTIFICATION_BYTES },
    [NVMEHOST_EVENT_SANITIZE] = { "sanitize", 512 } };

/* What the port does while it waits: sleeps, and then what it did before. */
struct rest {
    void (*turn)(void *);
    void *turned;
};

static void sleep_and_turn(void *rest)
{
    struct rest *r = rest;
    nanosleep(&(struct timespec){ .tv_nsec = REST_NS }, NULL);
    if (r->turn)
        r->turn(r->turned);
}

/* Double word 0 of the next event. */
static uint32_t await_event(void)
{
    static const char what[] = "Asynchronous Event Request";
    struct port *p = &session.port;
    struct rest rest = { p->turn, p->turned };
    struct nvmehost_placed placed = nvmehost_await_event(&p->host);
    p->turn = sleep_and_turn, p->turned = &rest;
    struct nvmehost_outcome outcome = port_wait(p, placed, session.is_limited ? session.timeout_ms : PORT_FOREVER);
    p->turn = rest.turn, p->turned = rest.turned;
    if (outcome.code == NVMEHOST_NOTHING)
        session_give_up(what, placed.ticket);
    session_succeed(what, outcome);
    return outcome.dw0;
}

static unsigned number_at(const uint8_t *bytes)
{
    return bytes[0] | (unsigned)bytes[1] << 8 | (unsigned)bytes[2] << 16 | (unsigned)bytes[3] << 24;
}

/* The namespaces of the page in the buffer, which zeros fill up. If more changed, the only one is ffffffff. */
static void print_changed(void)
{
    const char *separator = "";
    fputs(session.is_json ? ",\"changed\":[" : "changed:", stdout);
    for (int i = 0; i < CHANGED_NAMESPACES; i++) {
        unsigned nsid = number_at(session.port.buffer + 4 * i);
        if (nsid == 0)
            break;
        printf(session.is_json ? "%s%u" : "%s %u", separator, nsid);
        separator = ",";
    }
    fputs(session.is_json ? "]" : "\n", stdout);
}

/* The reservation notification in the buffer. */
static void print_notification(void)
{
    static const char *const types[] = { "none", "registration preempted", "reservation released",
        "reservation preempted" };
    const uint8_t *page = session.port.buffer;
    const char *type = page[8] < sizeof types / sizeof *types ? types[page[8]] : "reserved";
    printf(session.is_json ? ",\"notification\":\"%s\",\"nsid\":%u" : "%s, namespace %u\n", type, number_at(page + 12));
}

void print_next_event(void)
{
    struct nvmehost_event event = nvmehost_event(await_event());
    const char *name = kinds[event.kind].name;
    char what[80];
    snprintf(what, sizeof what, "Get Log Page %02x for the event %s", event.log_page, name);
    if (event.log_page != 0)
        session_finish(what, nvmehost_log(&session.port.host, ALL_NAMESPACES, event.log_page, false,
                                          kinds[event.kind].bytes / 4));
    printf(session.is_json ? "{\"command\":\"events\",\"kind\":\"%s\",\"type\":%u,\"info\":%u,\"log_page\":%u"
                           : "%s: type %u, info %02x, log page %02x\n", name, event.type, event.info, event.log_page);
    if (event.log_page == HEALTH)
        printf(session.is_json ? ",\"critical_warning\":%u" : "critical warning %02x\n", session.port.buffer[0]);
    else if (event.log_page == CHANGED)
        print_changed();
    else if (event.log_page == NOTIFICATIONS)
        print_notification();
    fputs(session.is_json ? "}\n" : "", stdout);
}
