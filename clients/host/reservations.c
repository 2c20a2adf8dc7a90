#include "commands.h"
#include "session.h"

#include <stdio.h>
#include <string.h>

/* The extended data structure: its header, and what each registrant has, in bytes. */
enum { HEADER = 64, REGISTRANT = 64, FIRST_BYTES = 4096 };

static uint64_t number_at(size_t at, size_t len)
{
    uint64_t value = 0;
    for (size_t i = len; i > 0; i--)
        value = value << 8 | session.port.buffer[at + i - 1];
    return value;
}

static void read_report(uint32_t nsid, size_t len)
{
    session_finish("Reservation Report", nvmehost_report(&session.port.host, nsid, (uint32_t)(len / 4)));
}

static const char *type_name(uint64_t type)
{
    static const char *const names[] = { "none", "Write Exclusive", "Exclusive Access",
        "Write Exclusive - Registrants Only", "Exclusive Access - Registrants Only",
        "Write Exclusive - All Registrants", "Exclusive Access - All Registrants" };
    return type < sizeof names / sizeof *names ? names[type] : "reserved";
}

static void print_host(size_t at)
{
    for (size_t i = 0; i < 16; i++)
        printf("%02x", session.port.buffer[at + i]);
}

static void print_registrant(size_t at, const char *separator)
{
    unsigned cntlid = (unsigned)number_at(at, 2);
    bool is_holder = number_at(at + 2, 1) & 1;
    unsigned long long key = number_at(at + 8, 8);
    if (session.is_json)
        printf("%s{\"cntlid\":%u,\"holder\":%s,\"host_identifier\":\"", separator, cntlid, is_holder ? "true" : "false");
    else
        printf("registrant: controller %u, %s, host ", cntlid, is_holder ? "holder" : "no holder");
    print_host(at + 16);
    printf(session.is_json ? "\",\"key\":\"0x%016llx\"}" : ", key 0x%016llx\n", key);
}

/* The report, which is read again if it has more registrants than there is room for. */
static void print_report(const struct options *o)
{
    size_t room = FIRST_BYTES, len;
    const char *separator = "";
    read_report(o->nsid, room);
    len = HEADER + REGISTRANT * (size_t)number_at(5, 2);
    if (len > room) {
        room = len < NVMEHOST_BUFFER ? len : NVMEHOST_BUFFER;
        read_report(o->nsid, room);
        len = HEADER + REGISTRANT * (size_t)number_at(5, 2);
    }
    unsigned generation = (unsigned)number_at(0, 4), type = (unsigned)number_at(4, 1), ptpls = (unsigned)number_at(9, 1);
    if (session.is_json)
        printf("{\"command\":\"%s\",\"nsid\":%u,\"generation\":%u,\"type\":%u,\"ptpls\":%u,\"registrants\":[", o->command,
               o->nsid, generation, type, ptpls);
    else
        printf("generation %u\ntype %u: %s\nptpls %u\n", generation, type, type_name(type), ptpls);
    for (size_t at = HEADER; at + REGISTRANT <= len && at + REGISTRANT <= room; at += REGISTRANT) {
        print_registrant(at, separator);
        separator = ",";
    }
    if (len > room)
        session_fail("Reservation Report", "it has more registrants than could be read");
    fputs(session.is_json ? "]}\n" : "", stdout);
}

struct nvmehost_placed place_change(const struct options *o, const char **what)
{
    struct nvmehost *host = &session.port.host;
    if (!strcmp(o->command, "resv-register")) {
        *what = "Reservation Register";
        return nvmehost_register(host, o->nsid, o->action, o->iekey, o->cptpl, o->crkey, o->other_key);
    }
    if (!strcmp(o->command, "resv-acquire")) {
        *what = "Reservation Acquire";
        return nvmehost_acquire(host, o->nsid, o->action, o->rtype, o->crkey, o->other_key);
    }
    *what = "Reservation Release";
    return nvmehost_release(host, o->nsid, o->action, o->rtype, o->crkey);
}

static void change(const struct options *o)
{
    const char *what;
    struct nvmehost_placed placed = place_change(o, &what);
    session_finish(what, placed);
    if (session.is_json)
        printf("{\"command\":\"%s\",\"nsid\":%u}\n", o->command, o->nsid);
}

void run_option_command(const struct options *o)
{
    session_begin();
    if (o->has_host)
        session_identify_host(o->host);
    if (!strcmp(o->command, "events")) {
        if (o->enables)
            session_finish("Set Features", nvmehost_configure_events(&session.port.host, o->events));
        print_next_event();
        return;
    }
    session_ask(o->nsid);
    if (!strcmp(o->command, "resv-report"))
        print_report(o);
    else
        change(o);
}
