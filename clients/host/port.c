#include "port.h"

#include "snapshot.h"

#include <string.h>
#include <time.h>

enum { CAP = 0x00, CSTS = 0x1c, DOORBELLS = 0x1000, ENTRY = 16, QUEUES = 2 };

static uint64_t now_ms(void)
{
    struct timespec t;
    clock_gettime(CLOCK_MONOTONIC, &t);
    return (uint64_t)t.tv_sec * 1000 + (uint64_t)t.tv_nsec / 1000000;
}

/* Lets a device of a test take a turn. */
static void give_turn(struct port *p)
{
    if (p->turn)
        p->turn(p->turned);
}

uint32_t port_read32(struct port *p, uint64_t offset)
{
    return *(volatile uint32_t *)(p->registers + offset);
}

/* Everything stored before is visible to the device before the register is written. */
static void write32(struct port *p, uint64_t offset, uint32_t value)
{
    __atomic_thread_fence(__ATOMIC_SEQ_CST);
    *(volatile uint32_t *)(p->registers + offset) = value;
}

enum { SHORT = 64 };

/* Copies between the library and memory that the device may write meanwhile. The compiler can't read that memory again
 * after the copy, or put off a store. Queue entries are copied word by word: the library has just stored them in small
 * pieces, for which wider loads would wait. Addresses and lengths are multiples of 4. */
static void copy(volatile uint8_t *to, const volatile uint8_t *from, size_t len)
{
    __asm__ volatile("" ::: "memory");
    if (len > SHORT)
        memcpy((void *)to, (const void *)from, len);
    else
        for (size_t i = 0; i < len; i += 4)
            *(volatile uint32_t *)(to + i) = *(const volatile uint32_t *)(from + i);
    __asm__ volatile("" ::: "memory");
}

static void store(struct port *p, uint64_t at, size_t len)
{
    if (nvmehost_load(&p->host, at, p->copy, len) == NVMEHOST_OK)
        copy(p->memory + at, p->copy, len);
}

void port_perform(struct port *p)
{
    struct nvmehost_action actions[NVMEHOST_ACTIONS];
    size_t count = nvmehost_actions(&p->host, actions, NVMEHOST_ACTIONS);
    for (size_t i = 0; i < count; i++) {
        if (actions[i].kind == NVMEHOST_WRITE)
            write32(p, actions[i].at, actions[i].value);
        else if (actions[i].len != 0)
            store(p, actions[i].at, actions[i].len);
    }
}

/* Waits for the awaited status. */
static uint32_t wait_for_status(struct port *p)
{
    uint64_t begun = now_ms();
    uint32_t what;
    while ((what = nvmehost_status(&p->host, port_read32(p, CSTS), now_ms() - begun)) == NVMEHOST_WAITS)
        give_turn(p);
    return what;
}

/* Copies the next completion of a queue, if it is new. */
static bool see(struct port *p, uint32_t queue, uint32_t entry[4])
{
    struct nvmehost_next_completion next = nvmehost_next_completion(&p->host, queue);
    return next.code == NVMEHOST_OK
        && take_snapshot((const volatile uint32_t *)(p->memory + next.at), next.phase, entry);
}

struct nvmehost_outcome port_poll(struct port *p)
{
    uint32_t entry[4];
    for (uint32_t queue = 0; queue < QUEUES; queue++) {
        if (!see(p, queue, entry))
            continue;
        struct nvmehost_completion_data data = nvmehost_store_completion(&p->host, queue, (const uint8_t *)entry);
        if (data.code == NVMEHOST_OK && data.len != 0) {
            copy(p->copy, p->memory + data.at, data.len);
            nvmehost_store_data(&p->host, data.at, p->copy, data.len);
        }
        break;
    }
    struct nvmehost_outcome outcome = nvmehost_poll(&p->host, p->buffer, NVMEHOST_BUFFER);
    port_perform(p);
    return outcome;
}

/* Waits for the next completion of the admin queue, and reports it; zeros if none came in time. */
static void report_completion(struct port *p, uint32_t timeout_ms)
{
    uint64_t begun = now_ms();
    uint32_t entry[4];
    bool is_new;
    while (!(is_new = see(p, 0, entry)) && now_ms() - begun < timeout_ms)
        give_turn(p);
    if (!is_new)
        memset(entry, 0, ENTRY);
    nvmehost_report_completion(&p->host, (const uint8_t *)entry);
}

uint32_t port_reset(struct port *p)
{
    uint32_t what = nvmehost_reset(&p->host);
    if (what != NVMEHOST_OK)
        return what;
    port_perform(p);
    return wait_for_status(p);
}

uint32_t port_shutdown(struct port *p)
{
    uint32_t what = nvmehost_shutdown(&p->host);
    if (what != NVMEHOST_OK)
        return what;
    port_perform(p);
    return wait_for_status(p);
}

uint32_t port_start(struct port *p, struct nvmehost_outcome *outcome)
{
    uint64_t cap = port_read32(p, CAP) | (uint64_t)port_read32(p, CAP + 4) << 32;
    struct nvmehost_limits limits = nvmehost_capabilities(&p->host, cap);
    memset(outcome, 0, sizeof *outcome);
    if (limits.code != NVMEHOST_OK)
        return limits.code;
    if (DOORBELLS + 4 * (size_t)limits.stride > p->registers_len)
        return NVMEHOST_OUTSIDE;
    uint32_t what = port_reset(p);
    if (what != NVMEHOST_OK)
        return what;
    for (;;) {
        *outcome = nvmehost_bring_up(&p->host);
        port_perform(p);
        if (outcome->code == NVMEHOST_NEEDS_COMPLETION) {
            report_completion(p, limits.timeout_ms);
        } else if (outcome->code == NVMEHOST_NEEDS_STATUS) {
            what = wait_for_status(p);
            if (what != NVMEHOST_OK)
                return what;
        } else {
            return outcome->code;
        }
    }
}

void port_ring(struct port *p)
{
    nvmehost_ring(&p->host);
    port_perform(p);
}

uint32_t port_health(struct port *p)
{
    return nvmehost_health(port_read32(p, CSTS));
}

struct nvmehost_outcome port_wait(struct port *p, struct nvmehost_placed placed, unsigned timeout_ms)
{
    struct nvmehost_outcome outcome = { 0, 0, 0, placed.code, 0, 0 };
    uint64_t begun = now_ms(), time = begun;
    uint32_t health = NVMEHOST_OK;
    if (placed.code != NVMEHOST_OK)
        return outcome;
    port_perform(p);
    port_ring(p);
    for (;;) {
        outcome = port_poll(p);
        bool is_other = (outcome.code == NVMEHOST_DONE || outcome.code == NVMEHOST_ABORTED)
            && outcome.ticket != placed.ticket;
        if (outcome.code != NVMEHOST_NOTHING && !is_other)
            return outcome;
        /* The status is read once a millisecond, since that takes a device a microsecond. */
        if (outcome.code == NVMEHOST_NOTHING && now_ms() != time)
            time = now_ms(), health = port_health(p);
        bool is_over = timeout_ms != PORT_FOREVER && time - begun >= timeout_ms;
        if (health != NVMEHOST_OK || (outcome.code == NVMEHOST_NOTHING && is_over))
            break;
        if (outcome.code == NVMEHOST_NOTHING)
            give_turn(p);
    }
    outcome.ticket = placed.ticket;
    if (health != NVMEHOST_OK) {
        nvmehost_expire(&p->host, placed.ticket);
        outcome.code = health;
    }
    return outcome;
}

struct nvmehost_outcome port_answer(struct port *p, struct nvmehost_placed placed, unsigned timeout_ms)
{
    struct nvmehost_outcome outcome = port_wait(p, placed, timeout_ms);
    if (outcome.code == NVMEHOST_NOTHING && nvmehost_expire(&p->host, placed.ticket) == NVMEHOST_OK)
        outcome.code = NVMEHOST_EXPIRED;
    return outcome;
}

const char *port_name(uint32_t what)
{
    static const char *const low[] = {
        "ok", "done", "aborted", "nothing", "needs the status", "needs a completion", "waits"
    };
    static const char *const middle[] = {
        "no driver is open", "a driver is open already", "no memory", "actions are pending",
        "the capabilities were not judged", "the controller was not seen disabled", "the driver is up, or has failed",
        "the controller is not ready", "the controller did not answer", "the controller refused a queue",
        "the driver is not up", "no command can express the request", "all slots wait", "the queue is full",
        "no ticket is left", "a completion answers no request", "outside the window or the registers",
        "nothing is awaited", "no request with this ticket waits"
    };
    static const char *const high[] = {
        "the device was removed (its registers read as ones)", "the controller has failed (CSTS.CFS)",
        "the controller did not change its status in time (CAP.TO)", "its queues are too short (CAP.MQES)",
        "it does not have the NVM command set (CAP.CSS)", "its memory pages are larger than 4 KiB (CAP.MPSMIN)",
        "it is no I/O controller (CNTRLTYPE)", "its queue entries have other sizes (SQES, CQES)",
        "there is no such namespace, or it is not attached (NSZE)", "its blocks do not have 512 bytes (LBADS)",
        "its blocks have metadata (MS, DPS)", "the controller was not asked", "the namespace was not asked",
        "the controller does not support the command (ONCS)", "the request is longer than MDTS allows",
        "blocks after the last one of the namespace (NSZE)", "namespaces above 64 are not supported",
        "the controller did not answer in time: reset it", "the controller does not have the identifier of this host"
    };
    if (what < sizeof low / sizeof *low)
        return low[what];
    if (what >= 16 && what - 16 < sizeof middle / sizeof *middle)
        return middle[what - 16];
    if (what >= 48 && what - 48 < sizeof high / sizeof *high)
        return high[what - 48];
    return "an unknown result";
}
