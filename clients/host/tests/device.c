#include "device.h"

#include <string.h>

enum { CC = 0x14, CSTS = 0x1c, ENTRIES = 8, COMPLETIONS = 32, SUCCESS = 0, INVALID_OPCODE = 1, INVALID_FIELD = 2,
       ABORT_REQUESTED = 7, OUT_OF_RANGE = 0x80, RESERVATION_CONFLICT = 0x83, TOO_MANY_EVENTS = 0x105,
       INVALID_LOG_PAGE = 0x109, COMPARE_FAILURE = 0x285 };
enum { FLUSH = 0, WRITE = 1, READ = 2, COMPARE = 5, WRITE_ZEROES = 8, REGISTER = 0x0d, REPORT = 0x0e, ACQUIRE = 0x11,
       RELEASE = 0x15 };
/* A command is not answered yet. */
static const uint32_t waits = UINT32_MAX;

struct command {
    uint8_t opcode, flags;
    uint16_t cid;
    uint32_t nsid, words[4];
    uint64_t prp1, prp2;
    uint32_t cdw10, cdw11, cdw12, cdw13, cdw14, cdw15;
};

static volatile uint32_t *reg(struct device *d, uint32_t offset)
{
    return (volatile uint32_t *)(d->registers + offset);
}

static uint32_t bell(struct device *d, uint32_t nth)
{
    return 0x1000 + nth * (4u << (d->cap >> 32 & 15));
}

void device_reset(struct device *d, volatile uint8_t *memory, volatile uint8_t *registers)
{
    memset(d, 0, sizeof *d);
    d->memory = memory, d->registers = registers;
    /* MQES 2047, TO 500 ms, the NVM command set */
    d->cap = 0x00000020010107ff;
    d->lbads = 9, d->mdts = 5, d->sqes = 0x66, d->oncs = 0x29, d->nsze = DEVICE_BLOCKS;
}

/* The address of a byte of a transfer of this length. */
static volatile uint8_t *at(struct device *d, const struct command *c, uint32_t offset, uint32_t len)
{
    uint32_t page = offset / 4096;
    uint64_t place = c->prp1;
    if (page == 1 && len <= 8192)
        place = c->prp2;
    else if (page > 0)
        place = *(volatile uint64_t *)(d->memory + c->prp2 + 8 * (page - 1));
    return d->memory + place + offset % 4096;
}

/* Copies data from the host, or to it: as much of the answer as it has room for, and zeros after its end. */
static void take(struct device *d, const struct command *c, uint8_t *bytes, uint32_t len)
{
    for (uint32_t i = 0; i < len; i++)
        bytes[i] = *at(d, c, i, len);
}

static void give(struct device *d, const struct command *c, const uint8_t *bytes, uint32_t len, uint32_t room)
{
    d->given = room;
    for (uint32_t i = 0; i < room; i++)
        *at(d, c, i, room) = i < len ? bytes[i] : 0;
}

static void identify(struct device *d, const struct command *c)
{
    uint8_t bytes[4096] = { 0 };
    if (c->cdw10 == 1) {
        memcpy(bytes + 4, "TEST                ", 20);
        bytes[77] = d->mdts, bytes[111] = 1, bytes[512] = d->sqes, bytes[513] = 0x44, bytes[516] = 1;
        memcpy(bytes + 520, &d->oncs, 2);
    } else if (c->nsid == 1) {
        memcpy(bytes, &d->nsze, 8);
        bytes[29] = d->dps, bytes[130] = d->lbads;
        memcpy(bytes + 128, &d->metadata, 2);
    }
    give(d, c, bytes, sizeof bytes, sizeof bytes);
}

static void post(struct device *d, uint32_t queue, uint16_t cid, uint32_t status, uint32_t dw0)
{
    volatile uint32_t *to =
        (volatile uint32_t *)(d->memory + 0x1000 + 0x2000 * queue + 16 * d->tail[queue]);
    to[0] = dw0, to[1] = 0;
    to[2] = d->head[queue] | queue << 16;
    __atomic_thread_fence(__ATOMIC_RELEASE);
    to[3] = cid | d->phase[queue] << 16 | status << 17;
    d->tail[queue] = (d->tail[queue] + 1) % COMPLETIONS;
    d->phase[queue] ^= d->tail[queue] == 0;
}

/* Asynchronous Event Configuration, or the Host Identifier, of 128 bits. */
static uint32_t set_features(struct device *d, const struct command *c)
{
    if (c->cdw10 == 0x0b) {
        d->event_configuration = c->cdw11;
        return SUCCESS;
    }
    if (c->cdw10 != 0x81 || c->cdw11 != 1 || d->refuses_host)
        return INVALID_FIELD;
    take(d, c, d->host, sizeof d->host);
    d->has_host = true;
    return SUCCESS;
}

/* A log page; it clears its event, unless that is retained. */
static uint32_t get_log_page(struct device *d, const struct command *c)
{
    uint32_t lid = c->cdw10 & 0xff, len = 4 * ((c->cdw10 >> 16 | (c->cdw11 & 0xffff) << 16) + 1);
    uint8_t bytes[64] = { 0 };
    if (lid == DEVICE_NOTIFICATIONS) {
        memcpy(bytes, &d->notifications, 8);
        bytes[8] = 3, bytes[12] = 1;
    } else if (lid == 0 || lid > 4) {
        return INVALID_LOG_PAGE;
    } else if (lid == 2 || lid == 4) {
        bytes[0] = (uint8_t)lid; /* a warning, or a changed namespace */
    }
    give(d, c, bytes, sizeof bytes, len);
    if (!(c->cdw10 >> 15 & 1) && lid == d->reported)
        d->reported = 0;
    return SUCCESS;
}

/* Takes a request out of those that await an event, or out of the held ones; whether it is there. */
static bool forget_event(struct device *d, uint16_t cid)
{
    for (uint32_t i = 0; i < d->event_count; i++) {
        if (d->event_cids[i] != cid)
            continue;
        d->event_cids[i] = d->event_cids[--d->event_count];
        return true;
    }
    return false;
}

static bool forget_held(struct device *d, uint16_t cid)
{
    for (uint32_t i = 0; i < d->held_count; i++) {
        if (d->held[i].cid != cid)
            continue;
        d->held[i] = d->held[--d->held_count];
        return true;
    }
    return false;
}

/* Double word 0 of the answer to an Abort. The aborted command is answered before. */
static uint32_t abort_command(struct device *d, const struct command *c)
{
    uint32_t queue = c->cdw10 & 0xffff;
    uint16_t cid = (uint16_t)(c->cdw10 >> 16);
    if (d->aborting_releases)
        device_release(d);
    if (d->aborts_nothing || queue > 1 || !(queue == 0 ? forget_event(d, cid) : forget_held(d, cid)))
        return 1;
    post(d, queue, cid, ABORT_REQUESTED, 0);
    return 0;
}

static uint32_t await_event(struct device *d, const struct command *c)
{
    if (d->event_count == DEVICE_EVENTS)
        return TOO_MANY_EVENTS;
    d->event_cids[d->event_count++] = c->cid;
    return waits;
}

static uint32_t admin(struct device *d, const struct command *c, uint32_t *dw0)
{
    switch (c->opcode) {
    case 6:
        identify(d, c);
        return SUCCESS;
    case 5:
    case 1:
        d->is_created[c->opcode == 1] = true;
        return SUCCESS;
    case 9:
        return set_features(d, c);
    case 2:
        return get_log_page(d, c);
    case 8:
        *dw0 = abort_command(d, c);
        return SUCCESS;
    case 0x0c:
        return await_event(d, c);
    default:
        return INVALID_OPCODE;
    }
}

/* The model of reservations has one registrant. */
static uint32_t register_host(struct device *d, const struct command *c, const uint64_t keys[2])
{
    struct device_reservation *r = &d->reservation;
    uint32_t action = c->cdw10 & 7, cptpl = c->cdw10 >> 30;
    bool is_own = r->is_registered && ((c->cdw10 >> 3 & 1) || keys[0] == r->key);
    if (action > 2 || cptpl == 1)
        return INVALID_FIELD;
    if (action == 0 ? r->is_registered && r->key != keys[1] : !is_own)
        return RESERVATION_CONFLICT;
    r->is_registered = action != 1, r->type = action == 1 ? 0 : r->type, r->generation++;
    r->key = keys[1], r->ptpls = cptpl == 0 ? r->ptpls : cptpl == 3;
    memcpy(r->host, d->host, sizeof r->host);
    return SUCCESS;
}

static uint32_t acquire(struct device *d, const struct command *c, const uint64_t keys[2])
{
    struct device_reservation *r = &d->reservation;
    uint32_t action = c->cdw10 & 7, type = c->cdw10 >> 8 & 0xff;
    if (action > 2 || type == 0 || type > 6)
        return INVALID_FIELD;
    if (!r->is_registered || keys[0] != r->key || (action == 0 ? r->type != 0 && r->type != type : keys[1] != r->key))
        return RESERVATION_CONFLICT;
    r->type = (uint8_t)type, r->generation += action != 0;
    return SUCCESS;
}

static uint32_t release(struct device *d, const struct command *c, const uint64_t keys[1])
{
    struct device_reservation *r = &d->reservation;
    uint32_t action = c->cdw10 & 7, type = c->cdw10 >> 8 & 0xff;
    if (!r->is_registered || keys[0] != r->key)
        return RESERVATION_CONFLICT;
    if (action > 1 || (action == 0 && r->type != 0 && r->type != type))
        return INVALID_FIELD;
    r->type = 0, r->is_registered = action == 0, r->generation += action;
    return SUCCESS;
}

/* The extended data structure. */
static uint32_t report(struct device *d, const struct command *c)
{
    struct device_reservation *r = &d->reservation;
    uint8_t bytes[128] = { 0 };
    if (!(c->cdw11 & 1))
        return INVALID_FIELD;
    memcpy(bytes, &r->generation, 4);
    bytes[4] = r->type, bytes[5] = r->is_registered, bytes[9] = r->ptpls;
    if (r->is_registered) {
        bytes[66] = r->type != 0;
        memcpy(bytes + 72, &r->key, 8), memcpy(bytes + 80, r->host, 16);
    }
    give(d, c, bytes, sizeof bytes, 4 * (c->cdw10 + 1));
    return SUCCESS;
}

static uint32_t on_reservation(struct device *d, const struct command *c)
{
    uint64_t keys[2] = { 0 };
    if (c->nsid != 1)
        return INVALID_FIELD;
    if (c->opcode == REPORT)
        return report(d, c);
    if (!d->has_host)
        return INVALID_FIELD;
    if (d->reservation.is_registered && memcmp(d->reservation.host, d->host, sizeof d->host) != 0)
        return RESERVATION_CONFLICT;
    take(d, c, (uint8_t *)keys, c->opcode == RELEASE ? 8 : 16);
    return c->opcode == REGISTER ? register_host(d, c, keys)
        : c->opcode == ACQUIRE ? acquire(d, c, keys) : release(d, c, keys);
}

static uint32_t on_blocks(struct device *d, const struct command *c)
{
    uint64_t first = c->cdw10 | (uint64_t)c->cdw11 << 32, count = (c->cdw12 & 0xffff) + 1;
    if (c->nsid != 1)
        return INVALID_FIELD;
    if (c->opcode == FLUSH)
        return SUCCESS;
    if (first + count > DEVICE_BLOCKS)
        return OUT_OF_RANGE;
    uint8_t *block = d->blocks + 512 * first;
    if (c->opcode == WRITE_ZEROES) {
        memset(block, 0, 512 * count);
        return SUCCESS;
    }
    for (uint32_t i = 0; i < 512 * count; i++) {
        volatile uint8_t *byte = at(d, c, i, (uint32_t)(512 * count));
        if (c->opcode == WRITE)
            block[i] = *byte;
        else if (c->opcode == READ)
            *byte = block[i];
        else if (*byte != block[i])
            return COMPARE_FAILURE;
    }
    return SUCCESS;
}

static uint32_t io(struct device *d, const struct command *c)
{
    switch (c->opcode) {
    case FLUSH:
    case WRITE:
    case READ:
    case COMPARE:
    case WRITE_ZEROES:
        return on_blocks(d, c);
    case REGISTER:
    case REPORT:
    case ACQUIRE:
    case RELEASE:
        return on_reservation(d, c);
    default:
        return INVALID_OPCODE;
    }
}

static void execute(struct device *d, uint32_t queue)
{
    struct command c;
    uint32_t dw0 = 0;
    volatile uint8_t *from = d->memory + 0x2000 * queue + 64 * d->head[queue];
    for (uint32_t i = 0; i < sizeof c; i++)
        ((uint8_t *)&c)[i] = from[i];
    d->head[queue] = (d->head[queue] + 1) % ENTRIES;
    if (queue == 1 && d->is_holding && c.opcode == d->held_opcode && d->held_count < DEVICE_HELD) {
        struct device_held *held = &d->held[d->held_count++];
        held->cid = c.cid;
        memcpy(held->entry, &c, sizeof c);
        return;
    }
    uint32_t status = queue == 0 ? admin(d, &c, &dw0) : io(d, &c);
    if (status != waits)
        post(d, queue, c.cid, status, dw0);
}

void device_release(struct device *d)
{
    struct command c;
    d->is_holding = false;
    for (uint32_t i = 0; i < d->held_count; i++) {
        memcpy(&c, d->held[i].entry, sizeof c);
        post(d, 1, c.cid, io(d, &c), 0);
    }
    d->held_count = 0;
}

void device_raise(struct device *d, uint32_t event)
{
    d->event = event;
    d->notifications++;
}

/* Whether the configuration has an event: a critical warning, or a notice. */
static bool is_reported(const struct device *d)
{
    uint32_t type = d->event & 7, info = d->event >> 8 & 0xff;
    return !d->is_configured || (type == 1 ? (d->event_configuration & 0xff) != 0
                                           : type != 2 || (d->event_configuration >> (8 + info) & 1));
}

/* Reports an event, if there is one, a request awaits it, and the log page of the last one was read. */
static void report_event(struct device *d)
{
    if (d->event == 0 || d->event_count == 0 || d->reported != 0 || !is_reported(d))
        return;
    d->event_count--;
    d->reported = d->event >> 16 & 0xff;
    post(d, 0, d->event_cids[d->event_count], SUCCESS, d->event);
    d->event = 0;
}

static void follow(struct device *d)
{
    uint32_t wanted = *reg(d, CC) & 1, state = wanted | (uint32_t)d->is_fatal << 1;
    if ((*reg(d, CC) >> 14 & 3) == 1)
        state |= 8;
    if ((*reg(d, CSTS) & 1) == wanted || d->is_stuck) {
        *reg(d, CSTS) = d->is_stuck ? *reg(d, CSTS) : state;
        return;
    }
    if (d->waited++ < d->ready_after)
        return;
    d->waited = 0, d->event_count = 0, d->event_configuration = 0, d->held_count = 0, d->has_host = false;
    *reg(d, CSTS) = state;
    for (uint32_t queue = 0; queue < 2; queue++) {
        d->head[queue] = d->tail[queue] = 0, d->phase[queue] = 1, d->is_created[queue] = false;
        *reg(d, bell(d, 2 * queue)) = 0;
    }
}

void device_turn(void *device)
{
    struct device *d = device;
    *(volatile uint64_t *)d->registers = d->is_gone ? UINT64_MAX : d->cap;
    if (d->is_gone) {
        *reg(d, CSTS) = UINT32_MAX;
        return;
    }
    follow(d);
    if (!(*reg(d, CSTS) & 1) || d->is_silent)
        return;
    for (uint32_t queue = 0; queue < 2; queue++)
        while (d->head[queue] != *reg(d, bell(d, 2 * queue)))
            execute(d, queue);
    report_event(d);
}
