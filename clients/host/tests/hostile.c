/* A device that writes anything at any moment: a thread of its own fills the completion queues and the data with
 * random bytes, and with completions that look right, while requests are placed and polled. Each ticket must be
 * delivered at most once, none that was not given, and none from before a reset as an answer. An event has a known kind,
 * whatever the answer says. Each call has to place a request at times. usage: hostile TICKETS SEED */
#include "../port.h"
#include "device.h"

#include <pthread.h>
#include <stdatomic.h>
#include <stdio.h>
#include <stdlib.h>
#include <string.h>

static struct device device;
static struct port p;
static atomic_bool is_over, may_write;
static atomic_ullong written;

/* What was given and delivered: the last ticket, the first one after the last reset, and a flag for each. */
static uint8_t *handed;
static uint64_t given, most, since_reset = 1;
static uint64_t done, aborted, twice, strangers, stale, unknown, resets, nameless;

static uint32_t next_random(uint64_t *state)
{
    *state = *state * 6364136223846793005u + 1442695040888963407u;
    return (uint32_t)(*state >> 33);
}

/* One completion in a random place of a queue: random bytes, or fields that are often right. */
static void write_entry(uint64_t *state)
{
    uint32_t queue = next_random(state) % 2, place = next_random(state) % 32;
    volatile uint32_t *to = (volatile uint32_t *)(p.memory + 0x1000 + 0x2000 * queue + 16 * place);
    bool looks_right = next_random(state) % 4 != 0;
    to[0] = next_random(state);
    to[2] = looks_right ? next_random(state) % 9 | queue << 16 : next_random(state);
    to[3] = looks_right ? next_random(state) % 25 | (next_random(state) & 1) << 16 : next_random(state);
}

static void *write_anything(void *seed)
{
    uint64_t state = *(uint64_t *)seed;
    while (!is_over) {
        for (uint32_t i = next_random(&state) % 4096; i > 0; i--)
            atomic_signal_fence(memory_order_seq_cst);
        if (!may_write)
            continue;
        write_entry(&state);
        *(volatile uint32_t *)(p.memory + 0x100000 + 4 * (next_random(&state) % 0xc0000)) = next_random(&state);
        written++;
    }
    return NULL;
}

/* Counts what a poll delivered; whether it was anything. */
static bool count(const struct nvmehost_outcome *outcome)
{
    if (outcome->code != NVMEHOST_DONE && outcome->code != NVMEHOST_ABORTED)
        return false;
    bool is_done = outcome->code == NVMEHOST_DONE;
    done += is_done, aborted += !is_done;
    nameless += nvmehost_event(outcome->dw0).kind > NVMEHOST_EVENT_SANITIZE;
    if (outcome->ticket == 0 || outcome->ticket > given) {
        strangers++;
        return true;
    }
    stale += is_done && outcome->ticket < since_reset;
    twice += handed[outcome->ticket];
    handed[outcome->ticket] = 1;
#ifdef PLANTED
    /* As if the ticket were delivered again. */
    twice += handed[outcome->ticket];
#endif
    return true;
}

static void note(struct nvmehost_placed placed)
{
    if (placed.code == NVMEHOST_OK)
        given = placed.ticket;
    port_perform(&p);
}

/* Resets the controller and brings it up again, and asks it: as often as that takes. */
static void start_again(void)
{
    struct nvmehost_outcome outcome;
    may_write = false;
    do {
        since_reset = given + 1, resets++;
        port_start(&p, &outcome);
        for (outcome = port_poll(&p); count(&outcome); outcome = port_poll(&p))
            ;
    } while (outcome.code != NVMEHOST_NOTHING);
    /* The driver learns from the answer to its last question alone. */
    for (uint32_t nsid = 0; nsid < 2; nsid++) {
        note(nvmehost_ask(&p.host, nsid));
        port_ring(&p);
        device_turn(&device);
        for (outcome = port_poll(&p); count(&outcome); outcome = port_poll(&p))
            ;
    }
    may_write = true;
}

/* The calls that place a request, and which of them one was placed by. */
enum { IDENTIFY, FLUSH, READ, SET_HOST_IDENTIFIER, REGISTER, ACQUIRE, RELEASE, REPORT, CONFIGURE_EVENTS,
       AWAIT_EVENT, LOG, ABORT, CALLS };
static uint32_t placed_by;

/* One of the calls on reservations, events and log pages, with arguments that are often right, or an Abort of a ticket
 * that was given lately, or will be. */
static struct nvmehost_placed place_other(uint64_t *state, uint32_t call)
{
    static const uint8_t identifier[16] = { 1 };
    uint64_t key = next_random(state) % 2;
    uint32_t nsid = next_random(state) % 16 != 0, dwords = next_random(state) % (next_random(state) % 8 ? 64 : 33000);
    uint8_t action = (uint8_t)(next_random(state) % 9), rtype = (uint8_t)(next_random(state) % 8);
    switch (call) {
    case SET_HOST_IDENTIFIER:
        return nvmehost_set_host_identifier(&p.host, identifier);
    case REGISTER:
        return nvmehost_register(&p.host, nsid, action, key, rtype % 5, key, key);
    case ACQUIRE:
        return nvmehost_acquire(&p.host, nsid, action, rtype, key, key);
    case RELEASE:
        return nvmehost_release(&p.host, nsid, action, rtype, key);
    case REPORT:
        return nvmehost_report(&p.host, nsid, dwords);
    case CONFIGURE_EVENTS:
        return nvmehost_configure_events(&p.host, dwords);
    case AWAIT_EVENT:
        return nvmehost_await_event(&p.host);
    case LOG:
        return nvmehost_log(&p.host, nsid, (uint8_t)(rtype * 32), key, dwords);
    default:
        return nvmehost_abort(&p.host, given + 2 - next_random(state) % 24);
    }
}

static struct nvmehost_placed place_one(uint64_t *state, uint32_t call)
{
    switch (call) {
    case IDENTIFY:
        return nvmehost_identify(&p.host, 1, 0);
    case FLUSH:
        return nvmehost_flush(&p.host, 1);
    case READ:
        return nvmehost_read(&p.host, 1, next_random(state) % 1024, 1 + next_random(state) % 32);
    default:
        return place_other(state, call);
    }
}

/* Places up to four requests, half of them Reads. The device may hold Reads back, and have an event. */
static void place_some(uint64_t *state)
{
    for (uint32_t i = next_random(state) % 5; i > 0 && given < most; i--) {
        uint32_t call = next_random(state) % (2 * CALLS);
        call = call < CALLS ? call : READ;
        struct nvmehost_placed placed = place_one(state, call);
        placed_by |= (uint32_t)(placed.code == NVMEHOST_OK) << call;
        note(placed);
    }
    if (next_random(state) % 64 == 0)
        device_raise(&device, DEVICE_PREEMPTED);
    device.is_holding = next_random(state) % 8 == 0, device.held_opcode = 2;
    if (next_random(state) % 16 == 0)
        device_release(&device);
    if (next_random(state) % 4)
        port_ring(&p);
    if (next_random(state) % 2)
        device_turn(&device);
}

static void run(uint64_t *state)
{
    struct nvmehost_outcome outcome;
    start_again();
    while (given < most) {
        place_some(state);
        for (outcome = port_poll(&p); count(&outcome); outcome = port_poll(&p))
            ;
        if (outcome.code != NVMEHOST_NOTHING || next_random(state) % 512 == 0) {
            unknown += outcome.code == NVMEHOST_UNKNOWN_COMMAND;
            start_again();
        }
    }
    may_write = false;
    since_reset = given + 1;
    port_reset(&p);
    for (outcome = port_poll(&p); count(&outcome); outcome = port_poll(&p))
        ;
}

int main(int words, char **word)
{
    uint64_t state = words > 2 ? strtoull(word[2], NULL, 10) : 1, seed = state + 1;
    pthread_t thread;
    most = words > 1 ? strtoull(word[1], NULL, 10) : 1000000;
    handed = calloc(most + 64, 1);
    p.memory = aligned_alloc(4096, NVMEHOST_WINDOW), p.registers = aligned_alloc(4096, DEVICE_REGISTERS);
    memset((void *)p.memory, 0, NVMEHOST_WINDOW), memset((void *)p.registers, 0, DEVICE_REGISTERS);
    p.registers_len = DEVICE_REGISTERS, p.buffer = malloc(NVMEHOST_BUFFER), p.copy = malloc(NVMEHOST_BUFFER);
    p.turn = device_turn, p.turned = &device;
    device_reset(&device, p.memory, p.registers);
    device_turn(&device);
    if (!handed || nvmehost_open(&p.host, 1) != NVMEHOST_OK || pthread_create(&thread, NULL, write_anything, &seed))
        return 2;
    run(&state);
    is_over = true;
    pthread_join(thread, NULL);
    nvmehost_close(&p.host);
    printf("%llu tickets, %llu done, %llu aborted; delivered twice %llu, never given %llu, from before a reset %llu; "
           "%llu writes of the device, %llu unknown completions, %llu resets\n",
           (unsigned long long)given, (unsigned long long)done, (unsigned long long)aborted, (unsigned long long)twice,
           (unsigned long long)strangers, (unsigned long long)stale, (unsigned long long)written,
           (unsigned long long)unknown, (unsigned long long)resets);
    bool is_idle = placed_by != (1u << CALLS) - 1;
    if (is_idle)
        printf("some calls placed nothing: %x\n", placed_by);
    return is_idle || twice || strangers || stale || nameless || done + aborted != given || unknown == 0;
}
