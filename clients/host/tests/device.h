/* A controller in memory, for tests of the port: it executes Identify, Create I/O Completion and Submission Queue, Set
 * Features of the Host Identifier and of the Asynchronous Event Configuration, Get Log Page, Abort and Asynchronous Event Request, and on one namespace Read, Write,
 * Compare, Write Zeroes, Flush and the reservation commands of one host, as the standard asks. */
#ifndef NVMEHOST_TEST_DEVICE_H
#define NVMEHOST_TEST_DEVICE_H

#include <stdbool.h>
#include <stddef.h>
#include <stdint.h>

enum { DEVICE_BLOCKS = 2048, DEVICE_REGISTERS = 0x2000, DEVICE_EVENTS = 4, DEVICE_HELD = 24 };
/* The log page of reservation notifications, and the event that it has news: both in double word 0 of the answer. */
enum { DEVICE_NOTIFICATIONS = 0x80, DEVICE_PREEMPTED = 0x800006 };

/* Registrations and reservations stay over a reset. */
struct device_reservation {
    uint64_t key;
    uint32_t generation;
    bool is_registered;
    uint8_t type, ptpls, host[16];
};

/* A command that is not executed yet. */
struct device_held {
    uint16_t cid;
    uint8_t entry[64];
};

struct device {
    volatile uint8_t *memory, *registers;
    uint8_t blocks[DEVICE_BLOCKS * 512];
    uint32_t head[2], tail[2], phase[2];
    bool is_created[2], has_host;
    uint8_t host[16];
    struct device_reservation reservation;
    /* The requests that await an event, the event that is not reported yet, and the log page of the last reported one
     * until it is read. */
    uint16_t event_cids[DEVICE_EVENTS];
    uint32_t event_count, event, reported, event_configuration;
    uint64_t notifications;
    uint32_t given; /* the bytes of the last data for the host */
    struct device_held held[DEVICE_HELD];
    uint32_t held_count;
    /* What differs from a good controller. */
    uint64_t cap;
    uint32_t ready_after;    /* turns until RDY follows EN */
    bool is_stuck, is_fatal, is_gone, keeps_answers, is_silent;
    bool refuses_host; /* the Host Identifier */
    bool is_configured; /* it reports only the events of its configuration, which is 0 after a reset */
    /* I/O commands with held_opcode are held back; an Abort aborts none; an Abort ends the holding. */
    bool is_holding, aborts_nothing, aborting_releases;
    uint8_t lbads, mdts, sqes, dps, held_opcode;
    uint16_t metadata, oncs;
    uint64_t nsze;
    uint32_t waited;
    uint64_t doorbell_writes;
};

void device_reset(struct device *d, volatile uint8_t *memory, volatile uint8_t *registers);
/* One turn: registers, and all commands of both queues. */
void device_turn(void *device);
/* Executes what is held back, and holds nothing back any more. */
void device_release(struct device *d);
/* There is an event, with this double word 0 of the answer. */
void device_raise(struct device *d, uint32_t event);

#endif
