/* Performs the actions of libnvmehost on the memory and the registers of a device, and copies what the device writes.
 * This file and port.c access the memory that the device writes at any moment; nothing else does. */
#ifndef NVMEHOST_PORT_H
#define NVMEHOST_PORT_H

#include "nvmehost.h"

#include <limits.h>

/* No time limit. */
#define PORT_FOREVER UINT_MAX

struct port {
    struct nvmehost host;
    volatile uint8_t *memory;    /* NVMEHOST_WINDOW bytes, which the device reaches from address 0 */
    volatile uint8_t *registers; /* from offset 0 */
    size_t registers_len;        /* in bytes */
    uint8_t *buffer;             /* NVMEHOST_BUFFER bytes: the data of the last answer */
    uint8_t *copy;               /* NVMEHOST_BUFFER bytes, for the port */
    void (*turn)(void *);        /* called while the port waits, or NULL */
    void *turned;
};

/* Judges the capabilities, resets the controller and brings it up: NVMEHOST_OK, or the fault. */
uint32_t port_start(struct port *p, struct nvmehost_outcome *outcome);
/* Resets the controller, and waits until it is disabled: NVMEHOST_OK, or the fault, after which the device may still
 * write to its memory. */
uint32_t port_reset(struct port *p);
/* Shuts the controller down, and waits until it is. */
uint32_t port_shutdown(struct port *p);
void port_perform(struct port *p);
void port_ring(struct port *p);
/* Delivers the next answer, if there is one: looks at both queues once. */
struct nvmehost_outcome port_poll(struct port *p);
/* Whether the controller is still up: NVMEHOST_OK, or the fault. */
uint32_t port_health(struct port *p);
/* Sends a placed request, and waits for its answer; others are delivered to nobody. If the time is over, the code is
 * NVMEHOST_NOTHING, and the request still waits. If the controller is not up any more, the request expires, and the code
 * is the fault. */
struct nvmehost_outcome port_wait(struct port *p, struct nvmehost_placed placed, unsigned timeout_ms);
/* The same, but if the time is over, the request expires too: NVMEHOST_EXPIRED. */
struct nvmehost_outcome port_answer(struct port *p, struct nvmehost_placed placed, unsigned timeout_ms);
uint32_t port_read32(struct port *p, uint64_t offset);
/* The name of a result, for messages. */
const char *port_name(uint32_t what);

#endif
