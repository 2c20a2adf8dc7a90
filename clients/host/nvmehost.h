/* libnvmehost: the proved driver of an NVMe host, for controllers of any maker.
 *
 * The library accesses no device. A call records its actions: bytes to store in the memory that the controller reaches,
 * and registers to write. The program takes them with nvmehost_actions and performs them in order, before the next
 * call. What
 * the controller writes, the program copies into the driver's own window before a poll. port.h does both.
 *
 * Addresses are those of the window: 4 MiB from address 0, which the program maps for the controller and for nothing
 * else. All functions may be called with a closed handle, and then return NVMEHOST_CLOSED. A handle belongs to one
 * thread at a time. */
#ifndef NVMEHOST_H
#define NVMEHOST_H

#include <stdbool.h>
#include <stddef.h>
#include <stdint.h>

#ifdef __cplusplus
extern "C" {
#endif

/* Results. */
enum {
    NVMEHOST_OK = 0,
    NVMEHOST_DONE = 1,                  /* the controller answered a request, with this status */
    NVMEHOST_ABORTED = 2,               /* a reset aborted a request, which may have been executed */
    NVMEHOST_NOTHING = 3,               /* there is no new answer */
    NVMEHOST_NEEDS_STATUS = 4,          /* bring-up: perform, wait with nvmehost_status, call again */
    NVMEHOST_NEEDS_COMPLETION = 5,      /* bring-up: perform, nvmehost_report_completion, call again */
    NVMEHOST_WAITS = 6,                 /* the status is not the awaited one yet */

    NVMEHOST_CLOSED = 16,
    NVMEHOST_ALREADY_OPEN = 17,
    NVMEHOST_NO_MEMORY = 18,
    NVMEHOST_ACTIONS_PENDING = 19,      /* actions of an earlier call were not taken */
    NVMEHOST_NOT_JUDGED = 20,           /* nvmehost_capabilities has to succeed first */
    NVMEHOST_NOT_DISABLED = 21,         /* the controller was not seen disabled: nvmehost_reset, nvmehost_status */
    NVMEHOST_ALREADY_UP = 22,
    NVMEHOST_NOT_READY = 23,
    NVMEHOST_NO_ANSWER = 24,            /* to one of the driver's own commands */
    NVMEHOST_REFUSED = 25,              /* one of the driver's own commands, with this status */
    NVMEHOST_NOT_UP = 26,
    NVMEHOST_BAD_REQUEST = 27,          /* no command can express it */
    NVMEHOST_NO_SLOT = 28,              /* 24 requests wait */
    NVMEHOST_RING_FULL = 29,            /* 7 commands may wait in the queue: poll first */
    NVMEHOST_NO_TICKET = 30,
    NVMEHOST_UNKNOWN_COMMAND = 31,      /* a completion answers no request: the driver has failed until a reset */
    NVMEHOST_OUTSIDE = 32,              /* a buffer is too short, or bytes are outside the window */
    NVMEHOST_NOT_AWAITED = 33,
    NVMEHOST_NOT_WAITING = 34,          /* no request with this ticket waits */

    /* Why the device is not used. */
    NVMEHOST_REMOVED = 48,              /* its registers read as ones */
    NVMEHOST_FATAL = 49,                /* CSTS.CFS */
    NVMEHOST_TIMED_OUT = 50,            /* CAP.TO */
    NVMEHOST_QUEUES_TOO_SHORT = 51,     /* CAP.MQES */
    NVMEHOST_NO_NVM_COMMANDS = 52,      /* CAP.CSS */
    NVMEHOST_PAGE_SIZE = 53,            /* CAP.MPSMIN */
    NVMEHOST_NOT_IO = 54,               /* CNTRLTYPE */
    NVMEHOST_ENTRY_SIZE = 55,           /* SQES, CQES */
    NVMEHOST_NOT_THERE = 56,            /* NSZE is 0 */
    NVMEHOST_BLOCK_SIZE = 57,           /* LBADS is not 9 */
    NVMEHOST_METADATA = 58,             /* MS, DPS */
    /* Why a request is not sent. */
    NVMEHOST_CONTROLLER_NOT_ASKED = 59, /* nvmehost_ask 0 */
    NVMEHOST_NAMESPACE_NOT_ASKED = 60,  /* nvmehost_ask of the namespace */
    NVMEHOST_NOT_SUPPORTED = 61,        /* ONCS */
    NVMEHOST_TOO_LONG = 62,             /* MDTS */
    NVMEHOST_PAST_THE_END = 63,         /* NSZE */
    NVMEHOST_NSID_TOO_HIGH = 64,        /* above NVMEHOST_HIGHEST_NSID */
    NVMEHOST_EXPIRED = 65,              /* the time of a request is over: nvmehost_reset first */
    NVMEHOST_NO_HOST_IDENTIFIER = 66    /* nvmehost_set_host_identifier has to be answered with success first */
};

/* The highest namespace identifier that can be asked. */
enum {
    NVMEHOST_HIGHEST_NSID = 64
};

/* Actions. */
enum {
    NVMEHOST_STORE = 1,                 /* store len bytes at address at: nvmehost_load has them */
    NVMEHOST_WRITE = 2                  /* write value to the register at offset at */
};

/* The most actions of a call, the length of the window, and the shortest buffer of a poll. */
#define NVMEHOST_ACTIONS 32
#define NVMEHOST_WINDOW 4194304
#define NVMEHOST_BUFFER 131072

struct nvmehost {
    void *at;
    bool is_open;
};
#define NVMEHOST_NONE { NULL, false }

struct nvmehost_action {
    uint64_t at, len;
    uint32_t value, kind;
};
/* An answer: its ticket, len bytes of data at the front of the buffer, and the completion's status. */
struct nvmehost_outcome {
    uint64_t ticket, len;
    uint32_t dw0, code;
    uint8_t sct, sc;
};
struct nvmehost_placed {
    uint64_t ticket;
    uint32_t code;
};
/* CAP: the longest time of an enable or a reset, and the distance of two doorbells in bytes; there are four. */
struct nvmehost_limits {
    uint32_t timeout_ms, stride, code;
};
/* The place of the next completion of a queue, and its phase tag, bit 16 of its last double word. */
struct nvmehost_next_completion {
    uint64_t at;
    uint32_t phase, code;
};
/* The data of a completion: len bytes at address at. */
struct nvmehost_completion_data {
    uint64_t at, len;
    uint32_t code;
};
/* A command transfers at most 2 to the power of mdts pages of 4 KiB; mdts 0 is no limit. */
struct nvmehost_controller {
    uint32_t nn, code;
    uint16_t cntlid, oncs;
    uint8_t mdts, vwc;
};
struct nvmehost_namespace {
    uint64_t blocks;
    uint32_t code;
};

/* An event that a controller reports: double word 0 of the answer to nvmehost_await_event. */
struct nvmehost_event {
    uint32_t kind;
    uint8_t type, info, log_page;       /* the fields of the standard: nvmehost_log of log_page clears the event */
};

/* Kinds of events. */
enum {
    NVMEHOST_EVENT_OTHER = 0,           /* type and info say which */
    NVMEHOST_EVENT_ERROR = 1,           /* Error Status */
    NVMEHOST_EVENT_HEALTH = 2,          /* SMART / Health Status */
    NVMEHOST_EVENT_NAMESPACES = 3,      /* Namespace Attribute Changed: ask the namespaces again */
    NVMEHOST_EVENT_FIRMWARE = 4,        /* Firmware Activation Starting */
    NVMEHOST_EVENT_RESERVATION = 5,     /* Reservation Log Page Available: log page 80h */
    NVMEHOST_EVENT_SANITIZE = 6         /* Sanitize Operation Completed */
};

/* A life: open, capabilities, reset, status until it is OK, bring_up, ask 0 and each namespace; then requests. After a
 * fault: reset, status until it is OK, bring_up. If that status never comes, the controller may still write to the
 * window: unmap it, and close. */
uint32_t nvmehost_open(struct nvmehost *host, uint64_t first_ticket);
void nvmehost_close(struct nvmehost *host);
struct nvmehost_limits nvmehost_capabilities(struct nvmehost *host, uint64_t cap);
uint32_t nvmehost_reset(struct nvmehost *host);
uint32_t nvmehost_status(struct nvmehost *host, uint32_t csts, uint64_t elapsed_ms);
struct nvmehost_outcome nvmehost_bring_up(struct nvmehost *host);
uint32_t nvmehost_report_completion(struct nvmehost *host, const uint8_t entry[16]);
uint32_t nvmehost_shutdown(struct nvmehost *host);

/* The program counts the time of its requests. When that of one is over, it reports its ticket. Then no request is sent
 * before a reset: a late completion answers its own request or none. After the reset polls deliver the ticket as
 * NVMEHOST_ABORTED, if it was not answered before. */
uint32_t nvmehost_expire(struct nvmehost *host, uint64_t ticket);

/* The status of a controller that is up: NVMEHOST_OK, NVMEHOST_REMOVED, NVMEHOST_FATAL, or NVMEHOST_NOT_READY if it has
 * reset itself. Otherwise its requests are not answered: nvmehost_expire, nvmehost_reset. */
uint32_t nvmehost_health(uint32_t csts);

/* Requests are placed, and sent by the next ring. The answer has the same ticket, which is never 0 if the first one
 * is not. Buffers are the caller's again after the call. */
struct nvmehost_placed nvmehost_ask(struct nvmehost *host, uint32_t nsid);
struct nvmehost_placed nvmehost_identify(struct nvmehost *host, uint8_t cns, uint32_t nsid);
struct nvmehost_placed nvmehost_read(struct nvmehost *host, uint32_t nsid, uint64_t slba, uint32_t blocks);
struct nvmehost_placed nvmehost_write(struct nvmehost *host, uint32_t nsid, uint64_t slba, const uint8_t *bytes,
                                      size_t len);
struct nvmehost_placed nvmehost_compare(struct nvmehost *host, uint32_t nsid, uint64_t slba, const uint8_t *bytes,
                                        size_t len);
struct nvmehost_placed nvmehost_write_zeroes(struct nvmehost *host, uint32_t nsid, uint64_t slba, uint32_t blocks);
struct nvmehost_placed nvmehost_flush(struct nvmehost *host, uint32_t nsid);

/* Reservations. They need the identifier of this host, which the controller forgets at each reset. A host that was
 * preempted learns of it by an event. Of 0 to 7, action is RREGA, RACQA or RRELA. */
struct nvmehost_placed nvmehost_set_host_identifier(struct nvmehost *host, const uint8_t identifier[16]);
struct nvmehost_placed nvmehost_register(struct nvmehost *host, uint32_t nsid, uint8_t action, bool iekey, uint8_t cptpl,
                                         uint64_t crkey, uint64_t nrkey);
struct nvmehost_placed nvmehost_acquire(struct nvmehost *host, uint32_t nsid, uint8_t action, uint8_t rtype,
                                        uint64_t crkey, uint64_t prkey);
struct nvmehost_placed nvmehost_release(struct nvmehost *host, uint32_t nsid, uint8_t action, uint8_t rtype,
                                        uint64_t crkey);
struct nvmehost_placed nvmehost_report(struct nvmehost *host, uint32_t nsid, uint32_t dwords);

/* nvmehost_configure_events selects the events that the controller reports, by the bits of the feature Asynchronous Event
 * Configuration; after a reset they are its own selection. The answer to nvmehost_await_event comes once the controller
 * has an event to report. nvmehost_log reads dwords double words of a log page, 1 to 32768; the event stays reported if
 * it is retained. */
struct nvmehost_placed nvmehost_configure_events(struct nvmehost *host, uint32_t events);
struct nvmehost_placed nvmehost_await_event(struct nvmehost *host);
struct nvmehost_event nvmehost_event(uint32_t dw0);
struct nvmehost_placed nvmehost_log(struct nvmehost *host, uint32_t nsid, uint8_t lid, bool retain, uint32_t dwords);

/* Asks the controller to abort the request with this ticket. The answer has a ticket of its own, and bit 0 of its double
 * word 0 is 0 if the request was aborted: the request is then answered with status 0:07. */
struct nvmehost_placed nvmehost_abort(struct nvmehost *host, uint64_t ticket);

uint32_t nvmehost_ring(struct nvmehost *host);
struct nvmehost_outcome nvmehost_poll(struct nvmehost *host, uint8_t *buffer, size_t len);

/* What the device answered to the last question. */
struct nvmehost_controller nvmehost_controller(struct nvmehost *host);
struct nvmehost_namespace nvmehost_namespace(struct nvmehost *host, uint32_t nsid);

/* Between the driver and the memory of the device. Queue 0 is the admin queue, queue 1 the I/O queue. */
size_t nvmehost_actions(struct nvmehost *host, struct nvmehost_action *actions, size_t room);
uint32_t nvmehost_load(struct nvmehost *host, uint64_t address, uint8_t *bytes, size_t len);
struct nvmehost_next_completion nvmehost_next_completion(struct nvmehost *host, uint32_t queue);
struct nvmehost_completion_data nvmehost_store_completion(struct nvmehost *host, uint32_t queue,
                                                          const uint8_t entry[16]);
uint32_t nvmehost_store_data(struct nvmehost *host, uint64_t address, const uint8_t *bytes, size_t len);

#ifdef __cplusplus
}
#endif
#endif
