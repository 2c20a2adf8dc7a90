/* nvmesim: an NVMe subsystem that several hosts share, as a library.
 *
 * A program opens a subsystem (controllers, namespaces, blocks), stores commands in the memory of its hosts, writes
 * doorbells, and makes the controllers fetch and execute. Each event is a call; docs/LIBRARY.md begins with an example,
 * and says what is proved of a call, and what is not.
 *
 * Callers must keep these rules, which nothing checks:
 *  - A struct nvmesim begins as NVMESIM_NONE. Only these calls write it from then on, and it is not copied while it is
 *    open.
 *  - One call at a time on one struct nvmesim. It may move between threads if a lock, or a thread's start or end,
 *    orders the calls. Two structs share nothing.
 *  - No call from a signal handler, nor in the forked child of a process with threads.
 *  - No pointer is NULL, even with a count of 0. Each is aligned, and valid for as many values as the count, or the
 *    call, says. What a call writes through a pointer overlaps none of its other arguments. A bool is false or true.
 *  - Borrowed bytes (nvmesim_open_lent) are left alone until nvmesim_close, or until the opening is refused; those of a
 *    room (nvmesim_execute_over, nvmesim_complete_over) until the call returns.
 *  - malloc, realloc and free work as specified.
 *
 * All other misuse has an answer: a struct that is not open, an address outside the memory, any command.
 */
#ifndef NVMESIM_H
#define NVMESIM_H

#include <stdbool.h>
#include <stddef.h>
#include <stdint.h>

#ifdef __cplusplus
extern "C" {
#endif

/* The version of this interface, which nvmesim_open compares with the library's. */
#define NVMESIM_VERSION 3

/* A subsystem that is open, or none. */
typedef struct nvmesim {
    void *subsystem;
    bool is_open;
} nvmesim;

#define NVMESIM_NONE { NULL, false }

/* Answers: results up to 9, and from 16 on reasons why nothing was done. */
enum {
    NVMESIM_OK = 0,             /* done, without a result */
    NVMESIM_STORED = 1,         /* the bytes are stored */
    NVMESIM_WROTE = 2,          /* the register is written */
    NVMESIM_VALUE = 3,          /* the value of the register */
    NVMESIM_TOOK = 4,           /* a command was fetched */
    NVMESIM_IDLE = 5,           /* there was no command to fetch */
    NVMESIM_POSTED = 6,         /* the command was executed, and its completion posted */
    NVMESIM_NO_SUCH = 7,        /* there is no such command */
    NVMESIM_CQ_FULL = 8,        /* the completion queue is full; the command waits */
    NVMESIM_CYCLED = 9,         /* power was lost, and came back */

    NVMESIM_CLOSED = 16,        /* no subsystem is open */
    NVMESIM_NO_CONTROLLER = 17, /* there is no such controller */
    NVMESIM_OUTSIDE = 18,       /* some bytes are outside the memory, or some blocks outside the namespace */
    NVMESIM_NOT_WHOLE = 19,     /* the bytes are not a whole number of blocks */
    NVMESIM_MEDIUM_FAULT = 20,  /* the medium failed */
    NVMESIM_BAD_VERSION = 21,   /* the caller's header is of another version */
    NVMESIM_ALREADY_OPEN = 22,  /* a subsystem is open already */
    NVMESIM_BAD_ID = 23,        /* an identifier of the configuration is wrong */
    NVMESIM_BAD_SIZE = 24,      /* a namespace has no blocks, or more than the limit */
    NVMESIM_TOO_MANY = 25,      /* more than 16 controllers, 8 namespaces or 128 attachments */
    NVMESIM_DOES_NOT_FIT = 26,  /* the namespaces have more blocks together than the medium */
    NVMESIM_NO_MEMORY = 27,     /* memory was refused */
    NVMESIM_NO_QUEUE = 28,      /* the controller has no such queue */
    NVMESIM_NOT_READY = 29,     /* the controller does not run: its CSTS (1Ch) is not 1 */
    NVMESIM_BUSY = 30,          /* the queue is not idle, or the controller has 64 commands */
    NVMESIM_NO_NAMESPACE = 31,  /* there is no such namespace */
    NVMESIM_NO_REGISTRANT = 32, /* there is no such registrant */
    NVMESIM_NO_ROOM = 33,       /* the buffer is too short for the text, or the array for the values */
    NVMESIM_NO_LINE = 34,       /* there is no such line, or it does not begin with `?` */
    NVMESIM_BAD_LINE = 35,      /* a line is not a line of a script, or is not allowed at its place */
    NVMESIM_HAS_EVENT = 36,     /* a line of the text is an event, which a configuration can't have */
    NVMESIM_EMPTY = 37,         /* the configuration has no controller */
    NVMESIM_TOO_LONG = 38,      /* the text has more than 4,194,304 bytes */
    NVMESIM_IN_MEMORY = 39,     /* the blocks are in memory, so none are brought; nvmetcp.h has others */
    NVMESIM_OVERLAPS = 51       /* the data and the slot of the entry overlap */
};

/* The result of an event. Fields that do not belong to the answer are 0. */
typedef struct nvmesim_answer {
    uint32_t value; /* the register's value, or double word 0 of the completion queue entry */
    uint32_t what;  /* one of the numbers above */
    uint8_t sct;    /* NVMESIM_POSTED: the Status Code Type */
    uint8_t sc;     /* and the Status Code */
    uint8_t rule;   /* the number of the rule that denied the command, or 0 if it was allowed */
} nvmesim_answer;

/* A controller. The k-th of a configuration, from 1, has the identifier k; the host identifier is not 0. */
typedef struct nvmesim_controller {
    uint64_t host_low;  /* the host identifier, its lower 64 bits */
    uint64_t host_high; /* and its higher ones */
    uint16_t cntlid;
    bool raw;           /* whether its line says `raw`; opening ignores it: each host is raw here */
} nvmesim_controller;

/* A namespace. */
typedef struct nvmesim_namespace {
    uint64_t blocks; /* of 512 bytes each, at least 1 */
    uint32_t nsid;   /* 1 to 8 */
    bool shared;     /* whether more than one controller may be attached at a time */
} nvmesim_namespace;

/* A controller that is attached to a namespace. */
typedef struct nvmesim_attached {
    uint32_t nsid;
    uint16_t cntlid;
} nvmesim_attached;

/* Borrowed bytes. */
typedef struct nvmesim_bytes {
    uint8_t *at;
    size_t count;
} nvmesim_bytes;

/* A disk that only the program accesses. */
typedef struct nvmesim_disk {
    uint64_t blocks; /* of 512 bytes each */
} nvmesim_disk;

/* The result of nvmesim_execute_over. */
typedef struct nvmesim_executed_over {
    uint64_t at_hand;      /* the number of blocks at the front of the room that the disk has, or has to get */
    nvmesim_answer answer; /* the result of the event */
} nvmesim_executed_over;

/* The result of nvmesim_place. */
typedef struct nvmesim_placed {
    uint64_t entry_at; /* the address of the entry */
    size_t index;      /* the place of the command among those that are fetched and not executed */
    uint32_t tail;     /* the tail that was written to the doorbell */
    uint32_t what;     /* NVMESIM_TOOK, or why nothing has happened, and the other fields are 0 */
} nvmesim_placed;

/* The result of nvmesim_complete. */
typedef struct nvmesim_completed {
    nvmesim_answer answer; /* the result of the execution; unless it is NVMESIM_POSTED, the other fields are 0 */
    uint32_t head;         /* the head that was written to the doorbell of the completion queue */
    uint16_t cqid;         /* the completion queue */
} nvmesim_completed;

/* The result of nvmesim_complete_over. */
typedef struct nvmesim_completed_over {
    uint64_t at_hand;            /* as of nvmesim_executed_over */
    nvmesim_completed completed; /* the result of the events */
} nvmesim_completed_over;

/* A queue, as its controller has it. Fields that do not belong to the answer are 0, here and below. */
typedef struct nvmesim_queue {
    uint64_t base; /* its address in the memory of the host */
    uint32_t what; /* NVMESIM_OK, or why there is none */
    uint16_t size; /* the number of entries */
    uint16_t head; /* the slot of the next command to fetch, or of the first completion that is not consumed */
    uint16_t tail; /* the slot after the last command, or that of the next completion */
    uint16_t cqid; /* the completion queue: itself, or that of a submission queue's completions */
    bool phase;    /* of a completion queue, the phase tag of the next completion */
} nvmesim_queue;

/* A command that was fetched and not executed. */
typedef struct nvmesim_command {
    size_t count;      /* the number of such commands, whether this is one or not */
    uint32_t what;     /* NVMESIM_OK, or why there is none */
    uint16_t qid;      /* its submission queue */
    bool marked;       /* whether a Preempt and Abort has marked it: it will be aborted */
    uint8_t entry[64]; /* its submission queue entry */
} nvmesim_command;

/* Which calls of the medium a command needs, of a nvmesim_needed. */
enum {
    NVMESIM_NEEDS_NOTHING = 0, /* none */
    NVMESIM_NEEDS_READ = 1,    /* reads of these blocks: Read, Compare */
    NVMESIM_NEEDS_WRITE = 2,   /* writes of these blocks: Write */
    NVMESIM_NEEDS_ZERO = 3,    /* writes of zeros to these blocks: Write Zeroes */
    NVMESIM_NEEDS_FLUSH = 4    /* a flush: Flush */
};

/* What a fetched command needs of the medium. */
typedef struct nvmesim_needed {
    uint64_t first;  /* the first block, counted from the first of the medium */
    uint32_t blocks; /* the number of blocks */
    uint32_t what;   /* NVMESIM_OK, or why there is no such command */
    uint32_t kind;   /* one of NVMESIM_NEEDS_NOTHING .. */
} nvmesim_needed;

/* The reservation of a namespace. */
typedef struct nvmesim_hold {
    uint64_t host_low;   /* the one host that holds it, its lower 64 bits: 0 if none does, */
    uint64_t host_high;  /* and under types 5 and 6, since every registrant holds it */
    size_t registrants;  /* the number of registered hosts */
    uint32_t what;       /* NVMESIM_OK, or why there is none */
    uint32_t generation; /* the generation counter, PRgeneration */
    uint32_t protection; /* the write protection of the namespace: 0 none, 1 protected, 2 that until a power cycle */
    uint8_t rtype;       /* the reservation type, 1 to 6, or 0 if none holds it */
    bool ptpl;           /* whether all this persists through power loss */
} nvmesim_hold;

/* A host that is registered with a namespace. */
typedef struct nvmesim_registered {
    uint64_t host_low;
    uint64_t host_high;
    uint64_t key;  /* its reservation key */
    uint32_t what; /* NVMESIM_OK, or why there is none */
} nvmesim_registered;

/* How the reservation of a namespace concerns the host of a controller. */
typedef struct nvmesim_host_view {
    uint32_t what;      /* NVMESIM_OK, or why there is none */
    uint8_t rtype;      /* the reservation type, 1 to 6, or 0 if none holds it */
    bool is_registrant; /* whether the host is registered */
} nvmesim_host_view;

/* The action of a reservation command, of a nvmesim_change. */
enum {
    NVMESIM_ACTION_REGISTER = 0, /* each action of Reservation Register */
    NVMESIM_ACTION_ACQUIRE = 1,  /* Reservation Acquire: Acquire */
    NVMESIM_ACTION_PREEMPT = 2,  /* Preempt, and Preempt and Abort */
    NVMESIM_ACTION_RELEASE = 3,  /* Reservation Release: Release */
    NVMESIM_ACTION_CLEAR = 4     /* Clear */
};

/* A reservation command that has succeeded. */
typedef struct nvmesim_change {
    uint32_t nsid;
    uint32_t action; /* one of NVMESIM_ACTION_REGISTER .. */
    uint16_t issuer; /* the controller that has executed it */
} nvmesim_change;

/* A reservation notification. */
typedef struct nvmesim_notice {
    uint64_t count; /* the Log Page Count */
    uint32_t nsid;
    uint8_t kind;   /* 1 Registration Preempted, 2 Reservation Released, 3 Reservation Preempted */
} nvmesim_notice;

/* The reservation notifications of a controller: their masks, and those that its host has not read. Only the calls
 * below write it. Zeros are a controller after a reset, and what it begins with. */
typedef struct nvmesim_notices {
    uint64_t count;
    nvmesim_notice places[64];
    uint32_t masks[8];
    uint32_t kept;
} nvmesim_notices;

/* The version of the library. */
uint32_t nvmesim_version(void);

/* Limits of a namespace's blocks, for the calls below: that of scripts, and none. */
#define NVMESIM_SCRIPT_BLOCKS UINT64_C(65536)
#define NVMESIM_ANY_SIZE UINT64_MAX

/* Opens a subsystem over a copy of the whole blocks of these bytes. The namespaces occupy them one after the other, in
 * the order of their array, and have at most max_blocks blocks each. NVMESIM_OK; or BAD_VERSION, ALREADY_OPEN, the
 * first fault of the configuration, or NO_MEMORY, and then nothing has changed. */
uint32_t nvmesim_open(nvmesim *sim, uint32_t version, uint64_t max_blocks, const nvmesim_controller *controllers,
                      size_t controller_count, const nvmesim_namespace *namespaces, size_t namespace_count,
                      const nvmesim_attached *attached, size_t attached_count, const uint8_t *bytes,
                      size_t byte_count);

/* Opens a subsystem over the bytes themselves, without a copy: they are borrowed until nvmesim_close, and have what a
 * command writes when its nvmesim_execute returns. Unless this returns NVMESIM_OK, they are unchanged, and yours again.
 * A Flush calls nothing, since memory has nothing to flush: if the bytes are a file's (mmap), sync it when a
 * Flush was executed (opcode 00h on an I/O queue), before you return the completion. */
uint32_t nvmesim_open_lent(nvmesim *sim, uint32_t version, uint64_t max_blocks, const nvmesim_controller *controllers,
                           size_t controller_count, const nvmesim_namespace *namespaces, size_t namespace_count,
                           const nvmesim_attached *attached, size_t attached_count, nvmesim_bytes bytes);

/* Opens a subsystem over a disk that only the program accesses: nvmesim_execute_over brings its blocks. Without them
 * none is at hand: each read, write and flush of the disk fails in nvmesim_execute, nvmesim_submit, nvmesim_read_blocks
 * and nvmesim_look. NVMESIM_OK; or the refusals of nvmesim_open, and then nothing has changed. */
uint32_t nvmesim_open_brought(nvmesim *sim, uint32_t version, uint64_t max_blocks,
                              const nvmesim_controller *controllers, size_t controller_count,
                              const nvmesim_namespace *namespaces, size_t namespace_count,
                              const nvmesim_attached *attached, size_t attached_count, nvmesim_disk disk);

/* Closes it, if it is open, and frees its memory. Borrowed bytes are yours again, as the commands left them. */
void nvmesim_close(nvmesim *sim);

/* The host of a controller stores bytes in its memory, which has 4 MiB: STORED, or OUTSIDE, NO_CONTROLLER, CLOSED. */
nvmesim_answer nvmesim_store(nvmesim *sim, uint16_t cntlid, uint64_t address, const uint8_t *bytes, size_t count);

/* The host of a controller writes a register, such as CC (14h) or a doorbell (1000h on): WROTE, or NO_CONTROLLER,
 * CLOSED.
 * A write at an offset without a register changes nothing. */
nvmesim_answer nvmesim_write32(nvmesim *sim, uint16_t cntlid, uint64_t offset, uint32_t value);

/* The host reads a register: VALUE, with the value, which is 0 if there is no register; or NO_CONTROLLER, CLOSED. */
nvmesim_answer nvmesim_read32(nvmesim *sim, uint16_t cntlid, uint64_t offset);

/* A controller fetches the next command of a submission queue: TOOK, or IDLE; or NO_CONTROLLER, CLOSED. */
nvmesim_answer nvmesim_fetch(nvmesim *sim, uint16_t cntlid, uint16_t qid);

/* A controller executes the i-th, from 0, of the commands that it has fetched and not executed: POSTED, with the
 * status; NO_SUCH, CQ_FULL; or NO_CONTROLLER, CLOSED. */
nvmesim_answer nvmesim_execute(nvmesim *sim, uint16_t cntlid, size_t i);

/* Executes a command like nvmesim_execute, over blocks of the disk of nvmesim_open_brought. The room is for the blocks
 * of the disk from `first`, 512 bytes each; the first `brought` of them have what the disk has. The command can read
 * these, write these and the next ones that the room is long enough for, and flush if `flushes`; each other call of
 * the disk fails. The room is borrowed for the call, and has then what the command wrote. The answers of
 * nvmesim_execute; or OUTSIDE if the disk does not have all blocks that are brought, IN_MEMORY if there is no disk,
 * and then nothing has changed, the room included. For a disk in use:
 *  1. Bring what nvmesim_needs returns: the blocks for NEEDS_READ, none for the others, in a room for all of them. Bring
 *     a block only as the last command has left it. Fewer can be brought if the disk fails. For NEEDS_FLUSH sync the
 *     disk, and say by `flushes` whether that passed.
 *  2. Call nvmesim_execute_over.
 *  3. If the command writes (NEEDS_WRITE, NEEDS_ZERO), store the first at_hand blocks of the room on the disk, whatever
 *     the answer is.
 * Then the answers and the blocks are those of nvmesim_execute over the blocks of the disk in memory. */
nvmesim_executed_over nvmesim_execute_over(nvmesim *sim, nvmesim_bytes room, uint16_t cntlid, size_t i, uint64_t first,
                                           uint64_t brought, bool flushes);

/* The host of a controller places a command: it stores the entry (64 bytes) at the tail of the submission queue, as the
 * doorbell last had it, and then `count` bytes of data at data_at, and writes the tail doorbell; the controller
 * fetches. These are the events, with no other in between; without data there is no store of data. TOOK, and the
 * controller has fetched this very command, as the last of its list. Or NO_CONTROLLER, CLOSED; NOT_READY, NO_QUEUE;
 * BUSY if a command waits at the queue, a completion at its completion queue, or the controller has 64 commands;
 * OUTSIDE if some of the data are outside the memory; OVERLAPS if some are in the slot of the entry. Then nothing has
 * happened. */
nvmesim_placed nvmesim_place(nvmesim *sim, uint16_t cntlid, uint16_t qid, const uint8_t *entry, uint64_t data_at,
                             const uint8_t *data, size_t count);

/* Completes the i-th, from 0, of the commands that a controller has fetched and not executed: it is executed, and if a
 * completion was posted, its host loads the completion (16 bytes) and writes the head doorbell after it. These are the
 * events, with no other in between. POSTED, with the status, and the completion is that of this very command; or
 * NO_SUCH, CQ_FULL, NO_CONTROLLER, CLOSED, and the completion is not written. The doorbell shows all completions before
 * this one as consumed too. */
nvmesim_completed nvmesim_complete(nvmesim *sim, uint16_t cntlid, size_t i, uint8_t *completion);

/* The same over blocks of a disk, which are brought as for nvmesim_execute_over: its answers too. */
nvmesim_completed_over nvmesim_complete_over(nvmesim *sim, nvmesim_bytes room, uint16_t cntlid, size_t i,
                                             uint64_t first, uint64_t brought, bool flushes, uint8_t *completion);

/* One command from its entry (64 bytes) to its completion queue entry (16 bytes), if the order of events does not
 * matter: nvmesim_place without data, and nvmesim_complete. POSTED, with the status, and the completion is that of this
 * very command; or NO_CONTROLLER, CLOSED, NOT_READY, NO_QUEUE, BUSY as there: then nothing has happened, and the completion is not
 * written. */
nvmesim_answer nvmesim_submit(nvmesim *sim, uint16_t cntlid, uint16_t qid, const uint8_t *entry, uint8_t *completion);

/* Power is lost in all of the subsystem, and comes back: CYCLED, or CLOSED. */
nvmesim_answer nvmesim_power_cycle(nvmesim *sim);

/* Loads bytes of the memory of a controller's host: OK; or OUTSIDE, NO_CONTROLLER, CLOSED, and nothing is written. */
uint32_t nvmesim_load(nvmesim *sim, uint16_t cntlid, uint64_t address, uint8_t *bytes, size_t count);

/* Reads blocks of a namespace as the medium has them. No host reads here, so no reservation applies. OK; or OUTSIDE,
 * NOT_WHOLE, CLOSED, and nothing is written; or MEDIUM_FAULT. */
uint32_t nvmesim_read_blocks(nvmesim *sim, uint32_t nsid, uint64_t slba, uint8_t *bytes, size_t count);

/* The calls below are queries of the subsystem, and do not change it. */

/* A submission and a completion queue of a controller, 0 to 4: OK, NO_QUEUE, NO_CONTROLLER, CLOSED. */
nvmesim_queue nvmesim_submission_queue(nvmesim *sim, uint16_t cntlid, uint16_t qid);
nvmesim_queue nvmesim_completion_queue(nvmesim *sim, uint16_t cntlid, uint16_t qid);

/* The i-th, from 0, of the commands that a controller has fetched and not executed: OK, NO_SUCH, NO_CONTROLLER,
 * CLOSED. */
nvmesim_command nvmesim_fetched(nvmesim *sim, uint16_t cntlid, size_t i);

/* What the i-th, from 0, of these commands needs of the medium, if it is executed now: OK, NO_SUCH, NO_CONTROLLER,
 * CLOSED. Its execution makes no other calls. Other events may change a need: a reservation command of another host, for
 * example, so that a rule then denies the command. What was needed just before an execution, and its answer, determine
 * its calls:
 *  - Status 0:00: all that was needed, each block once.
 *  - 2:80 (Write Fault): the write of a block failed, and each block before it is written; or the flush failed.
 *  - 2:81 (Unrecovered Read Error): the read of a block failed. 2:85 (Compare Failure): a block differs. Each block
 *    before it was read.
 *  - Another status, a rule, or no completion: nothing. */
nvmesim_needed nvmesim_needs(nvmesim *sim, uint16_t cntlid, size_t i);

/* Whether a controller is attached to a namespace: VALUE, with 1 or 0, or CLOSED. */
nvmesim_answer nvmesim_is_attached(nvmesim *sim, uint16_t cntlid, uint32_t nsid);

/* The reservation of a namespace: OK, NO_NAMESPACE, CLOSED. */
nvmesim_hold nvmesim_reservation(nvmesim *sim, uint32_t nsid);

/* The i-th, from 0, of the hosts that are registered with it, by rising identifier: OK, NO_REGISTRANT, NO_NAMESPACE,
 * CLOSED. */
nvmesim_registered nvmesim_registrant(nvmesim *sim, uint32_t nsid, size_t i);

/* How the reservation of a namespace concerns the host of a controller: OK, NO_CONTROLLER, NO_NAMESPACE, CLOSED. */
nvmesim_host_view nvmesim_view(nvmesim *sim, uint32_t nsid, uint16_t cntlid);

/* Adds to the notices of a controller what it gets of a reservation command, after the command, if it gets anything: if
 * its host is notified of the change from `before`, its view before the command, to its view now, and the
 * namespace is attached to the controller and the type is not masked. If 64 notices are kept, the new one is lost, and
 * the last of them gets its Log Page Count. OK, with a notice or without; or OUTSIDE if there is no such action,
 * NO_CONTROLLER, NO_NAMESPACE, CLOSED, and nothing has changed. */
uint32_t nvmesim_notify(nvmesim *sim, nvmesim_notices *notices, uint16_t cntlid, const nvmesim_change *change,
                        const nvmesim_host_view *before);

/* The calls on notices below need no subsystem. */

/* Reservation Notification Mask of a namespace, 1 to 8: its value, 0 if there is no such namespace. It is set by double
 * word 11: OK, or NO_NAMESPACE. */
uint32_t nvmesim_notice_mask(const nvmesim_notices *notices, uint32_t nsid);
uint32_t nvmesim_set_notice_mask(nvmesim_notices *notices, uint32_t nsid, uint32_t dw11);

/* The number of notices that were not taken, the Reservation Notification log page (64 bytes) of the oldest, or zeros,
 * and the removal of the oldest. */
uint32_t nvmesim_count_notices(const nvmesim_notices *notices);
void nvmesim_notice_page(const nvmesim_notices *notices, uint8_t *page);
void nvmesim_take_notice(nvmesim_notices *notices);

/* The standard's name of a status, as "Reservation Conflict" for 0 and 83h, or "Unlisted" for one that no command
 * answers: as many of its bytes as fit into the buffer, then zeros. The result is the length of the name, at most
 * 47. */
size_t nvmesim_status_name(uint8_t sct, uint8_t sc, uint8_t *bytes, size_t count);

#ifdef __cplusplus
}
#endif

#include "nvmesim_texts.h"

#endif
