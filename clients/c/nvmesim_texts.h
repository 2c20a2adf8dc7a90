/* nvmesim_texts: the texts of libnvmesim: configurations, scripts, transcripts and sessions, as the programs read and
 * write them. Texts are not NUL-terminated, and each line that is written to a buffer ends with a line feed.
 *
 * nvmesim.h includes this header, and its rules hold here.
 */
#ifndef NVMESIM_TEXTS_H
#define NVMESIM_TEXTS_H

#include "nvmesim.h"

#ifdef __cplusplus
extern "C" {
#endif

/* Which event it is, of a nvmesim_event. */
enum {
    NVMESIM_EVENT_STORE = 1,      /* as nvmesim_store does */
    NVMESIM_EVENT_WRITE32 = 2,    /* nvmesim_write32 */
    NVMESIM_EVENT_READ32 = 3,     /* nvmesim_read32, of which there is no line */
    NVMESIM_EVENT_FETCH = 4,      /* nvmesim_fetch */
    NVMESIM_EVENT_EXECUTE = 5,    /* nvmesim_execute */
    NVMESIM_EVENT_POWER_CYCLE = 6 /* nvmesim_power_cycle */
};

/* An event of a script. Fields that its kind does not have are ignored. */
typedef struct nvmesim_event {
    uint64_t at;     /* the address of a store, the offset of a register, or the place of the command to execute */
    uint32_t kind;   /* one of NVMESIM_EVENT_STORE .. */
    uint32_t value;  /* what is written to a register */
    uint16_t cntlid; /* the controller */
    uint16_t qid;    /* the queue that is fetched from */
} nvmesim_event;

/* The result of writing a text to a buffer. If it is not NVMESIM_OK, the buffer is unchanged. */
typedef struct nvmesim_written {
    size_t length; /* the length of the text at the front of the buffer; 0 if there is none */
    uint32_t what; /* NVMESIM_OK, or why it is not */
} nvmesim_written;

/* The result of parsing a configuration. */
typedef struct nvmesim_read {
    size_t controllers; /* the number at the front of their array; 0 if it is refused, here and below */
    size_t namespaces;
    size_t attached;
    size_t line;   /* the number of the line at fault, from 1; 0 if none is */
    size_t column; /* the column in that line, in bytes from 1; 0 if there is none */
    size_t length; /* the length of the reason at the front of its buffer; 0 if there is none */
    uint32_t what; /* NVMESIM_OK, or why it is refused */
} nvmesim_read;

/* Parses a configuration, the lines of a script before its `start`, and checks it for a medium of medium_blocks blocks
 * and namespaces of at most max_blocks blocks. `start` may be missing, and only blank lines and comments may follow it.
 * Arrays of 16, 8 and 128 values suffice for each configuration that is accepted, and 512 bytes for most reasons.
 *
 * NVMESIM_OK, and the arrays begin with what nvmesim_open takes. Or, in this order: TOO_LONG; BAD_LINE, of the first
 * line that is no line of a script or is not allowed at its place; TOO_MANY, BAD_ID, BAD_SIZE, DOES_NOT_FIT, of the
 * first line that breaks the rule; HAS_EVENT, of the first event; EMPTY; or NO_ROOM if an array is too short. NO_MEMORY
 * may come instead of each. The arrays are then unchanged, and the reason is written to its buffer if it fits: what the
 * programs print after the name of the file and a colon, such as "3:9: word 2: C, a number below 2^16, not 'a'". */
nvmesim_read nvmesim_read_configuration(const uint8_t *text, size_t text_count, uint64_t max_blocks,
                                        uint64_t medium_blocks, nvmesim_controller *controllers,
                                        size_t controller_count, nvmesim_namespace *namespaces,
                                        size_t namespace_count, nvmesim_attached *attached, size_t attached_count,
                                        uint8_t *reason, size_t reason_count);

/* The lines that describe a configuration, each with its line feed, without `start`: OK, or NO_ROOM, NO_MEMORY.
 * Parsed again, they give the same. No configuration that is accepted has more than 8,192 bytes. */
nvmesim_written nvmesim_configuration_lines(const nvmesim_controller *controllers, size_t controller_count,
                                            const nvmesim_namespace *namespaces, size_t namespace_count,
                                            const nvmesim_attached *attached, size_t attached_count, uint8_t *lines,
                                            size_t line_count);

/* The script line of an event, with its line feed; the bytes are those of a store: OK, or NO_ROOM, or NO_LINE if no
 * line expresses it: READ32, a store of no bytes, a place above 65,535, another kind. A line has at most 64 bytes
 * and two for each byte that is stored. */
nvmesim_written nvmesim_event_line(const nvmesim_event *event, const uint8_t *bytes, size_t count, uint8_t *line,
                                   size_t line_count);

/* The transcript line of an event's result, with its line feed: OK, or NO_ROOM, or NO_LINE if no line expresses the
 * event, or the event never has this answer. A line has at most 64 bytes. */
nvmesim_written nvmesim_answer_line(const nvmesim_event *event, const nvmesim_answer *answer, uint8_t *line,
                                    size_t line_count);

/* Answers a query line without its line feed, such as "?queues 1", as a session of `nvmelive` over the same subsystem
 * does, with a line feed; no host has a driver here. A refusal is an answer too: "! line 3 word 2: there is no such
 * controller" if `number` is 3. OK; or NO_LINE if the line does not begin with `?`, NO_ROOM, NO_MEMORY, CLOSED. Every
 * answer fits into 262,240 bytes. */
nvmesim_written nvmesim_look(nvmesim *sim, uint64_t number, const uint8_t *line, size_t count, uint8_t *answer,
                             size_t answer_count);

#ifdef __cplusplus
}
#endif

#endif
