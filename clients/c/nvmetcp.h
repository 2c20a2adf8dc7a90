/* nvmetcp: NVMe/TCP as a part of libnvmesim, for a program that is a controller's end of connections: what the PDUs of
 * a connection are, byte by byte, which connection is a queue of which controller, which commands are refused, which
 * data are whose, and where they are in the memory of a controller's host. The program has the sockets, computes the
 * digests, knows keys and addresses, and executes what the commands say.
 *
 * The rules of nvmesim.h hold here too. Only these calls write a struct nvmesim_connection, nvmesim_session,
 * nvmesim_fabrics or nvmesim_transfers once it is what its comment says; each has one call at a time.
 *
 * For each connection:
 *  1. nvmesim_connection_take, with the bytes that came. Copy the data that it reports.
 *  2. If the stage is NVMESIM_STAGE_WHOLE, compute the digests that the layout has, and call nvmesim_connection_judge.
 *  3. If the PDU is complete, do what it says, or call nvmesim_connection_refuse. Then continue with the bytes that
 *     were not taken. At BAD_PDU send C2HTermReq (nvmesim_pdu_termination), which repeats `kept`, and close the connection.
 * For each command capsule call nvmesim_capsules_take, and act on its outcome:
 *  - NVMESIM_BAD_PDU: call nvmesim_connection_refuse. NVMESIM_CAPSULE_REFUSED: respond with the status.
 *  - NVMESIM_CAPSULE_WAITS: its data come by R2T. Then, and whenever a command is complete, send an R2T for each
 *    nvmesim_transfers_next_request, and for each H2CData call nvmesim_transfers_take or nvmesim_transfers_store. A
 *    complete command is ready if its data are sound; if not, respond with Transient Transport Error.
 *  - Any other command is ready: it is for what nvmesim_capsules_destination returns, by nvmesim_fabrics_live.
 * Once a command is done call nvmesim_responses_respond, and send what that has written. A program that has rules of
 * its own for which commands are refused and where data are calls nvmesim_responses_accept and nvmesim_transfers_begin,
 * and never nvmesim_capsules_take, which does what both do. For Connect:
 *  1. nvmesim_fabrics_admitted. If it is for an I/O queue, and hosts have no keys, create the queues.
 *  2. nvmesim_fabrics_connect, with the status of that.
 *  3. If the session is authenticating, and once the host is authentic: nvmesim_fabrics_admits, create the queues, and
 *     nvmesim_fabrics_authenticate.
 * For a command that the subsystem executes: store its data at nvmesim_buffers_start, and what nvmesim_buffers_place
 * makes of its entry in the queue. Store the bytes of nvmesim_buffers_list before a controller is enabled.
 * If the access state has to outlast the program, keep each command that succeeded and nvmesim_journal_lasts.
 */
#ifndef NVMETCP_H
#define NVMETCP_H

#include "nvmesim.h"

#ifdef __cplusplus
extern "C" {
#endif

/* Answers, besides those of nvmesim.h. */
enum {
    NVMESIM_BAD_PDU = 40,   /* a field of a PDU is wrong, or the PDU breaks another rule of the transport */
    NVMESIM_NO_PDU = 41,    /* the connection has no PDU that the call is about */
    NVMESIM_ENDED = 42,     /* the connection has ended, and takes no command */
    NVMESIM_NO_DATA = 43,   /* a command expects no bytes, and no R2T asks for none */
    NVMESIM_IN_FLIGHT = 44, /* a command with this identifier is in flight */
    NVMESIM_MANY_WAIT = 45, /* 64 commands wait for their R2T */
    NVMESIM_NO_REQUEST = 46 /* no command waits for its R2T, or none of the 8 tags is free */
};

/* What ICReq and ICResp agree on; all 0 before. */
typedef struct nvmesim_pdu_agreed {
    bool header_digests, data_digests;
    uint8_t alignment; /* HPDA, 0 to 31 */
} nvmesim_pdu_agreed;

/* The fields of a host's PDU. Those that it does not have are 0. */
typedef struct nvmesim_pdu_fields {
    uint32_t what;             /* NVMESIM_OK, or NVMESIM_BAD_PDU; `field` is then the offset of the wrong field */
    uint32_t field, offset;    /* FEI of H2CTermReq, DATAO of H2CData */
    uint16_t status, cid, tag; /* the Fatal Error Status, CCCID, TTAG */
    nvmesim_pdu_agreed agreed; /* what ICReq asks for */
} nvmesim_pdu_fields;

/* The layout of a PDU. The digest of its header is right after it, that of its data right after them. */
typedef struct nvmesim_pdu_layout {
    uint32_t what, field;              /* as above, or NVMESIM_OUTSIDE, NVMESIM_NO_PDU */
    uint32_t length;                   /* PLEN; at most 131,331 if the PDU is a host's */
    uint32_t data_offset, data_length; /* without data, the offset is that of the end */
    uint16_t status;                   /* the Fatal Error Status */
    uint8_t kind, header;              /* PDU-Type, HLEN */
    bool is_last;                      /* LAST_PDU */
    bool header_digest, data_digest;   /* whether there is one */
} nvmesim_pdu_layout;

/* How far a connection is with the PDU in hand. */
enum {
    NVMESIM_STAGE_TAKING = 0,   /* it takes the bytes of a PDU */
    NVMESIM_STAGE_WHOLE = 1,    /* the PDU is whole, and its digests are not judged yet */
    NVMESIM_STAGE_COMPLETE = 2, /* the PDU is complete; the next byte begins another */
    NVMESIM_STAGE_ENDED = 3     /* the connection has ended, and takes nothing any more */
};

/* A controller's end of a connection. Zeros are one of which nothing has come. */
typedef struct nvmesim_connection {
    size_t count;                                /* how many bytes of the PDU in hand have come */
    uint32_t length, data_offset, data_length;   /* its layout: use nvmesim_connection_layout */
    uint8_t kind, header;
    uint8_t stage;                               /* NVMESIM_STAGE_TAKING .. */
    bool is_last, header_digest, data_digest;
    bool is_open;                                /* whether ICReq was granted */
    nvmesim_pdu_agreed agreed;                   /* what was agreed on then */
    uint8_t kept[128];                           /* the first bytes of the PDU in hand: 128, or `count` */
} nvmesim_connection;

/* What a connection has taken of the bytes that it was given. */
typedef struct nvmesim_taken {
    size_t count;                /* the number of bytes taken, from the first on; give the others again */
    size_t data_begin, data_end; /* those from here to there are data of the PDU in hand, and come */
    size_t data_offset;          /* after this number of others; 0 if there are none */
    uint32_t what;               /* NVMESIM_OK; or NVMESIM_BAD_PDU, and the connection has ended */
    uint32_t field;              /* the offset of the wrong field, or 0 */
    uint16_t status;             /* the Fatal Error Status, or 0 */
} nvmesim_taken;

/* The outcome of a PDU. */
typedef struct nvmesim_verdict {
    nvmesim_pdu_layout layout; /* OK, and the PDU is complete; BAD_PDU, and the connection has ended; or NO_PDU */
    bool is_sound;             /* whether its data are as the host sent them */
} nvmesim_verdict;

/* Answers of the calls on responses. */
enum {
    NVMESIM_CONFLICT = 47,    /* a command is accepted, and another without a response has its identifier */
    NVMESIM_QUEUE_FULL = 48,  /* as many commands have no response as the queue has entries */
    NVMESIM_QUEUE_ENDED = 49, /* the queue takes no more commands */
    NVMESIM_NO_COMMAND = 50   /* no such command is without a response, or the queue has ended */
};

/* How far a queue is. */
enum {
    NVMESIM_QUEUE_STAGE_OPEN = 0,   /* it takes commands */
    NVMESIM_QUEUE_STAGE_ENDING = 1, /* it takes no more, and those without a response may still get one */
    NVMESIM_QUEUE_STAGE_ENDED = 2   /* it has ended */
};

/* The commands of a connection without a response. Zeros are a connection that has not connected; then only the calls
 * below write it. */
typedef struct nvmesim_responses {
    uint16_t sqsize;               /* SQSIZE: the number of entries of the submission queue, less one */
    uint16_t head;                 /* the commands accepted since Connect, modulo that number */
    uint16_t count;                /* how many commands have no response: at most 64 */
    uint8_t stage;                 /* NVMESIM_QUEUE_STAGE_OPEN .. */
    bool is_flow_control_disabled; /* whether SQHD is FFFFh */
    uint16_t outstanding[64];      /* their identifiers, and then anything */
} nvmesim_responses;

/* The outcome of a command. */
typedef struct nvmesim_reply {
    uint32_t dw0, dw1; /* double words 0 and 1 */
    uint16_t cid;
    uint8_t sct, sc;   /* the status */
} nvmesim_reply;

/* The associations of a subsystem, or none. */
typedef struct nvmesim_fabrics {
    void *controllers;
    bool is_open;
} nvmesim_fabrics;

#define NVMESIM_NO_FABRICS { NULL, false }

/* A host identifier. */
typedef struct nvmesim_host_id {
    uint64_t low, high;
} nvmesim_host_id;

/* What a Connect asks for. */
typedef struct nvmesim_request {
    uint64_t host_low, host_high; /* HOSTID */
    uint8_t host_nqn[256];        /* HOSTNQN: a text, NUL, and anything */
    uint16_t cntlid;              /* FFFFh is any controller of the host */
    uint16_t qid, entries;        /* QID; SQSIZE and one */
} nvmesim_request;

/* What a connection is. */
enum {
    NVMESIM_SESSION_NOT_CONNECTED = 0,
    NVMESIM_SESSION_AUTHENTICATING = 1, /* its host has to authenticate itself for `request` to controller `index` */
    NVMESIM_SESSION_QUEUE = 2,          /* queue `qid` of controller `index` */
    NVMESIM_SESSION_DISCOVERY = 3,      /* the Admin Queue of a discovery controller */
    NVMESIM_SESSION_ENDED = 4
};

/* What a connection was when one of these calls last wrote it. At first all is 0 but its number. */
typedef struct nvmesim_session {
    uint64_t connection;     /* the number of the connection, which no other ever has */
    nvmesim_request request;
    uint32_t kind;           /* NVMESIM_SESSION_NOT_CONNECTED .. */
    uint16_t index, qid;     /* the place of its controller, CNTLID less one; its queue */
} nvmesim_session;

/* The subsystem that SUBNQN of a Connect names. */
enum {
    NVMESIM_SUBSYSTEM_NVM = 0,       /* this one */
    NVMESIM_SUBSYSTEM_DISCOVERY = 1, /* the discovery subsystem */
    NVMESIM_SUBSYSTEM_OTHER = 2
};

/* What the program knows of a Connect. */
typedef struct nvmesim_judged {
    uint32_t authenticating[16];     /* how many hosts authenticate themselves for each controller */
    uint32_t subsystem;              /* NVMESIM_SUBSYSTEM_NVM .. */
    bool is_whole;                   /* whether the data of the command are 1,024 bytes */
    bool is_known;                   /* whether the host has a key, if hosts need one */
    bool is_allowed;                 /* whether the host may connect from its address */
    bool is_enabled;                 /* whether the Admin Queue of the controller is enabled */
    uint8_t created_sct, created_sc; /* the status of the creation of the I/O queues */
} nvmesim_judged;

/* The fields of a completion queue entry that an answer sets. */
typedef struct nvmesim_fabrics_answer {
    uint32_t what;   /* NVMESIM_OK; or NVMESIM_CLOSED, and the others are 0 */
    uint32_t dw0;    /* double word 0 */
    uint8_t sct, sc; /* the status */
} nvmesim_fabrics_answer;

/* That a command or a Connect is refused; which command it is; what a Connect connects to. */
enum {
    NVMESIM_REFUSED = 0,
    NVMESIM_COMMAND_AUTHENTICATE = 1, /* Authentication Send or Authentication Receive */
    NVMESIM_COMMAND_DISCONNECT = 2,
    NVMESIM_COMMAND_GET_PROPERTY = 3, /* of a property that there is */
    NVMESIM_COMMAND_SET_PROPERTY = 4, /* of CC */
    NVMESIM_PLACE_CONTROLLER = 1,
    NVMESIM_PLACE_DISCOVERY = 2
};

/* What a Connect asks for, and what it connects to. */
typedef struct nvmesim_admitted {
    nvmesim_request request;       /* zeros if it is refused */
    nvmesim_fabrics_answer answer; /* that of the first rule that it breaks, or status 0:00 */
    uint32_t place;                /* NVMESIM_PLACE_CONTROLLER, NVMESIM_PLACE_DISCOVERY, or NVMESIM_REFUSED */
    uint16_t index;                /* the place of the controller */
} nvmesim_admitted;

/* A Fabrics command other than Connect. */
typedef struct nvmesim_executed {
    nvmesim_fabrics_answer answer; /* that of the first rule that it breaks, or status 0:00 */
    uint32_t command;              /* NVMESIM_COMMAND_AUTHENTICATE .., or NVMESIM_REFUSED */
} nvmesim_executed;

/* What a connection is now. */
typedef struct nvmesim_live_session {
    uint32_t what;       /* NVMESIM_OK; or NVMESIM_CLOSED, and the others are 0 */
    uint32_t kind;       /* NVMESIM_SESSION_NOT_CONNECTED .. */
    uint16_t index, qid; /* the place of its controller, and its queue */
} nvmesim_live_session;

/* The connection of a queue. */
typedef struct nvmesim_queue_connection {
    uint64_t connection; /* its number, or 0 */
    uint32_t what;       /* NVMESIM_OK, NVMESIM_NO_QUEUE or NVMESIM_CLOSED */
} nvmesim_queue_connection;

/* The commands of a connection that have not got all their data, or none: at most 8 have an R2T, with the tags 0 to 7,
 * and 64 wait for theirs. */
typedef struct nvmesim_transfers {
    void *commands;
    bool is_open;
} nvmesim_transfers;

#define NVMESIM_NO_TRANSFERS { NULL, false }

/* The fields of an R2T, whose R2TO is 0. */
typedef struct nvmesim_next_request {
    uint32_t what;     /* NVMESIM_OK; or NVMESIM_NO_REQUEST or NVMESIM_CLOSED, and the others are 0 */
    uint32_t length;   /* R2TL */
    uint16_t cid, tag; /* CCCID, TTAG */
} nvmesim_next_request;

/* What is known of an H2CData. */
typedef struct nvmesim_part {
    uint16_t cid, tag;       /* CCCID, TTAG */
    uint32_t offset, length; /* DATAO, DATAL */
    bool is_last;            /* LAST_PDU */
    bool is_sound;           /* whether the digest of its data is right, or there is none */
} nvmesim_part;

/* The outcome of a part. */
typedef struct nvmesim_part_taken {
    uint32_t what;    /* NVMESIM_OK; or NVMESIM_BAD_PDU, and the connection ends; or NVMESIM_CLOSED */
    uint32_t field;   /* the offset of the wrong field, or 0 */
    uint32_t begin;   /* the place of its bytes in the room of its tag */
    uint32_t length;  /* the number of bytes of the command that is complete */
    uint16_t status;  /* the Fatal Error Status, or 0 */
    bool is_complete; /* whether its command has all its data now */
    bool is_sound;    /* whether the digests of all these were right */
    uint8_t entry[64]; /* the submission queue entry of the command that is complete */
} nvmesim_part_taken;

/* A command capsule. */
typedef struct nvmesim_capsule {
    uint8_t entry[64];    /* its submission queue entry */
    uint32_t data_length; /* the number of bytes of data in it */
    bool is_sound;        /* whether the digest of its data is right, or there is none */
} nvmesim_capsule;

/* The outcome of a command capsule. Data have at most 128 KiB. */
enum {
    NVMESIM_CAPSULE_REFUSED = 1,        /* the command is not executed, but answered with a status */
    NVMESIM_CAPSULE_WAITS = 2,          /* it waits for `length` bytes, which its host sends in answer to R2T */
    NVMESIM_CAPSULE_TO_CONTROLLER = 3,  /* ready: its data are `length` of the capsule's, from the offset `begin` on */
    NVMESIM_CAPSULE_FROM_CONTROLLER = 4 /* ready: the controller returns at most `length` bytes, or none */
};

typedef struct nvmesim_capsule_taken {
    uint32_t what;          /* NVMESIM_OK; or NVMESIM_BAD_PDU, and the connection ends; or NVMESIM_CLOSED */
    uint32_t field;         /* the offset of the wrong field, or 0 */
    uint32_t outcome;       /* NVMESIM_CAPSULE_REFUSED ..; 0 unless `what` is NVMESIM_OK */
    uint32_t begin, length; /* 0 if the outcome has none */
    uint16_t fatal;         /* the Fatal Error Status, or 0 */
    uint8_t sct, sc;        /* the status of a command that is refused */
} nvmesim_capsule_taken;

/* The destination of a command that is ready. */
enum {
    NVMESIM_DESTINATION_FABRICS = 0,   /* it is a command of Fabrics, for the calls on associations */
    NVMESIM_DESTINATION_DISCOVERY = 1, /* the discovery controller */
    NVMESIM_DESTINATION_ADMIN = 2,     /* the Admin Queue of the controller at the place `index` */
    NVMESIM_DESTINATION_IO = 3,        /* its I/O queue `qid` */
    NVMESIM_DESTINATION_REFUSED = 4    /* none: it is not executed, but answered with the status */
};

typedef struct nvmesim_destination {
    uint32_t kind;       /* NVMESIM_DESTINATION_FABRICS .. */
    uint16_t index, qid; /* the place of the controller, CNTLID less one; the I/O queue */
    uint8_t sct, sc;     /* the status of a command that is refused */
} nvmesim_destination;

/* Data buffers in the 4 MiB of memory that a controller has with its host: 128 KiB for a command that is executed as
 * soon as it is fetched, and 8 KiB each for 16 held commands, with the numbers 1 to 16. */
enum {
    NVMESIM_BUFFER_AT_ONCE = 0
};

/* PDUs: the layout of a host's PDU by its first 8 bytes, and the fields of an ICReq (128
 * bytes), all of which is granted, of an H2CData with `length` bytes of data, and of an H2CTermReq. OK, or BAD_PDU. */
nvmesim_pdu_layout nvmesim_pdu_layout_of(const nvmesim_pdu_agreed *agreed, const uint8_t *head);
nvmesim_pdu_fields nvmesim_pdu_ic_request(const uint8_t *request);
nvmesim_pdu_fields nvmesim_pdu_host_data(const uint8_t *header, uint32_t length);
nvmesim_pdu_fields nvmesim_pdu_host_termination(const uint8_t *header);

/* Write a controller's header and return its layout: ICResp (128 bytes; no data, no digest); CapsuleResp, with an entry
 * of 16 bytes; R2T for the first `length` bytes; C2HData with all data of a command; C2HTermReq, with up to 128 of the
 * `received` bytes as its data. OK, or OUTSIDE if HPDA or C2HData is too large, and nothing is written. Bytes between
 * a header and its data are 0. */
void nvmesim_pdu_ic_response(const nvmesim_pdu_agreed *agreed, uint8_t *header);
nvmesim_pdu_layout nvmesim_pdu_response(const nvmesim_pdu_agreed *agreed, const uint8_t *entry, uint8_t *header);
nvmesim_pdu_layout nvmesim_pdu_ready(const nvmesim_pdu_agreed *agreed, uint16_t cid, uint16_t tag, uint32_t length,
                                     uint8_t *header);
nvmesim_pdu_layout nvmesim_pdu_data(const nvmesim_pdu_agreed *agreed, uint16_t cid, uint32_t length, uint8_t *header);
nvmesim_pdu_layout nvmesim_pdu_termination(uint16_t status, uint32_t field, uint32_t received, uint8_t *header);

/* A connection takes bytes in their order: up to the end of the PDU in hand, or up to the first that breaks a rule. */
nvmesim_taken nvmesim_connection_take(nvmesim_connection *connection, const uint8_t *bytes, size_t count);

/* The PDU in hand is judged, if it is whole. A digest that it does not have counts as right. NO_PDU if none is whole,
 * and nothing has changed. */
nvmesim_verdict nvmesim_connection_judge(nvmesim_connection *connection, bool header_is_right, bool data_are_right);

/* The connection ends, since the complete PDU breaks a rule of a layer above: BAD_PDU, with this status and field; or
 * NO_PDU if none is complete, and nothing has changed. */
nvmesim_verdict nvmesim_connection_refuse(nvmesim_connection *connection, uint16_t status, uint32_t field);

/* The layout of the PDU in hand, once eight bytes have come and until it is judged: OK, or NO_PDU. How many bytes it
 * wants: up to the eighth, then all that it lacks. */
nvmesim_pdu_layout nvmesim_connection_layout(const nvmesim_connection *connection);
size_t nvmesim_connection_wanted(const nvmesim_connection *connection);

/* Counts a command that came: OK; CONFLICT, and its response has to be Command ID Conflict; QUEUE_FULL, and the host has
 * broken the rules of the transport; or QUEUE_ENDED. After the last two nothing has changed. */
uint32_t nvmesim_responses_accept(nvmesim_responses *responses, uint16_t cid);

/* Writes the response to a command (16 bytes): OK; or NO_COMMAND, nothing has changed, and nothing may be sent. */
uint32_t nvmesim_responses_respond(nvmesim_responses *responses, const nvmesim_reply *reply, uint8_t *entry);

/* A command will have no response, since a reset of the controller has dropped it: OK; or NO_COMMAND. */
uint32_t nvmesim_responses_forget(nvmesim_responses *responses, uint16_t cid);

/* Connect, which the call before has accepted, succeeds: SQSIZE, and whether it disables flow control. */
void nvmesim_responses_connected(nvmesim_responses *responses, uint16_t sqsize, bool is_flow_control_disabled);

/* No more commands are accepted; those without a response may still get one. After a stop none gets one. */
void nvmesim_responses_end(nvmesim_responses *responses);
void nvmesim_responses_stop(nvmesim_responses *responses);

/* The last word of an entry with this status: its phase tag, which is 0, and the status field. */
uint16_t nvmesim_responses_status(uint8_t sct, uint8_t sc);

/* The address of data of `length` bytes in a buffer, a multiple of 4; 4 MiB, which is no address, if they don't fit or
 * there is no such buffer. */
uint64_t nvmesim_buffers_start(uint32_t buffer, uint64_t length);

/* Sets PSDT 0 and the PRP entries of an entry (64 bytes) of the Admin Queue or another, whose data have `length` bytes in
 * a buffer. A command that moves more bytes than that gets entries that it can't use: it is answered Data
 * Transfer Error, unless a rule before denies it. */
void nvmesim_buffers_place(uint8_t *entry, bool is_admin, uint32_t buffer, uint64_t length);

/* Whether the command of an entry (64 bytes), if it succeeds, writes all `length` bytes of its data. If not, clear data
 * that come from the controller before it is executed: else they may end with bytes of earlier commands. */
bool nvmesim_buffers_is_filled(const uint8_t *entry, bool is_admin, uint64_t length);

/* Writes the PRP list (248 bytes), and returns its address. Whatever else is stored, it has to stay there. */
uint64_t nvmesim_buffers_list(uint8_t *list);

/* The addresses of the queues with an identifier up to 4, a page each. No two, the list and the buffers share a byte. */
uint64_t nvmesim_buffers_submission_queue(uint16_t qid);
uint64_t nvmesim_buffers_completion_queue(uint16_t qid);

/* Whether the command of an entry (64 bytes) may change the access state if it succeeds: registrants, reservations, write
 * protection and attachments. A subsystem of the same configuration that executes all of them again, in their order and
 * with its power cycles, has the same access state; each succeeds again. */
bool nvmesim_journal_lasts(const uint8_t *entry, bool is_admin);

/* How many bytes of the data of such a command have to be kept, by the first two of them: 16, or of an admin command a
 * list of controllers with its count. The others may be zeros when the command is executed again. */
uint32_t nvmesim_journal_kept_length(const uint8_t *head, bool is_admin);

/* Begins a subsystem without associations, whose controllers have these hosts, by rising CNTLID from 1; with has_keys
 * hosts have to authenticate themselves. OK; or ALREADY_OPEN, TOO_MANY, NO_MEMORY, and nothing has changed. The close
 * frees the memory. */
uint32_t nvmesim_fabrics_open(nvmesim_fabrics *fabrics, const nvmesim_host_id *hosts, size_t count, bool has_keys);
void nvmesim_fabrics_close(nvmesim_fabrics *fabrics);

/* What a connection is now: a queue only as long as its association names it. And the connection of a queue of the
 * controller at a place: OK, NO_QUEUE, CLOSED. */
nvmesim_live_session nvmesim_fabrics_live(nvmesim_fabrics *fabrics, const nvmesim_session *session);
nvmesim_queue_connection nvmesim_fabrics_connection(nvmesim_fabrics *fabrics, uint16_t index, uint16_t qid);

/* What a Connect with this entry (64 bytes) and these data (1,024 bytes, anything if they are not whole) asks for and
 * connects to. Nothing changes. */
nvmesim_admitted nvmesim_fabrics_admitted(nvmesim_fabrics *fabrics, const nvmesim_session *session,
                                          const uint8_t *entry, const uint8_t *data, const nvmesim_judged *judged);

/* Whether a request may have its queue at the controller at a place: status 0:00, or that of the first rule that is
 * broken. Nothing changes. */
nvmesim_fabrics_answer nvmesim_fabrics_admits(nvmesim_fabrics *fabrics, uint16_t index, const nvmesim_request *request,
                                              bool is_enabled);

/* Executes a Connect. If it is refused, nothing has changed. */
nvmesim_fabrics_answer nvmesim_fabrics_connect(nvmesim_fabrics *fabrics, nvmesim_session *session,
                                               const uint8_t *entry, const uint8_t *data,
                                               const nvmesim_judged *judged);

/* The host of a connection that is authenticating is authentic: the connection becomes the queue that its Connect asked
 * for, or ends, and the status says why. Any other connection stays what it is. */
nvmesim_fabrics_answer nvmesim_fabrics_authenticate(nvmesim_fabrics *fabrics, nvmesim_session *session,
                                                    bool is_enabled, uint8_t created_sct, uint8_t created_sc);

/* Executes a Fabrics command other than Connect. Disconnect ends the queue, and a Property Set that resets the
 * controller ends its I/O queues; the program does the rest, such as sending the property. If it is refused, nothing
 * has changed. */
nvmesim_executed nvmesim_fabrics_execute(nvmesim_fabrics *fabrics, nvmesim_session *session, const uint8_t *entry);

/* A connection ends: its queue ends, and with the Admin Queue the association. The association of the controller at a
 * place ends, if there is one: Keep Alive Timer expires, its host has no key any more, or power is lost. OK, or
 * CLOSED. */
uint32_t nvmesim_fabrics_end_session(nvmesim_fabrics *fabrics, nvmesim_session *session);
uint32_t nvmesim_fabrics_end_association(nvmesim_fabrics *fabrics, uint16_t index);

/* Begins a connection without commands: OK; or ALREADY_OPEN, NO_MEMORY, and nothing has changed. The close frees the
 * memory. */
uint32_t nvmesim_transfers_open(nvmesim_transfers *transfers);
void nvmesim_transfers_close(nvmesim_transfers *transfers);

/* How many commands there are, and whether one with this identifier is in flight. If none are open, there are none. */
size_t nvmesim_transfers_count(nvmesim_transfers *transfers);
bool nvmesim_transfers_has(nvmesim_transfers *transfers, uint16_t cid);

/* A command with this entry (64 bytes), which expects `length` bytes, waits for its R2T: OK; or ENDED, NO_DATA,
 * IN_FLIGHT, MANY_WAIT, CLOSED, and nothing has changed. */
uint32_t nvmesim_transfers_begin(nvmesim_transfers *transfers, const uint8_t *entry, uint32_t length);

/* The R2T of the command that waits longest, if a tag is free. The command has the tag until it is complete. */
nvmesim_next_request nvmesim_transfers_next_request(nvmesim_transfers *transfers);

/* Takes a part, which has to be the next of its command's data; else the answer is BAD_PDU, nothing has changed, and no
 * byte of it may be used. The store also copies its bytes to their place in the room of its tag; the answer is BAD_PDU
 * too if they are not as many as DATAL says, or the room is too short. */
nvmesim_part_taken nvmesim_transfers_take(nvmesim_transfers *transfers, const nvmesim_part *part);
nvmesim_part_taken nvmesim_transfers_store(nvmesim_transfers *transfers, const nvmesim_part *part,
                                           const uint8_t *bytes, size_t count, uint8_t *room, size_t room_count);

/* The connection ends: all commands are dropped, and no more are taken. OK, or CLOSED. */
uint32_t nvmesim_transfers_end(nvmesim_transfers *transfers);

/* Takes a command capsule of a connection with this session: counts its command as nvmesim_responses_accept does, and
 * returns the outcome. A command that waits for its data is among `transfers` then. A refused one has the status of
 * the first rule that it breaks: before Connect only that comes, before authentication only its commands and
 * Disconnect; the digest of the data is right; no other command without a response has the identifier; PSDT is 1; if
 * there are data, the SGL has at most 128 KiB, a type that their direction allows, and an offset and a length within
 * the data of the capsule; and the data of Connect are in its capsule. BAD_PDU: the queue is full or takes no more
 * commands, and nothing has changed, or the command can't wait. CLOSED: no transfers are open; nothing has changed. */
nvmesim_capsule_taken nvmesim_capsules_take(nvmesim_responses *responses, nvmesim_transfers *transfers,
                                            const nvmesim_session *session, const nvmesim_capsule *capsule);

/* The destination of a command that is ready, by its entry (64 bytes), on a connection that is `live` now. `has_queue`:
 * whether the controller has the queue that the connection is, if it is one. */
nvmesim_destination nvmesim_capsules_destination(const nvmesim_live_session *live, const uint8_t *entry,
                                                 bool has_queue);

#ifdef __cplusplus
}
#endif

#endif
