/* The controller that the program drives, and how the program ends. */
#ifndef NVMEHOST_SESSION_H
#define NVMEHOST_SESSION_H

#include "vfio.h"

/* Exit statuses. */
enum { SESSION_FAILED = 1, SESSION_USAGE = 2, SESSION_DIFFERENT = 3 };

struct session {
    struct vfio vfio;
    struct port port;
    const char *address;
    bool is_json, is_limited; /* is_limited: a time limit was given */
    unsigned timeout_ms;      /* the time limit of each request */
};
extern struct session session;

/* Opens the controller, brings it up and asks about it. */
void session_begin(void);
void session_ask(uint32_t nsid);
/* Sets the identifier of this host at the controller. */
void session_identify_host(const uint8_t identifier[16]);
/* The answer of a request, whose data are then in the port's buffer, or why it was not sent. The program ends if the
 * request is not answered in time. */
struct nvmehost_outcome session_answer(const char *what, struct nvmehost_placed placed);
/* The same, but the program ends also if the request fails; whether a Compare found equal blocks. */
bool session_finish(const char *what, struct nvmehost_placed placed);
/* The time of a request is over: aborts it, reports how it ended, and exits. */
_Noreturn void session_give_up(const char *what, uint64_t ticket);
/* Ends because of a request's result, unless it succeeded. */
void session_succeed(const char *what, struct nvmehost_outcome outcome);
_Noreturn void session_fail(const char *what, const char *reason);
/* Resets the controller, unmaps its memory, and ends. */
_Noreturn void session_leave(int status);

/* Prints data of the port's buffer in hexadecimal, as a member of a JSON object. */
void session_print_data(size_t len);
/* A number of the command line; whether it is one. */
bool session_number(const char *text, uint64_t most, uint64_t *value);

#endif
