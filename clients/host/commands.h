/* The commands of the program that have options, those on reservations and `events`; and `session`. */
#ifndef NVMEHOST_COMMANDS_H
#define NVMEHOST_COMMANDS_H

#include "nvmehost.h"

/* What the options say; N of an option that is not given is 0. */
struct options {
    const char *command;
    uint32_t nsid;
    bool names_host, has_host, lacks_host, iekey, enables; /* lacks_host: it is missing, or has no 32 digits */
    uint8_t host[16], action, rtype, cptpl;
    uint32_t events; /* the events to be reported, if enables */
    uint64_t crkey, other_key; /* NRKEY of a Register, PRKEY of an Acquire */
};

enum { HOST_BYTES = 16 };

bool is_option_command(const char *word);
/* The bytes of 32 hexadecimal digits, the first one first; whether it is that. */
bool read_host(const char *text, uint8_t host[HOST_BYTES]);
/* Judges the words of a command from its name on; whether they are right. */
bool read_options(int words, char **word, struct options *o);
void run_option_command(const struct options *o);
/* Places the request of a command that changes a reservation. `what` is its name. */
struct nvmehost_placed place_change(const struct options *o, const char **what);

/* Executes commands that standard input has, one on each line, until its end. */
void run_lines(void);

/* Waits for an event, prints it, and reads its log page, so that it is cleared. */
void print_next_event(void);
#endif
