/* The command `session`: a line of standard input is a command, and its result a line of JSON. */
#include "commands.h"
#include "session.h"

#include <errno.h>
#include <poll.h>
#include <signal.h>
#include <stdio.h>
#include <string.h>
#include <unistd.h>

/* The longest line compares 256 blocks. */
enum { MOST_BLOCKS = NVMEHOST_BUFFER / 512, LONGEST = 2 * NVMEHOST_BUFFER + 80, MOST_WORDS = 16, MOST_NUMBERS = 3 };
/* Between two looks for a recall while no line comes. */
enum { RECALL_MS = 100 };

/* A command: its words after the name, what messages call it, how many numbers it has, and their limits after the
 * namespace. Those with `has_blocks` have blocks as the last word. */
struct form {
    const char *name, *words, *title;
    int numbers;
    uint64_t most[MOST_NUMBERS];
    bool has_blocks, has_options;
};
static const struct form forms[] = {
    { "identify", "NSID", "Identify", 1, { UINT32_MAX }, false, false },
    { "read", "NSID BLOCK COUNT", "Read", 3, { UINT32_MAX, UINT64_MAX, MOST_BLOCKS }, false, false },
    { "write", "NSID BLOCK DATA", "Write", 2, { UINT32_MAX, UINT64_MAX }, true, false },
    { "compare", "NSID BLOCK DATA", "Compare", 2, { UINT32_MAX, UINT64_MAX }, true, false },
    { "zeroes", "NSID BLOCK COUNT", "Write Zeroes", 3, { UINT32_MAX, UINT64_MAX, 65536 }, false, false },
    { "flush", "NSID", "Flush", 1, { UINT32_MAX }, false, false },
    { "host-identifier", "HOST", "Set Features", 0, { 0 }, false, false },
    { "resv-register", "NSID [--rrega N] [--crkey N] [--nrkey N] [--iekey] [--cptpl N]", "Reservation Register", 0,
      { 0 }, false, true },
    { "resv-acquire", "NSID [--racqa N] [--rtype N] [--crkey N] [--prkey N]", "Reservation Acquire", 0, { 0 }, false,
      true },
    { "resv-release", "NSID [--rrela N] [--rtype N] [--crkey N]", "Reservation Release", 0, { 0 }, false, true },
    { "resv-report", "NSID DWORDS", "Reservation Report", 2, { UINT32_MAX, NVMEHOST_BUFFER / 4 }, false, false } };
enum { FORMS = sizeof forms / sizeof *forms };

/* Standard input, of which a piece is read at a time; a line of it, and the words of the line. */
static struct { char piece[65536]; size_t next, len; } input;
static char line[LONGEST + 1];
static char *words[MOST_WORDS + 1];
static uint8_t blocks[NVMEHOST_BUFFER];

/* Reads a piece, which is empty at the end. Ends the program if Linux wants the device before. */
static void read_piece(void)
{
    struct pollfd ready = { .fd = STDIN_FILENO, .events = POLLIN };
    while (poll(&ready, 1, RECALL_MS) == 0)
        if (vfio_is_recalled(&session.vfio))
            session_fail("", "Linux wants to remove the device");
    ssize_t len = read(STDIN_FILENO, input.piece, sizeof input.piece);
    if (len < 0)
        session_fail("standard input", strerror(errno));
    input.next = 0, input.len = (size_t)len;
}

static int next_byte(void)
{
    if (input.next == input.len)
        read_piece();
    return input.len == 0 ? EOF : (unsigned char)input.piece[input.next++];
}

/* Reads a line; whether there is one. `fault` is why it is none that could be a command, or NULL. */
static bool read_line(const char **fault)
{
    size_t len = 0;
    int byte;
    *fault = NULL;
    while ((byte = next_byte()) != EOF && byte != '\n') {
        if (byte == 0)
            *fault = "the line has a NUL byte";
        else if (len == LONGEST)
            *fault = "the line is too long";
        else
            line[len++] = (char)byte;
    }
    line[len] = 0;
    if (byte == EOF && (len > 0 || *fault))
        *fault = "the last line has no end";
    return byte != EOF || *fault;
}

/* Takes the words of the line; their number, or MOST_WORDS + 1 if there are more. */
static int split(void)
{
    int count = 0;
    char *rest = line;
    while ((words[count] = strsep(&rest, " ")) != NULL)
        if (*words[count] != 0 && count++ == MOST_WORDS)
            return count;
    return count;
}

static const struct form *form_of(const char *name)
{
    for (int i = 0; i < FORMS; i++)
        if (!strcmp(name, forms[i].name))
            return &forms[i];
    return NULL;
}

/* The result of a line of which nothing was sent. */
static void refuse(const char *reason)
{
    printf("{\"refused\":\"%s\"}\n", reason);
}

static void refuse_words(const struct form *f)
{
    printf("{\"refused\":\"wrong words; expected: %s %s\"}\n", f->name, f->words);
}

static int digit(char c)
{
    static const char digits[] = "0123456789abcdef0123456789ABCDEF";
    const char *at = c ? strchr(digits, c) : NULL;
    return at ? (int)(at - digits) % 16 : -1;
}

/* The bytes of whole blocks in hexadecimal; their number, or 0 if it is something else. */
static size_t read_blocks(const char *text)
{
    size_t digits = strlen(text);
    if (digits % 1024 != 0 || digits > 2 * sizeof blocks)
        return 0;
    for (size_t i = 0; i < digits; i += 2) {
        if (digit(text[i]) < 0 || digit(text[i + 1]) < 0)
            return 0;
        blocks[i / 2] = (uint8_t)(16 * digit(text[i]) + digit(text[i + 1]));
    }
    return digits / 2;
}

/* Whether the driver refused a request before it sent anything. Other results than these are failures. */
static bool is_refusal(uint32_t code)
{
    return code == NVMEHOST_BAD_REQUEST || code == NVMEHOST_NO_HOST_IDENTIFIER
        || (code >= NVMEHOST_QUEUES_TOO_SHORT && code < NVMEHOST_EXPIRED);
}

/* Sends what was placed, if it was, and prints the result. */
static void finish(const struct form *f, struct nvmehost_placed placed)
{
    struct nvmehost_outcome o = session_answer(f->title, placed);
    if (o.code != NVMEHOST_DONE && !is_refusal(o.code))
        session_fail(f->title, port_name(o.code));
    if (o.code != NVMEHOST_DONE) {
        refuse(port_name(o.code));
        return;
    }
    printf("{\"command\":\"%s\",\"status\":\"%x:%02x\",\"dw0\":%u", f->name, o.sct, o.sc, o.dw0);
    if (o.len != 0)
        session_print_data(o.len);
    puts("}");
}

/* Asks about a namespace that no line has named before; whether it can be used in a request. */
static bool ask_once(uint32_t nsid)
{
    struct nvmehost *host = &session.port.host;
    if (nsid == 0) {
        refuse("there is no namespace 0");
        return false;
    }
    if (nvmehost_namespace(host, nsid).code != NVMEHOST_NAMESPACE_NOT_ASKED)
        return true;
    struct nvmehost_outcome o = session_answer("Identify", nvmehost_ask(host, nsid));
    if (o.code != NVMEHOST_DONE && !is_refusal(o.code))
        session_fail("Identify", port_name(o.code));
    if (o.code != NVMEHOST_DONE)
        refuse(port_name(o.code));
    else if (o.sct != 0 || o.sc != 0)
        printf("{\"refused\":\"Identify of the namespace has status %x:%02x\"}\n", o.sct, o.sc);
    return o.code == NVMEHOST_DONE && o.sct == 0 && o.sc == 0;
}

/* Places a command whose words are numbers and blocks. */
static struct nvmehost_placed place(const struct form *f, const uint64_t *values, size_t len)
{
    struct nvmehost *host = &session.port.host;
    uint32_t nsid = (uint32_t)values[0], count = (uint32_t)values[2];
    if (!strcmp(f->name, "identify"))
        return nvmehost_ask(host, nsid);
    if (!strcmp(f->name, "read"))
        return nvmehost_read(host, nsid, values[1], count);
    if (!strcmp(f->name, "write"))
        return nvmehost_write(host, nsid, values[1], blocks, len);
    if (!strcmp(f->name, "compare"))
        return nvmehost_compare(host, nsid, values[1], blocks, len);
    if (!strcmp(f->name, "zeroes"))
        return nvmehost_write_zeroes(host, nsid, values[1], count);
    if (!strcmp(f->name, "resv-report"))
        return nvmehost_report(host, nsid, (uint32_t)values[1]);
    return nvmehost_flush(host, nsid);
}

static void execute_numbers(const struct form *f, int count)
{
    uint64_t values[MOST_NUMBERS] = { 0 };
    size_t len = 0;
    bool is_right = count == 1 + f->numbers + f->has_blocks;
    for (int i = 0; is_right && i < f->numbers; i++)
        is_right = session_number(words[1 + i], f->most[i], &values[i]);
    if (!is_right)
        refuse_words(f);
    else if (f->has_blocks && (len = read_blocks(words[1 + f->numbers])) == 0)
        refuse("DATA must be 1 to 256 whole blocks of 512 bytes in hexadecimal");
    else if (!strcmp(f->name, "identify") || ask_once((uint32_t)values[0]))
        finish(f, place(f, values, len));
}

static void execute_options(const struct form *f, int count)
{
    struct options o;
    const char *what;
    if (!read_options(count, words, &o) || o.names_host)
        refuse_words(f);
    else if (ask_once(o.nsid))
        finish(f, place_change(&o, &what));
}

static void identify_host(const struct form *f, int count)
{
    uint8_t host[HOST_BYTES];
    if (count != 2)
        refuse_words(f);
    else if (!read_host(words[1], host))
        refuse("HOST must have 32 hexadecimal digits");
    else
        finish(f, nvmehost_set_host_identifier(&session.port.host, host));
}

static void execute(int count)
{
    const struct form *f = count > 0 ? form_of(words[0]) : NULL;
    if (count > MOST_WORDS)
        refuse("the line has too many words");
    else if (!f)
        refuse(count == 0 ? "the line is empty" : "no command has this name");
    else if (f->has_options)
        execute_options(f, count);
    else if (!strcmp(f->name, "host-identifier"))
        identify_host(f, count);
    else
        execute_numbers(f, count);
}

void run_lines(void)
{
    const char *fault;
    signal(SIGPIPE, SIG_IGN); /* then the end of the reader is a failure, after which the controller is reset */
    while (read_line(&fault)) {
        if (fault)
            refuse(fault);
        else
            execute(split());
        if (fflush(stdout))
            session_fail("standard output", strerror(errno));
    }
}
