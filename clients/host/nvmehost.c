/* nvmehost [OPTION].. ADDRESS COMMAND: the proved driver on a controller at a PCI address, through VFIO. */
#include "bench.h"
#include "commands.h"
#include "session.h"

#include <errno.h>
#include <stdio.h>
#include <stdlib.h>
#include <string.h>

enum { TIMEOUT_SECONDS = 30, MOST_SECONDS = 86400 };

static const char usage[] =
    "usage: nvmehost [OPTION].. ADDRESS identify            the controller, and namespaces 1 to 64 that are there\n"
    "       nvmehost [OPTION].. ADDRESS read NSID BLOCK COUNT\n"
    "                                                       writes up to 256 blocks to standard output\n"
    "       nvmehost [OPTION].. ADDRESS write NSID BLOCK    writes standard input, whole blocks of 512 bytes\n"
    "       nvmehost [OPTION].. ADDRESS compare NSID BLOCK  compares standard input\n"
    "       nvmehost [OPTION].. ADDRESS zeroes NSID BLOCK COUNT\n"
    "                                                       fills up to 65,536 blocks with zeros\n"
    "       nvmehost [OPTION].. ADDRESS flush NSID\n"
    "       nvmehost [OPTION].. ADDRESS resv-register NSID HOST [--rrega N] [--crkey N] [--nrkey N] [--iekey] [--cptpl N]\n"
    "       nvmehost [OPTION].. ADDRESS resv-acquire NSID HOST [--racqa N] [--rtype N] [--crkey N] [--prkey N]\n"
    "       nvmehost [OPTION].. ADDRESS resv-release NSID HOST [--rrela N] [--rtype N] [--crkey N]\n"
    "       nvmehost [OPTION].. ADDRESS resv-report NSID [HOST]\n"
    "                                                       reservations: N is 0 if it is not given\n"
    "       nvmehost [OPTION].. ADDRESS events [HOST] [--enable BITS]\n"
    "                                                       waits for an event, prints it, and clears it. BITS selects\n"
    "                                                       which events are reported (Asynchronous Event Configuration)\n"
    "       nvmehost [OPTION].. ADDRESS bench read|write NSID BLOCKS DEPTH SECONDS\n"
    "                                                       reads or overwrites at random places, DEPTH requests at a\n"
    "                                                       time (1 to 24): IOPS and latencies\n"
    "       nvmehost [OPTION].. ADDRESS session             executes a command for each line of standard input; the man\n"
    "                                                       page lists them. Prints a line of JSON for each\n"
    "\n"
    "ADDRESS is a PCI address, such as 0000:00:04.0, of a controller that is bound to vfio-pci: nvmehost prints what\n"
    "to type if it is not. Linux must not use the controller meanwhile. Standard input has at most 131,072 bytes.\n"
    "HOST is --host-identifier and 32 hexadecimal digits, with which the controller knows this host.\n"
    "--json prints the result as one line of JSON, with data in hexadecimal.\n"
    "--timeout SECONDS is the time limit of each request, 1 to 86,400: 30 if it is not given, but none for events.\n"
    "Status 0: done; 1: the request failed; 2: wrong words; 3: the blocks differ.\n";

/* Text of an Identify field, without the spaces at its end. */
static void print_text(const char *name, const uint8_t *bytes, int len)
{
    while (len > 0 && (bytes[len - 1] == ' ' || bytes[len - 1] == 0))
        len--;
    printf(session.is_json ? "\"%s\":\"" : "%s ", name);
    for (int i = 0; i < len; i++) {
        if (session.is_json && (bytes[i] == '"' || bytes[i] == '\\'))
            putchar('\\');
        putchar(bytes[i] >= ' ' && bytes[i] < 127 ? bytes[i] : '?');
    }
    fputs(session.is_json ? "\"," : "\n", stdout);
}

static void print_namespace(uint32_t nsid, const char *separator)
{
    struct nvmehost_namespace n = nvmehost_namespace(&session.port.host, nsid);
    unsigned long long blocks = n.blocks;
    if (session.is_json && n.code == NVMEHOST_OK)
        printf("%s{\"nsid\":%u,\"blocks\":%llu,\"block_size\":512}", separator, nsid, blocks);
    else if (session.is_json)
        printf("%s{\"nsid\":%u,\"not_used\":\"%s\"}", separator, nsid, port_name(n.code));
    else if (n.code == NVMEHOST_OK)
        printf("namespace %u: %llu blocks of 512 bytes\n", nsid, blocks);
    else
        printf("namespace %u: not used: %s\n", nsid, port_name(n.code));
}

static void identify(void)
{
    struct nvmehost_controller c = nvmehost_controller(&session.port.host);
    const char *separator = "";
    if (c.code != NVMEHOST_OK)
        session_fail("", port_name(c.code));
    fputs(session.is_json ? "{" : "", stdout);
    print_text("model", session.port.buffer + 24, 40);
    print_text("serial", session.port.buffer + 4, 20);
    print_text("firmware", session.port.buffer + 64, 8);
    printf(session.is_json ? "\"cntlid\":%u,\"nn\":%u,\"mdts\":%u,\"oncs\":\"%04x\",\"vwc\":%u,\"namespaces\":["
                           : "cntlid %u\nnn %u\nmdts %u\noncs %04x\nvwc %u\n", c.cntlid, c.nn, c.mdts, c.oncs, c.vwc & 1u);
    for (uint32_t nsid = 1; nsid <= c.nn && nsid <= NVMEHOST_HIGHEST_NSID; nsid++) {
        session_ask(nsid);
        if (nvmehost_namespace(&session.port.host, nsid).code == NVMEHOST_NOT_THERE)
            continue;
        print_namespace(nsid, separator);
        separator = ",";
    }
    fputs(session.is_json ? "]}\n" : "", stdout);
}

/* Standard input, which must be whole blocks; its length. */
static size_t read_input(uint8_t *bytes)
{
    size_t len = fread(bytes, 1, NVMEHOST_BUFFER, stdin);
    if (ferror(stdin))
        session_fail("standard input", strerror(errno));
    if (len == 0 || len % 512 != 0 || fgetc(stdin) != EOF)
        session_fail("standard input", "it must have 1 to 256 whole blocks of 512 bytes");
    return len;
}

static void write_output(size_t len)
{
    if (fwrite(session.port.buffer, 1, len, stdout) != len || fflush(stdout))
        session_fail("standard output", strerror(errno));
}

/* The result of a command on blocks, as JSON. */
static void print_result(const char *command, uint32_t nsid, uint64_t slba, size_t count)
{
    printf("{\"command\":\"%s\",\"nsid\":%u", command, nsid);
    if (count != 0)
        printf(",\"block\":%llu,\"count\":%zu", (unsigned long long)slba, count);
}

static bool is_address(const char *text)
{
    unsigned parts[4];
    char rest;
    return sscanf(text, "%4x:%2x:%2x.%1x%c", &parts[0], &parts[1], &parts[2], &parts[3], &rest) == 4
        && strlen(text) == 12;
}

static int use_wrongly(void)
{
    fputs(usage, stderr);
    return SESSION_USAGE;
}

/* Sends a command on blocks, and waits for its answer; whether a comparison found equal blocks. */
static bool send_command(const char *command, uint32_t nsid, uint64_t slba, uint32_t count, const uint8_t *bytes)
{
    size_t len = 512 * (size_t)count;
    if (!strcmp(command, "read"))
        return session_finish("Read", nvmehost_read(&session.port.host, nsid, slba, count));
    if (!strcmp(command, "write"))
        return session_finish("Write", nvmehost_write(&session.port.host, nsid, slba, bytes, len));
    if (!strcmp(command, "compare"))
        return session_finish("Compare", nvmehost_compare(&session.port.host, nsid, slba, bytes, len));
    if (!strcmp(command, "zeroes"))
        return session_finish("Write Zeroes", nvmehost_write_zeroes(&session.port.host, nsid, slba, count));
    return session_finish("Flush", nvmehost_flush(&session.port.host, nsid));
}

static void execute(const char *command, uint32_t nsid, uint64_t slba, uint32_t count)
{
    static uint8_t bytes[NVMEHOST_BUFFER];
    bool is_read = !strcmp(command, "read"), is_compare = !strcmp(command, "compare");
    if (is_compare || !strcmp(command, "write"))
        count = (uint32_t)(read_input(bytes) / 512);
    session_begin();
    session_ask(nsid);
    bool is_equal = send_command(command, nsid, slba, count, bytes);
    if (session.is_json) {
        print_result(command, nsid, slba, count);
        if (is_read)
            session_print_data(512 * (size_t)count);
        if (is_compare)
            printf(",\"equal\":%s", is_equal ? "true" : "false");
        puts("}");
    } else if (is_read) {
        write_output(512 * (size_t)count);
    }
    if (!is_equal) {
        fprintf(stderr, "nvmehost: %s: Compare: the blocks differ\n", session.address);
        session_leave(SESSION_DIFFERENT);
    }
}

static const struct { const char *name; uint32_t share; } percentiles[] = {
    { "p50", 50000 }, { "p90", 90000 }, { "p99", 99000 }, { "p99.9", 99900 }, { "p99.99", 99990 } };
enum { PERCENTILES = sizeof percentiles / sizeof *percentiles };

static void print_bench_json(const struct bench *b, const struct bench_result *r, double seconds)
{
    printf("{\"command\":\"bench\",\"request\":\"%s\",\"nsid\":%u,\"blocks\":%u,\"depth\":%u,\"seconds\":%.3f,"
           "\"requests\":%llu,\"iops\":%.0f,\"bytes_per_second\":%.0f,\"latency_ns\":{\"least\":%llu,\"mean\":%llu",
           b->is_write ? "write" : "read", b->nsid, b->blocks, b->depth, seconds, (unsigned long long)r->requests,
           (double)r->requests / seconds, (double)r->requests * 512 * b->blocks / seconds,
           (unsigned long long)r->least, (unsigned long long)(r->sum / r->requests));
    for (int i = 0; i < PERCENTILES; i++)
        printf(",\"%s\":%llu", percentiles[i].name, (unsigned long long)bench_percentile(r, percentiles[i].share));
    printf(",\"most\":%llu}}\n", (unsigned long long)r->most);
}

static void print_bench(const struct bench *b, const struct bench_result *r)
{
    double seconds = (double)r->nanoseconds / 1e9, us = 1000;
    if (session.is_json) {
        print_bench_json(b, r, seconds);
        return;
    }
    printf("%s: %llu requests in %.1f s, IOPS %.0f, %.1f MiB/s\n", b->is_write ? "write" : "read",
           (unsigned long long)r->requests, seconds, (double)r->requests / seconds,
           (double)r->requests * b->blocks / 2048 / seconds);
    printf("latency in microseconds: least %.1f, mean %.1f", (double)r->least / us,
           (double)r->sum / (double)r->requests / us);
    for (int i = 0; i < PERCENTILES; i++)
        printf(", %s %.1f", percentiles[i].name, (double)bench_percentile(r, percentiles[i].share) / us);
    printf(", most %.1f\n", (double)r->most / us);
}

static void bench(struct bench *b)
{
    static struct bench_result result;
    struct nvmehost_outcome outcome;
    session_begin();
    session_ask(b->nsid);
    struct nvmehost_namespace n = nvmehost_namespace(&session.port.host, b->nsid);
    if (n.code != NVMEHOST_OK)
        session_fail("", port_name(n.code));
    if (n.blocks < b->blocks)
        session_fail("", "the namespace has fewer blocks than a request");
    b->namespace_blocks = n.blocks, b->timeout_ms = session.timeout_ms;
    const char *name = b->is_write ? "Write" : "Read";
    uint32_t what = bench_run(&session.port, b, &result, &outcome);
    if (what == NVMEHOST_NOTHING)
        session_give_up(name, outcome.ticket);
    outcome.code = what;
    if (what != NVMEHOST_OK)
        session_succeed(name, outcome);
    print_bench(b, &result);
}

/* The words of bench: read or write, then numbers of 1 or more. */
static bool read_bench(char **word, struct bench *b)
{
    static const uint64_t most[] = { UINT32_MAX, 256, BENCH_DEPTH, 86400 };
    uint64_t values[4];
    b->is_write = !strcmp(word[0], "write");
    if (!b->is_write && strcmp(word[0], "read"))
        return false;
    for (int i = 0; i < 4; i++)
        if (!session_number(word[1 + i], most[i], &values[i]) || values[i] == 0)
            return false;
    b->nsid = (uint32_t)values[0], b->blocks = (uint32_t)values[1];
    b->depth = (uint32_t)values[2], b->seconds = (uint32_t)values[3];
    return true;
}

/* Takes the options out of the words; the number of words that are left, or 0 if an option is wrong. */
static int take_options(int words, char **word)
{
    uint64_t seconds = 0;
    int first = 1;
    for (; first < words; first++) {
        if (!strcmp(word[first], "--json"))
            session.is_json = true;
        else if (strcmp(word[first], "--timeout"))
            break;
        else if (++first == words || !session_number(word[first], MOST_SECONDS, &seconds) || seconds == 0)
            return 0;
    }
    session.timeout_ms = (unsigned)(seconds != 0 ? seconds : TIMEOUT_SECONDS) * 1000;
    session.is_limited = seconds != 0;
    for (int i = first; i <= words; i++)
        word[1 + i - first] = word[i];
    return words - first + 1;
}

/* Judges the words of a command, the numbers of all but bench into `values`; whether they are right. */
static bool read_words(int words, char **word, uint64_t *values, struct bench *b)
{
    static const struct { const char *name; int words; } commands[] = {
        { "identify", 3 }, { "read", 6 }, { "write", 5 }, { "compare", 5 }, { "zeroes", 6 }, { "flush", 4 },
        { "bench", 8 }, { "session", 3 } };
    static const uint64_t most[3] = { UINT32_MAX, UINT64_MAX, 65536 };
    int wanted = 0;
    for (size_t i = 0; words > 2 && i < sizeof commands / sizeof *commands; i++)
        wanted = strcmp(word[2], commands[i].name) ? wanted : commands[i].words;
    if (wanted == 0 || words != wanted)
        return false;
    if (!strcmp(word[2], "bench"))
        return read_bench(word + 3, b);
    for (int i = 3; i < words; i++)
        if (!session_number(word[i], most[i - 3], &values[i - 3]))
            return false;
    return true;
}

/* Executes a command whose words are right. */
static void run(char **word, const uint64_t *values, struct bench *b)
{
    if (!strcmp(word[2], "identify")) {
        session_begin();
        identify();
    } else if (!strcmp(word[2], "bench")) {
        bench(b);
    } else if (!strcmp(word[2], "session")) {
        session_begin();
        run_lines();
    } else {
        execute(word[2], (uint32_t)values[0], values[1], (uint32_t)values[2]);
    }
}

int main(int words, char **word)
{
    uint64_t values[3] = { 1, 0, 0 };
    struct bench b;
    struct options options;
    words = take_options(words, word);
    if (words == 2 && !strcmp(word[1], "--help")) {
        fputs(usage, stdout);
        return 0;
    }
    bool has_options = words > 2 && is_option_command(word[2]);
    if (has_options ? !read_options(words - 2, word + 2, &options) : !read_words(words, word, values, &b))
        return use_wrongly();
    session.address = word[1];
    if (!is_address(session.address)) {
        fprintf(stderr, "nvmehost: %s is no PCI address, such as 0000:00:04.0; lspci -D lists them\n", session.address);
        return SESSION_USAGE;
    }
    if (has_options && options.lacks_host) {
        fprintf(stderr, "nvmehost: %s needs --host-identifier with 32 hexadecimal digits\n", word[2]);
        return SESSION_USAGE;
    }
    if (has_options)
        run_option_command(&options);
    else
        run(word, values, &b);
    if (fflush(stdout))
        session_fail("standard output", strerror(errno));
    session_leave(0);
}
