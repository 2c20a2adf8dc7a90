#include "commands.h"
#include "session.h"

#include <getopt.h>
#include <stdio.h>
#include <string.h>

/* The options, and what each one is in the list of getopt. */
enum { HOST = 1, IEKEY, ACTION, RTYPE, CPTPL, CRKEY, OTHER_KEY, ENABLE };

#define TAKES(name, kind) { name, required_argument, NULL, kind }
#define IS(name, kind) { name, no_argument, NULL, kind }
static const struct option none[] = { TAKES("host-identifier", HOST), { 0 } };
static const struct option of_register[] = { TAKES("host-identifier", HOST), TAKES("rrega", ACTION),
    TAKES("crkey", CRKEY), TAKES("nrkey", OTHER_KEY), TAKES("cptpl", CPTPL), IS("iekey", IEKEY), { 0 } };
static const struct option of_acquire[] = { TAKES("host-identifier", HOST), TAKES("racqa", ACTION),
    TAKES("crkey", CRKEY), TAKES("prkey", OTHER_KEY), TAKES("rtype", RTYPE), { 0 } };
static const struct option of_release[] = { TAKES("host-identifier", HOST), TAKES("rrela", ACTION),
    TAKES("crkey", CRKEY), TAKES("rtype", RTYPE), { 0 } };
static const struct option of_events[] = { TAKES("host-identifier", HOST), TAKES("enable", ENABLE), { 0 } };
static const struct { const char *name; const struct option *options; bool needs_host, has_nsid; } commands[] = {
    { "resv-register", of_register, true, true }, { "resv-acquire", of_acquire, true, true },
    { "resv-release", of_release, true, true }, { "resv-report", none, false, true },
    { "events", of_events, false, false } };
enum { COMMANDS = sizeof commands / sizeof *commands };

static int command_of(const char *word)
{
    for (int i = 0; i < COMMANDS; i++)
        if (!strcmp(word, commands[i].name))
            return i;
    return -1;
}

bool is_option_command(const char *word)
{
    return command_of(word) >= 0;
}

bool read_host(const char *text, uint8_t host[HOST_BYTES])
{
    if (strlen(text) != 2 * HOST_BYTES || strspn(text, "0123456789abcdefABCDEF") != 2 * HOST_BYTES)
        return false;
    for (int i = 0; i < HOST_BYTES; i++) {
        unsigned byte;
        sscanf(text + 2 * i, "%2x", &byte);
        host[i] = (uint8_t)byte;
    }
    return true;
}

/* Judges an option; whether it is right. */
static bool read_option(int kind, struct options *o)
{
    uint64_t value;
    if (kind == HOST) {
        o->names_host = true, o->has_host = read_host(optarg, o->host), o->lacks_host = !o->has_host;
        return true;
    }
    if (kind == IEKEY)
        return o->iekey = true;
    uint64_t most = kind == ACTION ? 7 : kind == CPTPL ? 3 : kind == RTYPE ? UINT8_MAX
        : kind == ENABLE ? UINT32_MAX : UINT64_MAX;
    if (kind == '?' || !session_number(optarg, most, &value))
        return false;
    if (kind == ACTION)
        o->action = (uint8_t)value;
    else if (kind == RTYPE)
        o->rtype = (uint8_t)value;
    else if (kind == CPTPL)
        o->cptpl = (uint8_t)value;
    else if (kind == ENABLE)
        o->enables = true, o->events = (uint32_t)value;
    else if (kind == CRKEY)
        o->crkey = value;
    else
        o->other_key = value;
    return true;
}

bool read_options(int words, char **word, struct options *o)
{
    int which = command_of(word[0]), kind;
    uint64_t nsid = 0;
    memset(o, 0, sizeof *o);
    o->command = word[0], o->lacks_host = commands[which].needs_host;
    opterr = 0, optind = 0; /* from the first word, also after other commands */
    while ((kind = getopt_long(words, word, "", commands[which].options, NULL)) != -1)
        if (!read_option(kind, o))
            return false;
    if (words - optind != commands[which].has_nsid)
        return false;
    if (commands[which].has_nsid && !session_number(word[optind], UINT32_MAX, &nsid))
        return false;
    o->nsid = (uint32_t)nsid;
    return true;
}
