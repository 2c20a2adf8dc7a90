#include "bench.h"

#include <stdlib.h>
#include <string.h>
#include <time.h>

static const uint64_t second = 1000000000;

static uint64_t now(void)
{
    struct timespec t;
    clock_gettime(CLOCK_MONOTONIC, &t);
    return (uint64_t)t.tv_sec * second + (uint64_t)t.tv_nsec;
}

/* xorshift64*, so that two runs send the same requests. */
static uint64_t next_random(uint64_t *state)
{
    *state ^= *state >> 12, *state ^= *state << 25, *state ^= *state >> 27;
    return *state * 0x2545f4914f6cdd1d;
}

/* The range of a latency: those below 32 have their own, and each power of two has 32. */
static size_t range_of(uint64_t latency)
{
    unsigned power = 0;
    while (latency >> power >= 2 * BENCH_STEPS)
        power++;
    size_t range = latency < BENCH_STEPS ? latency : power * BENCH_STEPS + (latency >> power);
    return range < BENCH_RANGES ? range : BENCH_RANGES - 1;
}

/* The highest latency of a range. */
static uint64_t end_of(size_t range)
{
    uint64_t power = range < 2 * BENCH_STEPS ? 0 : range / BENCH_STEPS - 1;
    return ((range - power * BENCH_STEPS + 1) << power) - 1;
}

static void count(struct bench_result *r, uint64_t latency)
{
    r->requests++;
    r->sum += latency;
    r->least = latency < r->least ? latency : r->least;
    r->most = latency > r->most ? latency : r->most;
    r->counts[range_of(latency)]++;
}

/* The requests that wait for their answers: their tickets, and when each was sent. */
struct waiting {
    uint64_t ticket[BENCH_DEPTH], sent[BENCH_DEPTH];
    uint32_t count;
};

/* Takes a ticket out of those that wait; when it was sent, or 0 if it does not wait. */
static uint64_t take(struct waiting *w, uint64_t ticket)
{
    for (uint32_t i = 0; i < w->count; i++) {
        if (w->ticket[i] != ticket)
            continue;
        uint64_t sent = w->sent[i];
        w->count--;
        w->ticket[i] = w->ticket[w->count], w->sent[i] = w->sent[w->count];
        return sent;
    }
    return 0;
}

/* The ticket that waits for the longest time, of one or more. */
static uint64_t oldest(const struct waiting *w)
{
    uint32_t found = 0;
    for (uint32_t i = 1; i < w->count; i++)
        found = w->sent[i] < w->sent[found] ? i : found;
    return w->ticket[found];
}

/* Places requests up to the depth, as long as there is room: NVMEHOST_OK, or why one was refused. */
static uint32_t place(struct port *p, const struct bench *b, struct waiting *w, uint64_t *random, const uint8_t *data)
{
    uint64_t places = b->namespace_blocks / b->blocks;
    bool is_placed = false;
    while (w->count < b->depth && w->count < BENCH_DEPTH) {
        uint64_t slba = next_random(random) % places * b->blocks;
        struct nvmehost_placed placed = b->is_write
            ? nvmehost_write(&p->host, b->nsid, slba, data, 512 * (size_t)b->blocks)
            : nvmehost_read(&p->host, b->nsid, slba, b->blocks);
        if (placed.code == NVMEHOST_RING_FULL || placed.code == NVMEHOST_NO_SLOT)
            break;
        if (placed.code != NVMEHOST_OK)
            return placed.code;
        port_perform(p);
        w->ticket[w->count] = placed.ticket, w->sent[w->count] = now();
        w->count++, is_placed = true;
    }
    if (is_placed)
        port_ring(p);
    return NVMEHOST_OK;
}

uint32_t bench_run(struct port *p, const struct bench *b, struct bench_result *r, struct nvmehost_outcome *outcome)
{
    static uint8_t data[NVMEHOST_BUFFER];
    struct waiting w = { .count = 0 };
    uint64_t random = 0x9e3779b97f4a7c15, begun = now(), end = begun + b->seconds * second;
    uint64_t heard = begun, looked = begun, time = begun;
    memset(r, 0, sizeof *r), memset(outcome, 0, sizeof *outcome);
    r->least = UINT64_MAX;
    while (time < end || w.count != 0) {
        uint32_t what = time < end ? place(p, b, &w, &random, data) : NVMEHOST_OK;
        if (what != NVMEHOST_OK)
            return what;
        *outcome = port_poll(p);
        time = now();
        if (outcome->code == NVMEHOST_DONE) {
            if (outcome->sct != 0 || outcome->sc != 0)
                return NVMEHOST_DONE;
            count(r, time - take(&w, outcome->ticket));
            heard = time;
        } else if (outcome->code != NVMEHOST_NOTHING) {
            return outcome->code;
        } else if (time - looked > second / 1000) {
            looked = time, outcome->ticket = oldest(&w);
            what = port_health(p);
            if (what != NVMEHOST_OK) {
                nvmehost_expire(&p->host, outcome->ticket);
                return what;
            }
            if (time - heard > b->timeout_ms * (second / 1000))
                return NVMEHOST_NOTHING;
        } else if (p->turn) {
            p->turn(p->turned);
        }
    }
    r->nanoseconds = time - begun;
    return NVMEHOST_OK;
}

uint64_t bench_percentile(const struct bench_result *r, uint32_t share)
{
    uint64_t seen = 0;
    size_t range = 0;
    for (; range < BENCH_RANGES - 1; range++) {
        seen += r->counts[range];
        if (seen * 100000 >= r->requests * (uint64_t)share && seen != 0)
            break;
    }
    uint64_t end = end_of(range);
    return end < r->most ? end : r->most;
}
