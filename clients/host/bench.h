/* Random reads or writes at a queue depth, for a time, and how long each took. */
#ifndef NVMEHOST_BENCH_H
#define NVMEHOST_BENCH_H

#include "port.h"

/* The highest depth. */
enum { BENCH_DEPTH = 24 };
struct bench {
    uint32_t nsid, blocks, depth, seconds, timeout_ms;
    uint64_t namespace_blocks;
    bool is_write;
};

/* Latencies in nanoseconds are counted in ranges whose ends differ by a 32nd. */
enum { BENCH_STEPS = 32, BENCH_RANGES = 60 * BENCH_STEPS };
struct bench_result {
    uint64_t requests, nanoseconds, least, most, sum, counts[BENCH_RANGES];
};

/* Sends requests until the time is over, and then waits for the last answers: NVMEHOST_OK, or why it ended. With
 * NVMEHOST_DONE the controller answered the status in `outcome`, which is not success. With NVMEHOST_NOTHING no answer
 * came in timeout_ms, and the request with the ticket in `outcome` waits for the longest time. */
uint32_t bench_run(struct port *p, const struct bench *b, struct bench_result *r, struct nvmehost_outcome *outcome);
/* The latency that this share of the requests did not exceed, in thousandths of a percent, to a 32nd. */
uint64_t bench_percentile(const struct bench_result *r, uint32_t share);

#endif
