/* Measures what libnvmehost and its port take for a request: nanoseconds for a Flush and for a Read of 4 KiB, placed,
 * rung and polled, and what a driver in plain C takes for the same commands in the same queues.
 *
 * The controller is in the same thread: it answers each command at once, and moves no data. Its own time is in both.
 * usage: host ROUNDS, built and run by bench/measure host
 */
#include "port.h"

#include "tests/device.h"

#include <stdio.h>
#include <stdlib.h>
#include <string.h>
#include <time.h>

enum { SQ = 0x2000, CQ = 0x3000, ENTRIES = 8, COMPLETIONS = 32, SUBMISSION = 64, COMPLETION = 16, DOORBELL = 0x1008,
       FLUSH = 0, READ = 2, DATA = 0x10000, BATCHES = 15 };

static struct device device;
static struct port port;
static uint64_t end_of_data;

static uint64_t now(void)
{
    struct timespec t;
    clock_gettime(CLOCK_MONOTONIC, &t);
    return (uint64_t)t.tv_sec * 1000000000u + (uint64_t)t.tv_nsec;
}

static void must(bool holds, const char *what)
{
    if (!holds) {
        fprintf(stderr, "host: %s\n", what);
        exit(1);
    }
}

static volatile uint32_t *word(volatile uint8_t *bytes, uint32_t at)
{
    return (volatile uint32_t *)(bytes + at);
}

/* The controller answers all commands of the I/O queue with success. */
static void answer(void)
{
    while (device.head[1] != *word(device.registers, DOORBELL)) {
        uint32_t cid = *word(device.memory, SQ + SUBMISSION * device.head[1]) >> 16;
        device.head[1] = (device.head[1] + 1) % ENTRIES;
        uint32_t to = CQ + COMPLETION * device.tail[1];
        *word(device.memory, to) = 0, *word(device.memory, to + 4) = 0;
        *word(device.memory, to + 8) = device.head[1] | 1u << 16;
        __atomic_thread_fence(__ATOMIC_RELEASE);
        *word(device.memory, to + 12) = cid | device.phase[1] << 16;
        device.tail[1] = (device.tail[1] + 1) % COMPLETIONS;
        device.phase[1] ^= device.tail[1] == 0;
    }
}

static void proved_request(uint8_t opcode)
{
    struct nvmehost_placed placed =
        opcode == FLUSH ? nvmehost_flush(&port.host, 1) : nvmehost_read(&port.host, 1, 0, 8);
    must(placed.code == NVMEHOST_OK, "a request was refused");
    port_perform(&port);
    port_ring(&port);
    answer();
    struct nvmehost_outcome outcome = port_poll(&port);
    must(outcome.code == NVMEHOST_DONE && outcome.ticket == placed.ticket, "a request was not answered");
    end_of_data += port.buffer[4095];
}

/* The state of the driver in plain C, which begins where the proved one has ended. */
static uint32_t tail, head, phase;
static uint16_t next_cid;

static void plain_request(uint8_t opcode)
{
    uint8_t entry[SUBMISSION] = { opcode };
    uint32_t nsid = 1, first[2] = { 0, 0 }, count = 7, completion[4];
    uint64_t prp = DATA;
    memcpy(entry + 2, &next_cid, 2), memcpy(entry + 4, &nsid, 4);
    if (opcode == READ)
        memcpy(entry + 24, &prp, 8), memcpy(entry + 40, first, 8), memcpy(entry + 48, &count, 4);
    memcpy((uint8_t *)port.memory + SQ + SUBMISSION * tail, entry, SUBMISSION);
    tail = (tail + 1) % ENTRIES;
    __atomic_thread_fence(__ATOMIC_SEQ_CST);
    *word(port.registers, DOORBELL) = tail;
    answer();
    volatile uint32_t *from = word(port.memory, CQ + COMPLETION * head);
    must((from[3] >> 16 & 1) == phase, "a command was not answered");
    __atomic_thread_fence(__ATOMIC_ACQUIRE);
    for (int i = 0; i < 4; i++)
        completion[i] = from[i];
    must((completion[3] & 0xffff) == next_cid && completion[3] >> 17 == 0, "another command was answered");
    head = (head + 1) % COMPLETIONS;
    phase ^= head == 0;
    __atomic_thread_fence(__ATOMIC_SEQ_CST);
    *word(port.registers, DOORBELL + 4) = head;
    if (opcode == READ)
        memcpy(port.buffer, (uint8_t *)port.memory + DATA, 4096);
    end_of_data += port.buffer[4095];
    next_cid++;
}

/* The nanoseconds of a request in the quickest batch. */
static double quickest(void (*request)(uint8_t), uint8_t opcode, unsigned rounds, double best)
{
    uint64_t begun = now();
    for (unsigned i = 0; i < rounds; i++)
        request(opcode);
    double each = (double)(now() - begun) / rounds;
    return best == 0 || each < best ? each : best;
}

static void begin(void)
{
    struct nvmehost_outcome outcome;
    port.memory = aligned_alloc(4096, NVMEHOST_WINDOW), port.registers = aligned_alloc(4096, DEVICE_REGISTERS);
    port.buffer = malloc(NVMEHOST_BUFFER), port.copy = malloc(NVMEHOST_BUFFER);
    must(port.memory && port.registers && port.buffer && port.copy, "no memory");
    memset((void *)port.memory, 0, NVMEHOST_WINDOW), memset((void *)port.registers, 0, DEVICE_REGISTERS);
    device_reset(&device, port.memory, port.registers);
    port.registers_len = DEVICE_REGISTERS, port.turn = device_turn, port.turned = &device;
    device_turn(&device);
    must(nvmehost_open(&port.host, 1) == NVMEHOST_OK, "no memory");
    must(port_start(&port, &outcome) == NVMEHOST_OK, "the controller did not come up");
    for (uint32_t nsid = 0; nsid < 2; nsid++)
        must(port_answer(&port, nvmehost_ask(&port.host, nsid), 1000).code == NVMEHOST_DONE, "Identify failed");
}

int main(int words, char **given)
{
    unsigned rounds = words == 2 ? (unsigned)strtoul(given[1], NULL, 10) : 0;
    double best[2][2] = { { 0 } };
    static const uint8_t opcodes[2] = { FLUSH, READ };
    if (rounds == 0)
        return 2;
    for (int batch = 0; batch < BATCHES; batch++) {
        begin();
        for (int i = 0; i < 2; i++)
            best[0][i] = quickest(proved_request, opcodes[i], rounds, best[0][i]);
        tail = device.head[1], head = device.tail[1], phase = device.phase[1];
        for (int i = 0; i < 2; i++)
            best[1][i] = quickest(plain_request, opcodes[i], rounds, best[1][i]);
        nvmehost_close(&port.host);
        free((void *)port.memory), free((void *)port.registers), free(port.buffer), free(port.copy);
    }
    printf("nanoseconds      libnvmehost  plain C\nFlush            %11.0f  %7.0f\nRead of 4 KiB    %11.0f  %7.0f\n",
           best[0][0], best[1][0], best[0][1], best[1][1]);
    return end_of_data == UINT64_MAX;
}
