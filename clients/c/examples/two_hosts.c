/* Two hosts share a namespace. Host a1h reserves it, and from then on a write of host b2h is fenced.
 *
 *     cc two_hosts.c $(pkg-config --cflags --libs nvmesim) && ./a.out
 */
#include <nvmesim.h>
#include <stdio.h>
#include <stdlib.h>
#include <string.h>

/* The layout of each host's memory: queues of the admin and of one I/O pair, and a page of data. */
enum { ADMIN_SQ = 0x0000, ADMIN_CQ = 0x1000, IO_SQ = 0x2000, IO_CQ = 0x3000, DATA = 0x10000 };
enum { ENTRIES = 16 };

/* Offsets of registers, and opcodes. */
enum { CC = 0x14, AQA = 0x24, ASQ = 0x28, ACQ = 0x30, DOORBELLS = 0x1000 };
enum { CREATE_SQ = 0x01, CREATE_CQ = 0x05 };
enum { WRITE = 0x01, READ = 0x02, RESERVATION_REGISTER = 0x0d, RESERVATION_ACQUIRE = 0x11 };

typedef struct {
    nvmesim *sim;
    uint16_t cntlid;
    uint32_t tails[2]; /* of the admin and of the I/O submission queue */
} host;

typedef struct {
    uint8_t opcode;
    uint32_t nsid;
    uint64_t prp1;
    uint32_t dw10, dw11, dw12;
} command;

static void must(nvmesim_answer answer, uint32_t wanted) {
    if (answer.what != wanted) {
        fprintf(stderr, "answered %u, not %u\n", answer.what, wanted);
        exit(1);
    }
}

static void put(const host *h, uint64_t address, const void *bytes, size_t count) {
    must(nvmesim_store(h->sim, h->cntlid, address, bytes, count), NVMESIM_STORED);
}

static void write_register(const host *h, uint64_t offset, uint32_t value) {
    must(nvmesim_write32(h->sim, h->cntlid, offset, value), NVMESIM_WROTE);
}

/* Submits a command to queue 0 or 1, has it fetched and executed, and takes its completion. */
static nvmesim_answer submit(host *h, uint16_t qid, command c) {
    uint8_t entry[64] = {c.opcode};
    memcpy(entry + 4, &c.nsid, 4);
    memcpy(entry + 24, &c.prp1, 8);
    memcpy(entry + 40, &c.dw10, 4);
    memcpy(entry + 44, &c.dw11, 4);
    memcpy(entry + 48, &c.dw12, 4);
    put(h, (qid ? IO_SQ : ADMIN_SQ) + 64 * h->tails[qid], entry, sizeof entry);
    h->tails[qid] = (h->tails[qid] + 1) % ENTRIES;
    write_register(h, DOORBELLS + 8 * qid, h->tails[qid]);
    must(nvmesim_fetch(h->sim, h->cntlid, qid), NVMESIM_TOOK);
    nvmesim_answer answer = nvmesim_execute(h->sim, h->cntlid, 0);
    must(answer, NVMESIM_POSTED);
    write_register(h, DOORBELLS + 8 * qid + 4, h->tails[qid]);
    return answer;
}

/* Enables the controller, and creates a pair of I/O queues. */
static host up(nvmesim *sim, uint16_t cntlid) {
    host h = {sim, cntlid, {0, 0}};
    write_register(&h, AQA, (ENTRIES - 1) << 16 | (ENTRIES - 1));
    write_register(&h, ASQ, ADMIN_SQ);
    write_register(&h, ACQ, ADMIN_CQ);
    write_register(&h, CC, 4 << 20 | 6 << 16 | 1); /* entries of 16 and 64 bytes; enable */
    submit(&h, 0, (command){CREATE_CQ, 0, IO_CQ, (ENTRIES - 1) << 16 | 1, 1, 0});
    submit(&h, 0, (command){CREATE_SQ, 0, IO_SQ, (ENTRIES - 1) << 16 | 1, 1 << 16 | 1, 0});
    return h;
}

static void tell(const char *what, nvmesim_answer answer) {
    printf("%s: status %x:%02x", what, answer.sct, answer.sc);
    if (answer.rule)
        printf(", denied by rule %u", answer.rule);
    printf("\n");
}

int main(void) {
    static const nvmesim_controller controllers[] = {{0xa1, 0, 1, true}, {0xb2, 0, 2, true}};
    static const nvmesim_namespace namespaces[] = {{64, 1, true}};
    static const nvmesim_attached attached[] = {{1, 1}, {1, 2}};
    static const uint8_t zeros[64 * 512];
    nvmesim sim = NVMESIM_NONE;
    uint32_t opened = nvmesim_open(&sim, NVMESIM_VERSION, NVMESIM_ANY_SIZE, controllers, 2, namespaces, 1, attached, 2,
                                   zeros, sizeof zeros);
    if (opened != NVMESIM_OK) {
        fprintf(stderr, "not opened: %u\n", opened);
        return 1;
    }
    host a = up(&sim, 1), b = up(&sim, 2);

    const uint64_t key = 0x11, new_key[] = {0, key}, current_key[] = {key, 0};
    put(&a, DATA, new_key, sizeof new_key);
    tell("a1h registers", submit(&a, 1, (command){RESERVATION_REGISTER, 1, DATA, 0, 0, 0}));
    put(&a, DATA, current_key, sizeof current_key);
    tell("a1h acquires Write Exclusive", submit(&a, 1, (command){RESERVATION_ACQUIRE, 1, DATA, 1 << 8, 0, 0}));

    uint8_t block[512], read[512];
    memset(block, 0xb2, sizeof block);
    put(&b, DATA, block, sizeof block);
    tell("b2h writes", submit(&b, 1, (command){WRITE, 1, DATA, 0, 0, 0}));
    memset(block, 0xa1, sizeof block);
    put(&a, DATA, block, sizeof block);
    tell("a1h writes", submit(&a, 1, (command){WRITE, 1, DATA, 0, 0, 0}));

    tell("b2h reads", submit(&b, 1, (command){READ, 1, DATA, 0, 0, 0}));
    nvmesim_load(&sim, 2, DATA, read, sizeof read);
    printf("b2h has read %s\n", memcmp(read, block, sizeof read) ? "something else" : "what a1h wrote");
    nvmesim_close(&sim);
    return 0;
}
