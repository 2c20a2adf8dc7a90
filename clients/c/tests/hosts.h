/* Two hosts, for tests of the library through its header alone. */
#ifndef HOSTS_H
#define HOSTS_H

#include <nvmesim.h>
#include <stdio.h>
#include <stdlib.h>
#include <string.h>

/* How many checks have failed. */
extern int failures;

#define CHECK(holds) \
    do { \
        if (!(holds)) { \
            fprintf(stderr, "%s:%d: not so: %s\n", __FILE__, __LINE__, #holds); \
            failures++; \
        } \
    } while (0)

enum { CC = 0x14, CSTS = 0x1c, AQA = 0x24, ASQ = 0x28, ACQ = 0x30, DOORBELLS = 0x1000 };
enum { ADMIN_CQ = 0x1000, IO_SQ = 0x2000, IO_CQ = 0x3000, DATA = 0x10000, ENTRIES = 16, WINDOW = 4194304 };

/* A configuration of two hosts that share a namespace of 64 blocks, and its medium. */
extern const nvmesim_controller two[2];
extern const nvmesim_namespace shared[1];
extern const nvmesim_attached both[2];
extern const uint8_t zeros[64 * 512];

/* Opens it. */
uint32_t open_two(nvmesim *sim);

/* A submission queue entry: its opcode, namespace, PRP entry 1, and double words 10 and 11. */
void entry(uint8_t bytes[64], uint8_t opcode, uint32_t nsid, uint64_t prp1, uint32_t dw10, uint32_t dw11);

/* Stores an entry at this slot of a submission queue, rings, fetches and executes. */
nvmesim_answer by_calls(nvmesim *sim, uint16_t cntlid, uint16_t qid, uint32_t at, const uint8_t bytes[64]);

/* Enables a controller and creates a pair of I/O queues. */
void up(nvmesim *sim, uint16_t cntlid);

/* Tests commands that are placed, and completed later. */
void placing(void);

/* Tests what fetched commands need. */
void needs(void);

/* Tests commands over brought blocks. */
void brought(void);

/* Tests PDUs of NVMe/TCP. */
void pdus(void);
void connections(void);
void responses(void);
void buffers(void);
void journals(void);
void transfers(void);
void capsules(void);

#endif
