/* Hostile hosts: random events, of hosts that write any bytes into their queues and any registers. It prints the lines
 * that nvmelive takes for these events to LINES, and what each gave as nvmelive answers to ANSWERS, so that both can be
 * compared: the same answers, and the same bytes in the image. None of the three files may exist.
 *
 *     cc hostile.c $(pkg-config --cflags --libs nvmesim) -o hostile && truncate -s 32K other.img
 *     ./hostile 1000000 1 one.img LINES ANSWERS && nvmelive other.img <LINES | cmp - ANSWERS && cmp one.img other.img
 */
#define _POSIX_C_SOURCE 200809L
#include <fcntl.h>
#include <inttypes.h>
#include <nvmesim.h>
#include <stdio.h>
#include <stdlib.h>
#include <string.h>
#include <sys/mman.h>
#include <unistd.h>

enum { HOSTS = 3, BLOCKS = 64, SIZE = BLOCKS * 512, ENTRIES = 16 };
enum { ADMIN_SQ = 0, ADMIN_CQ = 0x1000, IO_SQ = 0x2000, IO_CQ = 0x3000, DATA = 0x10000 };

static nvmesim sim = NVMESIM_NONE;
static FILE *lines, *answers;
static uint64_t state;

/* A number below `limit`, by xorshift. */
static uint32_t any(uint32_t limit) {
    state ^= state << 13;
    state ^= state >> 7;
    state ^= state << 17;
    return (uint32_t)(state >> 32) % limit;
}

static void store(uint16_t host, uint64_t address, const uint8_t *bytes, size_t count) {
    fprintf(lines, "store %u %" PRIu64 " hex:", host, address);
    for (size_t i = 0; i < count; i++)
        fprintf(lines, "%02x", bytes[i]);
    fputc('\n', lines);
    nvmesim_answer answer = nvmesim_store(&sim, host, address, bytes, count);
    fprintf(answers, "%s %u\n", answer.what == NVMESIM_STORED ? "stored" : "outside", host);
}

static void write_register(uint16_t host, uint64_t offset, uint32_t value) {
    fprintf(lines, "write32 %u %" PRIu64 " %" PRIu32 "\n", host, offset, value);
    nvmesim_write32(&sim, host, offset, value);
    fprintf(answers, "wrote32 %u\n", host);
}

static void fetch(uint16_t host, uint16_t qid) {
    fprintf(lines, "fetch %u %u\n", host, qid);
    nvmesim_answer answer = nvmesim_fetch(&sim, host, qid);
    fprintf(answers, "fetch %u %u %s\n", host, qid, answer.what == NVMESIM_TOOK ? "took" : "idle");
}

static void execute(uint16_t host, uint32_t i) {
    fprintf(lines, "execute %u %" PRIu32 "\n", host, i);
    nvmesim_answer answer = nvmesim_execute(&sim, host, i);
    fprintf(answers, "execute %u %" PRIu32 " ", host, i);
    if (answer.what == NVMESIM_POSTED)
        fprintf(answers, "posted %x:%02x %u\n", answer.sct, answer.sc, answer.rule);
    else
        fprintf(answers, "%s\n", answer.what == NVMESIM_CQ_FULL ? "full" : "none");
}

static void submit(uint16_t host, uint64_t at, uint8_t opcode, uint32_t nsid, uint64_t prp1, uint32_t dw10,
                   uint32_t dw11, uint32_t dw12) {
    uint8_t entry[64] = {opcode};
    memcpy(entry + 4, &nsid, 4);
    memcpy(entry + 24, &prp1, 8);
    memcpy(entry + 40, &dw10, 4);
    memcpy(entry + 44, &dw11, 4);
    memcpy(entry + 48, &dw12, 4);
    store(host, at, entry, sizeof entry);
}

/* Enables a controller and creates a pair of I/O queues, if the host has not made that impossible. */
static void up(uint16_t host) {
    const uint32_t last = ENTRIES - 1;
    write_register(host, 0x14, 0);
    write_register(host, 0x24, last << 16 | last);
    write_register(host, 0x28, ADMIN_SQ);
    write_register(host, 0x30, ADMIN_CQ);
    write_register(host, 0x14, 0x00460001);
    submit(host, ADMIN_SQ, 0x05, 0, IO_CQ, last << 16 | 1, 1, 0);
    submit(host, ADMIN_SQ + 64, 0x01, 0, IO_SQ, last << 16 | 1, 1 << 16 | 1, 0);
    write_register(host, 0x1000, 2);
    for (int i = 0; i < 2; i++) {
        fetch(host, 0);
        execute(host, 0);
    }
    write_register(host, 0x1004, 2);
}

/* Some event or other. */
static void event(void) {
    static const uint8_t opcodes[] = {0x00, 0x01, 0x01, 0x02, 0x05, 0x08, 0x09,
                                      0x0d, 0x0e, 0x11, 0x15, 0x06, 0x0a, 0xff};
    static const uint64_t places[] = {DATA, DATA + 8, DATA + 4096, 4194304 - 512, 4194304, 1};
    static const uint16_t offsets[] = {0x1000, 0x1004, 0x1008, 0x1008, 0x1008, 0x100c, 0x100c, 0x1010, 0x24, 0x9999};
    uint16_t host = (uint16_t)(1 + any(HOSTS));
    uint8_t bytes[16];
    switch (any(16)) {
    case 0: case 1: case 2: case 3: case 4:
        submit(host, IO_SQ + 64 * any(ENTRIES), opcodes[any(sizeof opcodes)], 1 + any(8) / 7, places[any(6)],
               any(8) ? any(5) | any(3) << 8 : any(80), any(30) ? 0 : 1, any(3));
        break;
    case 5: case 6:
        for (size_t i = 0; i < sizeof bytes; i++)
            bytes[i] = (uint8_t)(i % 8 ? 0 : any(4));
        store(host, places[any(6)], bytes, sizeof bytes);
        break;
    case 7: case 8: case 9:
        write_register(host, offsets[any(10)], any(ENTRIES));
        break;
    case 10: case 11: case 12:
        fetch(host, (uint16_t)any(3));
        break;
    case 13: case 14:
        execute(host, any(8) ? 0 : any(4));
        break;
    default:
        if (any(100) == 0) {
            fputs("powercycle\n", lines);
            nvmesim_power_cycle(&sim);
            fputs("powercycle\n", answers);
        } else if (any(20) == 0) {
            up(host);
        }
    }
}

static void fail(const char *path) {
    perror(path);
    exit(1);
}

/* A new file of this size, which is mapped. */
static uint8_t *mapped(const char *path) {
    int file = open(path, O_RDWR | O_CREAT | O_EXCL, 0600);
    void *at = MAP_FAILED;
    if (file >= 0 && ftruncate(file, SIZE) == 0)
        at = mmap(NULL, SIZE, PROT_READ | PROT_WRITE, MAP_SHARED, file, 0);
    if (at == MAP_FAILED)
        fail(path);
    close(file);
    return at;
}

/* A new file of lines. */
static FILE *written(const char *path) {
    FILE *file = fopen(path, "wx");
    if (!file)
        fail(path);
    return file;
}

int main(int count, char **words) {
    nvmesim_controller controllers[HOSTS];
    nvmesim_attached attached[HOSTS];
    const nvmesim_namespace namespaces[] = {{BLOCKS, 1, true}};
    if (count != 6) {
        fprintf(stderr, "usage: hostile EVENTS SEED IMAGE LINES ANSWERS\n");
        return 2;
    }
    long events = atol(words[1]);
    state = strtoull(words[2], NULL, 0) * 2 + 1;
    uint8_t *blocks = mapped(words[3]);
    lines = written(words[4]);
    answers = written(words[5]);
    for (uint16_t i = 0; i < HOSTS; i++) {
        controllers[i] = (nvmesim_controller){0xa1u + i, i, (uint16_t)(i + 1), true};
        attached[i] = (nvmesim_attached){1, (uint16_t)(i + 1)};
        fprintf(lines, "controller %d host 0x%x%016x raw\n", i + 1, i, 0xa1 + i);
    }
    fprintf(lines, "namespace 1 blocks %d shared\n", BLOCKS);
    for (int i = 0; i < HOSTS; i++)
        fprintf(lines, "attached %d 1\n", i + 1);
    fputs("start\n", lines);
    for (int i = 0; i < 2 * HOSTS + 1; i++)
        fputs("ok\n", answers);
    fputs("started\n", answers);
    if (nvmesim_open_lent(&sim, NVMESIM_VERSION, NVMESIM_ANY_SIZE, controllers, HOSTS, namespaces, 1, attached, HOSTS,
                          (nvmesim_bytes){blocks, SIZE}) != NVMESIM_OK)
        return 1;
    for (uint16_t i = 1; i <= HOSTS; i++)
        up(i);
    for (long i = 0; i < events; i++)
        event();
    nvmesim_close(&sim);
    munmap(blocks, SIZE);
    return fclose(lines) || fclose(answers);
}
