// The client of the tests: a program that only opens devices and makes the ioctls of linux/nvme_ioctl.h, with checks.
#ifndef CLIENT_H
#define CLIENT_H

#include <linux/nvme_ioctl.h>
#include <stdbool.h>
#include <stdint.h>
#include <stdio.h>
#include <stdlib.h>

#define BLOCK 512u
#define PAGE 4096u
#define MOST (32 * PAGE)

// Opcodes.
enum {
    DELETE_SQ = 0x00, CREATE_SQ = 0x01, DELETE_CQ = 0x04, CREATE_CQ = 0x05, IDENTIFY = 0x06,
    SET_FEATURES = 0x09, GET_FEATURES = 0x0a, ATTACHMENT = 0x15,
    FLUSH = 0x00, WRITE = 0x01, READ = 0x02, COMPARE = 0x05, ZEROES = 0x08,
    REGISTER = 0x0d, REPORT = 0x0e, ACQUIRE = 0x11, RELEASE = 0x15,
};

// Statuses: the type in bits 10 to 8, the code below.
enum {
    SUCCESS = 0, INVALID_OPCODE = 0x01, INVALID_FIELD = 0x02, DATA_TRANSFER = 0x04, INVALID_NAMESPACE = 0x0b,
    SEQUENCE = 0x0c, INCONSISTENT_FORMAT = 0x18, PROTECTED = 0x20, OUT_OF_RANGE = 0x80, CONFLICT = 0x83,
    NO_CQ = 0x100, INVALID_QUEUE = 0x101, INVALID_DELETION = 0x10c, NOT_SAVEABLE = 0x10d,
    ALREADY_ATTACHED = 0x118, IS_PRIVATE = 0x119, NOT_ATTACHED = 0x11a, MISCOMPARE = 0x285,
};

#define CHECK(it)                                                                                                      \
    do {                                                                                                               \
        if (!(it)) {                                                                                                   \
            fail(__FILE__, __LINE__, #it);                                                                             \
        }                                                                                                              \
    } while (0)
#define CHECK_IS(it, wanted) check_is(__FILE__, __LINE__, #it, it, wanted)
// A call that fails with this error number.
#define CHECK_FAILS(it, why) check_fails(__FILE__, __LINE__, #it, it, why)

void fail(const char *file, int line, const char *what);
void check_is(const char *file, int line, const char *what, long long found, long long wanted);
void check_fails(const char *file, int line, const char *what, int found, int why);

// Whether the hosts have drivers, whose requests can express fewer commands than a raw host.
extern bool has_driver;
// The expected status of a command with a field that no request can express: `status`, or Invalid Field with drivers.
int of_raw(int status);

int open_device(const char *name);
void fill(uint8_t *at, size_t length, unsigned seed);
bool is_filled(const uint8_t *at, size_t length, unsigned seed);
// A buffer of `length` bytes at an offset of its page, followed by 64 guard bytes of A5h.
uint8_t *room_at(size_t length, size_t offset);
bool is_guarded(const uint8_t *room, size_t length);

// Executes a command. Returns its status, or -1 with errno.
int admin(int fd, uint8_t opcode, uint32_t nsid, uint32_t cdw10, uint32_t cdw11, void *data, uint32_t length);
int io(int fd, uint8_t opcode, uint32_t nsid, uint32_t cdw10, uint32_t cdw11, uint32_t cdw12, void *data,
       uint32_t length);
int on_blocks(int fd, uint8_t opcode, uint64_t first, uint32_t count, void *data);
// Double word 0 of the last completion.
extern uint32_t result;

void try_admin(void);
void try_queues(void);
void try_attachment(void);
void try_blocks(void);
void try_pointers(void);
void try_reservations(void);
void try_unsaid(void);
void try_unread(void);
void try_files(void);
void try_disk(void);
void try_others(void);
void hammer(const char *device, unsigned first, unsigned rounds);

#endif
