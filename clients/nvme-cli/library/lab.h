// What the files of the preloaded library share. It answers for NVMe devices that are no devices: commands go to the
// lab's server, and what is under sys is files of the lab. Everything else goes to the C library unchanged.
#ifndef LAB_H
#define LAB_H

#include <limits.h>
#include <stdbool.h>
#include <stddef.h>
#include <stdint.h>
#include <sys/uio.h>

// A host's view: the path of a folder with the socket of the server, and with dev and sys as that host has them.
#define LAB_VIEW "NVME_LAB"

enum lab_kind { LAB_NO_PATH, LAB_DEVICE_PATH, LAB_OTHER_PATH };

// One of our devices: a controller by its number in the view, and a namespace, or 0 for the controller itself.
struct lab_device {
    uint32_t controller;
    uint32_t nsid;
    bool is_block;
};

// An open block device.
struct lab_disk {
    struct lab_device device;
    uint64_t size, position;
    int access;
    bool is_direct, is_sync;
};

// The function of the same name that comes after this one, found once. A C library may lack it; then nothing calls it.
#define NEXT(name) (__extension__(__typeof__(&name))lab_next(#name, &next_##name))
#define FOUND_ONCE(name) static void *next_##name
void *lab_next(const char *name, void **found);

// disk.c
int lab_open_disk(const char *place, int flags);
bool lab_disk_of(int fd, struct lab_disk *disk);
int lab_flags_of(const struct lab_disk *disk);
int lab_set_flags(int fd, struct lab_disk *disk, int flags);
off_t lab_seek(int fd, struct lab_disk *disk, off_t offset, int whence);
int lab_flush(const struct lab_disk *disk);
int lab_zero(const struct lab_disk *disk, uint64_t at, uint64_t length);
ssize_t lab_move(const struct lab_disk *disk, const struct iovec *parts, int count, off_t offset, bool writes);
ssize_t lab_move_on(int fd, struct lab_disk *disk, const struct iovec *parts, int count, bool writes);

// paths.c
enum lab_kind lab_place(const char *path, char place[PATH_MAX]);
bool lab_says_nothing(const char *path);
bool lab_named(const char *name, struct lab_device *device);
bool lab_opened(int fd, struct lab_device *device);
bool lab_view_path(const char *name, char *place, size_t room);
uint64_t lab_blocks(const struct lab_device *device);

// wire.c
enum lab_asking { LAB_COMMAND = 1, LAB_RESET = 2, LAB_LOOK = 3 };

// The location of a command's data. There may be none (`count` 0); `is_mapped` is false if there is a length, and no
// address.
struct lab_data {
    struct iovec *parts;
    int count;
    uint32_t length;
    bool is_mapped;
};

// A request to the server, and what it answers: an error number, or 0 and a completion entry.
struct lab_request {
    enum lab_asking asking;
    struct lab_device device;
    bool is_admin;
    uint8_t entry[64];
    struct lab_data data;
    uint8_t completion[16];
};

// 0, or -1 with errno.
int lab_ask(struct lab_request *request);

// ioctl.c
int lab_control(const struct lab_device *device, unsigned long request, void *argument);

// Little-endian numbers.
static inline void lab_put(uint8_t *at, uint64_t value, int bytes) {
    for (int i = 0; i < bytes; i++) {
        at[i] = (uint8_t)(value >> (8 * i));
    }
}

static inline uint64_t lab_get(const uint8_t *at, int bytes) {
    uint64_t value = 0;
    for (int i = 0; i < bytes; i++) {
        value |= (uint64_t)at[i] << (8 * i);
    }
    return value;
}

#endif
