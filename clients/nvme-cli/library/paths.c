// Which paths are the lab's, where what they name is, and which descriptors are those of its devices.
#define _GNU_SOURCE
#include "lab.h"

#include <ctype.h>
#include <errno.h>
#include <fcntl.h>
#include <stdio.h>
#include <stdlib.h>
#include <string.h>
#include <unistd.h>

// A folder of devices holds other devices too, so that a digit has to follow the name, as ours do.
static const char *const device_heads[] = {"/dev/nvme", "/dev/ng", NULL};
static const char *const block_heads[] = {"/sys/block/nvme", "/sys/class/block/nvme", NULL};
// Everything below this is the lab's.
static const char *const folders[] = {"/sys/class/nvme", "/sys/class/nvme-subsystem", "/sys/class/nvme-generic", NULL};

static bool goes_on_with_digit(const char *path, const char *const *heads) {
    for (; *heads; heads++) {
        size_t length = strlen(*heads);
        if (strncmp(path, *heads, length) == 0 && isdigit((unsigned char)path[length])) {
            return true;
        }
    }
    return false;
}

static bool is_in_folder(const char *path) {
    for (const char *const *folder = folders; *folder; folder++) {
        size_t length = strlen(*folder);
        if (strncmp(path, *folder, length) == 0 && (path[length] == 0 || path[length] == '/')) {
            return true;
        }
    }
    return false;
}

// A path of the host's view; false if there is no lab, or no room.
bool lab_view_path(const char *name, char *place, size_t room) {
    const char *view = getenv(LAB_VIEW);
    if (!view || view[0] != '/') {
        return false;
    }
    int length = snprintf(place, room, "%s%s", view, name);
    return length > 0 && (size_t)length < room;
}

// What a path names, and where it is in the view, if it is one of the lab's.
enum lab_kind lab_place(const char *path, char place[PATH_MAX]) {
    if (!path || path[0] != '/') {
        return LAB_NO_PATH;
    }
    bool is_device = goes_on_with_digit(path, device_heads);
    if (!is_device && !goes_on_with_digit(path, block_heads) && !is_in_folder(path)) {
        return LAB_NO_PATH;
    }
    if (!lab_view_path(path, place, PATH_MAX)) {
        return LAB_NO_PATH;
    }
    return is_device ? LAB_DEVICE_PATH : LAB_OTHER_PATH;
}

// Whether a path is an empty one.
bool lab_says_nothing(const char *path) {
    return path && !*path;
}

static bool number_at(const char **text, uint32_t *number) {
    if (!isdigit((unsigned char)**text)) {
        return false;
    }
    char *end;
    unsigned long read = strtoul(*text, &end, 10);
    *number = (uint32_t)read;
    *text = end;
    return read <= UINT16_MAX;
}

// A device by its name: nvme0, nvme0n1, or ng0n1 for a namespace as a character device.
bool lab_named(const char *name, struct lab_device *device) {
    bool is_generic = strncmp(name, "ng", 2) == 0;
    if (!is_generic && strncmp(name, "nvme", 4) != 0) {
        return false;
    }
    name += is_generic ? 2 : 4;
    device->nsid = 0;
    if (!number_at(&name, &device->controller)) {
        return false;
    }
    if (*name == 'n') {
        name++;
        if (!number_at(&name, &device->nsid) || device->nsid == 0) {
            return false;
        }
    }
    device->is_block = device->nsid != 0 && !is_generic;
    // The system appends this to the name of a deleted file.
    return *name == 0 || strcmp(name, " (deleted)") == 0;
}

// Whether a descriptor is one of our devices: it was opened on a file of the view's dev.
bool lab_opened(int fd, struct lab_device *device) {
    char asked[64], found[PATH_MAX], devices[PATH_MAX];
    int kept = errno;
    if (!lab_view_path("/dev/", devices, sizeof devices)) {
        return false;
    }
    snprintf(asked, sizeof asked, "/proc/self/fd/%d", fd);
    ssize_t length = readlinkat(AT_FDCWD, asked, found, sizeof found - 1);
    errno = kept;
    if (length < 0) {
        return false;
    }
    found[length] = 0;
    size_t front = strlen(devices);
    return strncmp(found, devices, front) == 0 && lab_named(found + front, device);
}

// How many blocks a namespace has, by its file under sys; 0 if there is none.
uint64_t lab_blocks(const struct lab_device *device) {
    char name[64], place[PATH_MAX], text[32] = "";
    snprintf(name, sizeof name, "/sys/block/nvme%un%u/size", (unsigned)device->controller, (unsigned)device->nsid);
    if (!lab_view_path(name, place, sizeof place)) {
        return 0;
    }
    int fd = openat(AT_FDCWD, place, O_RDONLY | O_CLOEXEC);
    if (fd < 0) {
        return 0;
    }
    ssize_t length = read(fd, text, sizeof text - 1);
    close(fd);
    return length > 0 ? strtoull(text, NULL, 10) : 0;
}
