// Folders that hold devices of the machine and the lab's: what is listed there is the machine's, without devices that
// whose names are the lab's are skipped, and the lab's own follow.
#define _GNU_SOURCE
#include "lab.h"

#include <dirent.h>
#include <dlfcn.h>
#include <errno.h>
#include <stdatomic.h>
#include <string.h>

_Static_assert(sizeof(struct dirent) == sizeof(struct dirent64), "one form of entries");

// How many such folders may be listed at once; the lab's devices are left out of more.
#define MOST_LISTINGS 16

static const char *const shared[] = {"/dev", "/sys/block", "/sys/class/block", NULL};

// A listing in progress: the folder as the C library has it, and the lab's, once it is its turn.
struct listing {
    _Atomic(DIR *) whole;
    const char *folder;
    DIR *ours;
    struct dirent64 entry;
};

static struct listing listings[MOST_LISTINGS];

static DIR *(*next_opendir)(const char *);
static struct dirent64 *(*next_readdir)(DIR *);
static int (*next_closedir)(DIR *);
static void (*next_rewinddir)(DIR *);

__attribute__((constructor)) static void find_next(void) {
    next_opendir = __extension__(DIR *(*)(const char *))dlsym(RTLD_NEXT, "opendir");
    next_readdir = __extension__(struct dirent64 * (*)(DIR *))dlsym(RTLD_NEXT, "readdir64");
    next_closedir = __extension__(int (*)(DIR *))dlsym(RTLD_NEXT, "closedir");
    next_rewinddir = __extension__(void (*)(DIR *))dlsym(RTLD_NEXT, "rewinddir");
}

// The folder that a path names, if it is one of the shared ones.
static const char *shared_folder(const char *path) {
    size_t length = strlen(path);
    while (length > 1 && path[length - 1] == '/') {
        length--;
    }
    for (const char *const *folder = shared; *folder; folder++) {
        if (strlen(*folder) == length && strncmp(path, *folder, length) == 0) {
            return *folder;
        }
    }
    return NULL;
}

static struct listing *listing_of(DIR *whole) {
    for (int i = 0; whole && i < MOST_LISTINGS; i++) {
        if (listings[i].whole == whole) {
            return &listings[i];
        }
    }
    return NULL;
}

DIR *opendir(const char *path) {
    char place[PATH_MAX];
    if (!next_opendir) {
        find_next();
    }
    DIR *whole = next_opendir(lab_place(path, place) == LAB_NO_PATH ? path : place);
    const char *folder = whole ? shared_folder(path) : NULL;
    for (int i = 0; folder && i < MOST_LISTINGS; i++) {
        DIR *none = NULL;
        if (atomic_compare_exchange_strong(&listings[i].whole, &none, whole)) {
            listings[i].folder = folder;
            listings[i].ours = NULL;
            return whole;
        }
    }
    return whole;
}

static bool is_named_as_ours(const struct listing *listing, const char *name) {
    char path[PATH_MAX], place[PATH_MAX];
    size_t front = strlen(listing->folder), length = strlen(name);
    if (front + length + 2 > sizeof path) {
        return false;
    }
    memcpy(path, listing->folder, front);
    path[front] = '/';
    memcpy(path + front + 1, name, length + 1);
    return lab_place(path, place) != LAB_NO_PATH;
}

// The next of the lab's own entries.
static struct dirent64 *read_ours(struct listing *listing) {
    char place[PATH_MAX];
    struct lab_device device;
    struct dirent64 *found;
    if (!listing->ours && lab_view_path(listing->folder, place, sizeof place)) {
        listing->ours = next_opendir(place);
    }
    if (!listing->ours) {
        return NULL;
    }
    do {
        found = next_readdir(listing->ours);
    } while (found && found->d_name[0] == '.');
    if (!found) {
        return NULL;
    }
    listing->entry = *found;
    if (listing->folder == shared[0] && lab_named(found->d_name, &device)) {
        listing->entry.d_type = device.is_block ? DT_BLK : DT_CHR;
    }
    return &listing->entry;
}

static struct dirent64 *read_next(DIR *whole) {
    if (!next_readdir) {
        find_next();
    }
    struct listing *listing = listing_of(whole);
    if (!listing) {
        return next_readdir(whole);
    }
    int kept = errno;
    struct dirent64 *found;
    do {
        errno = 0;
        found = next_readdir(whole);
    } while (found && is_named_as_ours(listing, found->d_name));
    if (!found && errno == 0) {
        found = read_ours(listing);
        errno = kept;
    } else if (found) {
        errno = kept;
    }
    return found;
}

struct dirent *readdir(DIR *whole) {
    return (struct dirent *)read_next(whole);
}

struct dirent64 *readdir64(DIR *whole) {
    return read_next(whole);
}

static void begin_anew(struct listing *listing) {
    if (listing && listing->ours) {
        next_closedir(listing->ours);
        listing->ours = NULL;
    }
}

int closedir(DIR *whole) {
    if (!next_closedir) {
        find_next();
    }
    struct listing *listing = listing_of(whole);
    begin_anew(listing);
    if (listing) {
        listing->whole = NULL;
    }
    return next_closedir(whole);
}

void rewinddir(DIR *whole) {
    if (!next_rewinddir) {
        find_next();
    }
    begin_anew(listing_of(whole));
    next_rewinddir(whole);
}
