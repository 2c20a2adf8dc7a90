// Loaded into a target by LD_PRELOAD, it is a disk that reads old bytes: of the file MISREAD_OF, each place in MISREAD_AT
// is once read as it is in the file MISREAD_OLD, the MISREAD_TURN-th time that a sector or more is read there. What the
// old file lacks is zeros.
#define _GNU_SOURCE
#include <dlfcn.h>
#include <fcntl.h>
#include <stdio.h>
#include <stdlib.h>
#include <string.h>
#include <sys/types.h>
#include <unistd.h>

#define SECTOR 512
#define MOST 4

// Whether a file is the one whose reads are counted.
static int is_ours(int file) {
    char name[64], path[4096];
    snprintf(name, sizeof name, "/proc/self/fd/%d", file);
    ssize_t length = readlink(name, path, sizeof path - 1);
    if (length < 0)
        return 0;
    path[length] = 0;
    return !strcmp(path, getenv("MISREAD_OF"));
}

// The number of a place in MISREAD_AT, or -1.
static int number_of(off64_t place) {
    char *rest = getenv("MISREAD_AT");
    for (int number = 0; number < MOST && *rest; number++, rest += *rest == ',')
        if (strtoll(rest, &rest, 10) == place)
            return number;
    return -1;
}

ssize_t pread64(int file, void *room, size_t count, off64_t place) {
    static int turns[MOST];
    ssize_t (*next)(int, void *, size_t, off64_t) = dlsym(RTLD_NEXT, "pread64");
    ssize_t given = next(file, room, count, place);
    int number = given >= SECTOR && is_ours(file) ? number_of(place) : -1;
    if (number < 0 || __atomic_add_fetch(&turns[number], 1, __ATOMIC_SEQ_CST) != atoi(getenv("MISREAD_TURN")))
        return given;
    int old = open(getenv("MISREAD_OLD"), O_RDONLY);
    memset(room, 0, given);
    if (old < 0 || next(old, room, given, place) < 0)
        return -1;
    close(old);
    return given;
}
