// Loaded into a target by LD_PRELOAD, it is as if the target ran on another machine: locks of flock(2) don't reach it,
// and its machine was started at another time.
#define _GNU_SOURCE
#include <dlfcn.h>
#include <fcntl.h>
#include <stdarg.h>
#include <string.h>
#include <sys/mman.h>
#include <sys/types.h>
#include <unistd.h>

int flock(int file, int operation) {
    (void)file;
    (void)operation;
    return 0;
}

int open64(const char *path, int flags, ...) {
    int (*next)(const char *, int, ...) = dlsym(RTLD_NEXT, "open64");
    if (!strcmp(path, "/proc/sys/kernel/random/boot_id")) {
        static const char id[] = "b0071d00-0000-4000-8000-000000000002\n";
        int file = memfd_create("boot_id", MFD_CLOEXEC);
        if (file >= 0 && write(file, id, sizeof id - 1) == (ssize_t)(sizeof id - 1) && lseek(file, 0, SEEK_SET) == 0)
            return file;
        return -1;
    }
    va_list more;
    va_start(more, flags);
    mode_t mode = va_arg(more, mode_t);
    va_end(more);
    return next(path, flags, mode);
}
