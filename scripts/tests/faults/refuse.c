// Makes calls of the C library fail in the program that it is loaded into by LD_PRELOAD.
//
// FAULTS_PLAN says which: KIND:N:HOW, the N-th call of a kind, from 1, or KIND:N+:HOW, that one and all after it.
// KIND is alloc (every request for memory), open, stat, read, write (to standard output alone), pread, pwrite, sync or
// lock.
// HOW is the number of an errno; `none`, which moves nothing and is no error; `fewer`, a third of the bytes and at
// least one; `torn`, half of the bytes and then EIO; or `kill`, which ends the program by SIGKILL before the call.
// FAULTS_TOLD names a file that gets a byte for each call that was made to fail. FAULTS_COUNTED names one that gets,
// when the program ends by itself, how many calls of each kind it made, as numbers of eight bytes in their order, and
// then how many requests for memory it made since its last read, how often it gave memory back, and how often since its
// last read.
//
// FAULTS_LIE is for trying the checks themselves: the program then does something that no check may let pass.
//   unharmed  no call is made to fail, though that is reported
//   lost      the second block written to the image is not written, though the program sees success
//   stray     whatever is written to the image, its last byte is changed too
//   late      the image is written only when the program ends
//   garbled   the first byte of the transcript is changed
//   calm      the program ends with status 0, whatever happened
//   blurred   the last byte of each text on standard error is changed
//   bold      a file that can't be opened for reading and writing is opened for reading alone
//   smooth    what the system refuses to write to the image is reported as written
//   filled    what is read of the image after its end is reported to be zeros
//   hungry    memory is taken whenever a part of the transcript is written
//   unlocked  the image is not locked, though the program sees success
#define _GNU_SOURCE
#include <errno.h>
#include <fcntl.h>
#include <signal.h>
#include <stdarg.h>
#include <stdlib.h>
#include <string.h>
#include <sys/file.h>
#include <sys/mman.h>
#include <sys/stat.h>
#include <sys/syscall.h>
#include <unistd.h>

enum kind { ALLOC, OPEN, STAT, READ, WRITE, PREAD, PWRITE, SYNC, LOCK, KINDS };
enum how { BY_ERRNO, NONE, FEWER, TORN, KILL };

static const char *const names[KINDS] = {"alloc", "open", "stat", "read", "write", "pread", "pwrite", "sync",
                                          "lock"};
static enum kind planned_kind = KINDS;
static unsigned long planned_at;
static int is_onward;
static enum how planned_how;
static int planned_errno;
static unsigned long counts[KINDS], taken_at_read, freed, freed_at_read;
static const char *told, *counted;
static const char *lie = "";
static int is_ready;

static int lies(const char *what) {
    return strcmp(lie, what) == 0;
}

__attribute__((constructor)) static void read_plan(void) {
    const char *plan = getenv("FAULTS_PLAN");
    told = getenv("FAULTS_TOLD");
    counted = getenv("FAULTS_COUNTED");
    if (getenv("FAULTS_LIE"))
        lie = getenv("FAULTS_LIE");
    for (int kind = 0; plan && kind < KINDS; kind++) {
        size_t length = strlen(names[kind]);
        if (strncmp(plan, names[kind], length) != 0 || plan[length] != ':')
            continue;
        char *rest;
        planned_kind = kind;
        planned_at = strtoul(plan + length + 1, &rest, 10);
        is_onward = *rest == '+';
        rest += is_onward + 1;
        planned_errno = strtoul(rest, 0, 10);
        planned_how = strcmp(rest, "none") == 0    ? NONE
                      : strcmp(rest, "fewer") == 0 ? FEWER
                      : strcmp(rest, "torn") == 0  ? TORN
                      : strcmp(rest, "kill") == 0  ? KILL
                                                   : BY_ERRNO;
    }
    is_ready = 1;
}

// Puts bytes after those of a file, or in their place.
static void put(const char *path, int where, const void *bytes, size_t length) {
    int fd = syscall(SYS_openat, AT_FDCWD, path, O_WRONLY | where | O_CREAT | O_CLOEXEC, 0666);
    syscall(SYS_write, fd, bytes, length);
    syscall(SYS_close, fd);
}

// Whether this call is to fail. It is counted, and a failure is reported.
static int fails(enum kind kind) {
    if (!is_ready)
        return 0;
    unsigned long count = ++counts[kind];
    if (kind != planned_kind || (is_onward ? count < planned_at : count != planned_at))
        return 0;
    if (told)
        put(told, O_APPEND, "x", 1);
    if (lies("unharmed"))
        return 0;
    if (planned_how == KILL)
        syscall(SYS_kill, syscall(SYS_getpid), SIGKILL);
    errno = planned_errno;
    return 1;
}

// How many of the bytes a call moves that is to fail: none or some.
static size_t part_of(size_t length) {
    if (planned_how == TORN)
        return length / 2;
    return planned_how == FEWER ? (length < 3 ? length : length / 3) : 0;
}

// What such a call answers, given what the system answered for the part.
static ssize_t answer(ssize_t moved) {
    if (planned_how == NONE || planned_how == FEWER)
        return moved;
    errno = planned_how == TORN ? EIO : planned_errno;
    return -1;
}

// Memory

extern void *__libc_malloc(size_t);
extern void *__libc_calloc(size_t, size_t);
extern void *__libc_realloc(void *, size_t);
extern void *__libc_memalign(size_t, size_t);
extern void __libc_free(void *);

void *malloc(size_t size) {
    return fails(ALLOC) ? 0 : __libc_malloc(size);
}

void *calloc(size_t count, size_t size) {
    return fails(ALLOC) ? 0 : __libc_calloc(count, size);
}

void *realloc(void *old, size_t size) {
    return fails(ALLOC) ? 0 : __libc_realloc(old, size);
}

// No call of this fails. It is counted, since memory that is given back again and again was taken.
void free(void *memory) {
    freed += is_ready && memory;
    __libc_free(memory);
}

void *aligned_alloc(size_t alignment, size_t size) {
    return fails(ALLOC) ? 0 : __libc_memalign(alignment, size);
}

int posix_memalign(void **made, size_t alignment, size_t size) {
    if (fails(ALLOC))
        return ENOMEM;
    *made = __libc_memalign(alignment, size);
    return *made ? 0 : ENOMEM;
}

void *mmap(void *at, size_t length, int protection, int flags, int fd, off_t offset) {
    if (fails(ALLOC))
        return MAP_FAILED;
    return (void *)syscall(SYS_mmap, at, length, protection, flags, fd, offset);
}

// Files by name

static int opened(int folder, const char *path, int flags, int mode) {
    int fd = fails(OPEN) ? -1 : (int)syscall(SYS_openat, folder, path, flags, mode);
    return fd < 0 && lies("bold") ? (int)syscall(SYS_openat, folder, path, flags & ~O_RDWR, mode) : fd;
}

int openat(int folder, const char *path, int flags, ...) {
    va_list rest;
    va_start(rest, flags);
    int mode = flags & (O_CREAT | O_TMPFILE) ? va_arg(rest, int) : 0;
    va_end(rest);
    return opened(folder, path, flags, mode);
}

int open(const char *path, int flags, ...) {
    va_list rest;
    va_start(rest, flags);
    int mode = flags & (O_CREAT | O_TMPFILE) ? va_arg(rest, int) : 0;
    va_end(rest);
    return opened(AT_FDCWD, path, flags, mode);
}

int statx(int folder, const char *path, int flags, unsigned mask, struct statx *found) {
    return fails(STAT) ? -1 : (int)syscall(SYS_statx, folder, path, flags, mask, found);
}

// The script and the transcript

ssize_t read(int fd, void *bytes, size_t length) {
    taken_at_read = counts[ALLOC];
    freed_at_read = freed;
    if (!fails(READ))
        return syscall(SYS_read, fd, bytes, length);
    size_t part = part_of(length);
    return answer(part ? syscall(SYS_read, fd, bytes, part) : 0);
}

// Writes bytes of which the one at a place is changed.
static ssize_t write_changed(int fd, const void *bytes, size_t length, size_t at) {
    char *copy = __libc_malloc(length);
    memcpy(copy, bytes, length);
    copy[at] ^= 1;
    ssize_t moved = syscall(SYS_write, fd, copy, length);
    __libc_free(copy);
    return moved;
}

ssize_t write(int fd, const void *bytes, size_t length) {
    if (fd == STDOUT_FILENO && lies("hungry"))
        free(malloc(length));
    if (fd == STDERR_FILENO && length && lies("blurred"))
        return write_changed(fd, bytes, length, length - 1);
    if (fd == STDOUT_FILENO && length && counts[WRITE] == 0 && lies("garbled")) {
        counts[WRITE]++;
        return write_changed(fd, bytes, length, 0);
    }
    if (fd != STDOUT_FILENO || !fails(WRITE))
        return syscall(SYS_write, fd, bytes, length);
    size_t part = part_of(length);
    return answer(part ? syscall(SYS_write, fd, bytes, part) : 0);
}

// The image

static struct { int fd; off_t at; size_t length; char bytes[512]; } late[1 << 15];
static size_t late_count;

static ssize_t found(int fd, void *bytes, size_t length, off_t at) {
    ssize_t moved = syscall(SYS_pread64, fd, bytes, length, at);
    if (moved < 0 || !lies("filled"))
        return moved;
    for (size_t i = moved; i < length; i++)
        ((char *)bytes)[i] = 0;
    return length;
}

ssize_t pread(int fd, void *bytes, size_t length, off_t at) {
    if (!fails(PREAD))
        return found(fd, bytes, length, at);
    size_t part = part_of(length);
    return answer(part ? syscall(SYS_pread64, fd, bytes, part, at) : 0);
}

static ssize_t written(int fd, const void *bytes, size_t length, off_t at) {
    if (lies("lost") && counts[PWRITE] == 2)
        return length;
    if (lies("stray"))
        syscall(SYS_pwrite64, fd, "?", 1, syscall(SYS_lseek, fd, 0, SEEK_END) - 1);
    if (lies("late") && late_count < sizeof late / sizeof *late && length <= sizeof late->bytes) {
        late[late_count].fd = fd;
        late[late_count].at = at;
        late[late_count].length = length;
        memcpy(late[late_count++].bytes, bytes, length);
        return length;
    }
    return syscall(SYS_pwrite64, fd, bytes, length, at);
}

// What a write to the image returns to the program.
static ssize_t smoothed(ssize_t moved, size_t length) {
    return moved < 0 && lies("smooth") ? (ssize_t)length : moved;
}

ssize_t pwrite(int fd, const void *bytes, size_t length, off_t at) {
    if (!fails(PWRITE))
        return smoothed(written(fd, bytes, length, at), length);
    size_t part = part_of(length);
    return smoothed(answer(part ? written(fd, bytes, part, at) : 0), length);
}

int fsync(int fd) {
    return fails(SYNC) ? -1 : (int)syscall(SYS_fsync, fd);
}

int fdatasync(int fd) {
    return fails(SYNC) ? -1 : (int)syscall(SYS_fdatasync, fd);
}

int flock(int fd, int how) {
    if (fails(LOCK))
        return -1;
    return lies("unlocked") ? 0 : (int)syscall(SYS_flock, fd, how);
}

// What the program calls if its C library has other names for the same.
ssize_t pread64(int, void *, size_t, off_t) __attribute__((alias("pread")));
ssize_t pwrite64(int, const void *, size_t, off_t) __attribute__((alias("pwrite")));
int openat64(int, const char *, int, ...) __attribute__((alias("openat")));
int open64(const char *, int, ...) __attribute__((alias("open")));

// The image may be closed when the program ends, so what is late is written by way of its name.
__attribute__((destructor)) static void end(void) {
    int fd = late_count ? (int)syscall(SYS_openat, AT_FDCWD, getenv("FAULTS_IMAGE"), O_WRONLY, 0) : -1;
    for (size_t i = 0; i < late_count; i++)
        syscall(SYS_pwrite64, fd, late[i].bytes, late[i].length, late[i].at);
    if (counted) {
        unsigned long others[] = {counts[ALLOC] - taken_at_read, freed, freed - freed_at_read};
        put(counted, O_TRUNC, counts, sizeof counts);
        put(counted, O_APPEND, others, sizeof others);
    }
    if (lies("calm"))
        _exit(0);
}
