/* Forks the program nvmelive where it waits for a line, at a word of `python3 -m nvmesim explore`.
 *
 * It is loaded before the C library (LD_PRELOAD). The explorer gives the program a Unix stream socket as standard input
 * and output. What it sends together with file descriptors is no input, but the word to fork: the child has the first
 * descriptor, a socket of its own, as standard input and output, and the second, if there is one, instead of every
 * regular file above standard error, which is its image. The parent continues to wait. Each process says
 * its number on its socket before it reads, after a byte 0, which begins no answer. If the explorer has gone, a read
 * gives the end of the input: the first program ends as it does at the end of any input, a child at once.
 *
 * What it writes to standard output is gathered, and sent when it waits for the next line or ends: so the explorer is
 * woken once for all answers of an event.
 *
 * A word F and a number N lets the N-th read, write or sync of the image fail, counted from then on, and 0 lets none.
 * At each of them the process says how many are left, after a byte 0.
 */
#define _GNU_SOURCE
#include <dlfcn.h>
#include <errno.h>
#include <signal.h>
#include <stdio.h>
#include <string.h>
#include <sys/socket.h>
#include <sys/stat.h>
#include <unistd.h>

/* What the program calls instead of the C library's functions. */
#define INSTEAD __attribute__((visibility("default")))

enum { STREAM = 0, FIRST_FILE = 3, LAST_FILE = 63, MOST_SENT = 2 };

/* The process that has reported its number; a child has another. */
static pid_t told;

/* Whether this process was forked. It ends at the end of its input without going to the end of the program, which only
 * gives memory back, and takes longer than all else: an answer represents calls that were made. */
static int was_forked;

static ssize_t read_as_before(int file, void *to, size_t size)
{
    static ssize_t (*next)(int, void *, size_t);
    if (next == NULL)
        *(void **)&next = dlsym(RTLD_NEXT, "read");
    return next(file, to, size);
}

static int is_socket(int file)
{
    struct stat found;
    return fstat(file, &found) == 0 && S_ISSOCK(found.st_mode);
}

/* What the program has written to standard output, and the explorer has not got yet. */
static char gathered[1 << 16];
static size_t gathered_size;

static ssize_t write_as_before(int file, const void *from, size_t size)
{
    static ssize_t (*next)(int, const void *, size_t);
    if (next == NULL)
        *(void **)&next = dlsym(RTLD_NEXT, "write");
    return next(file, from, size);
}

/* Sends what was gathered. */
__attribute__((destructor)) static void send_gathered(void)
{
    size_t sent = 0;
    while (sent < gathered_size) {
        ssize_t count = write_as_before(STDOUT_FILENO, gathered + sent, gathered_size - sent);
        if (count < 0 && errno != EINTR)
            _exit(2);
        sent += count < 0 ? 0 : (size_t)count;
    }
    gathered_size = 0;
}

/* Gathers answers; before the first read there are none, and what has no room is sent at once. */
INSTEAD ssize_t write(int file, const void *from, size_t size)
{
    if (file != STDOUT_FILENO || told == 0)
        return write_as_before(file, from, size);
    if (size > sizeof gathered - gathered_size)
        send_gathered();
    if (size > sizeof gathered)
        return write_as_before(file, from, size);
    memcpy(gathered + gathered_size, from, size);
    gathered_size += size;
    return (ssize_t)size;
}

/* Sends the number of this process, once. */
static void tell_number(void)
{
    char line[32];
    if (told == getpid())
        return;
    told = getpid();
    int size = snprintf(line, sizeof line, "%c%ld\n", 0, (long)told);
    if (write(STREAM, line, (size_t)size) != size)
        _exit(2);
}

/* How many calls of the image are left until one fails; 0 if none does. */
static long left;

/* Counts a call of the image; whether it fails. */
static int fails(int file)
{
    struct stat found;
    char line[32];
    if (left == 0 || file < FIRST_FILE || fstat(file, &found) != 0 || !S_ISREG(found.st_mode))
        return 0;
    left--;
    int size = snprintf(line, sizeof line, "%cleft %ld\n", 0, left);
    if (write(STREAM, line, (size_t)size) != size)
        _exit(2);
    if (left == 0)
        errno = EIO;
    return left == 0;
}

INSTEAD ssize_t pread(int file, void *to, size_t size, off_t place)
{
    static ssize_t (*next)(int, void *, size_t, off_t);
    if (next == NULL)
        *(void **)&next = dlsym(RTLD_NEXT, "pread");
    return fails(file) ? -1 : next(file, to, size, place);
}

INSTEAD ssize_t pwrite(int file, const void *from, size_t size, off_t place)
{
    static ssize_t (*next)(int, const void *, size_t, off_t);
    if (next == NULL)
        *(void **)&next = dlsym(RTLD_NEXT, "pwrite");
    return fails(file) ? -1 : next(file, from, size, place);
}

INSTEAD int fsync(int file)
{
    static int (*next)(int);
    if (next == NULL)
        *(void **)&next = dlsym(RTLD_NEXT, "fsync");
    return fails(file) ? -1 : next(file);
}

/* Puts an image instead of the one that the parent has open. */
static void take_image(int image)
{
    struct stat found;
    for (int file = FIRST_FILE; file <= LAST_FILE; file++)
        if (file != image && fstat(file, &found) == 0 && S_ISREG(found.st_mode) && dup2(image, file) < 0)
            _exit(2);
}

/* Forks; the child takes what was sent. A parent that can't fork closes it, and the explorer sees its end. */
static void branch(const int *sent, int count)
{
    send_gathered();          /* the child has nothing of it to send */
    signal(SIGCHLD, SIG_IGN); /* children that end leave nothing after */
    if (fork() == 0) {
        was_forked = 1;
        if (count == MOST_SENT)
            take_image(sent[1]);
        if (dup2(sent[0], STDIN_FILENO) < 0 || dup2(sent[0], STDOUT_FILENO) < 0)
            _exit(2);
        tell_number();
    }
}

/* The number that these digits spell. */
static long number_of(const char *digits, size_t size)
{
    long number = 0;
    for (size_t n = 0; n < size && digits[n] >= '0' && digits[n] <= '9'; n++)
        number = 10 * number + (digits[n] - '0');
    return number;
}

/* The descriptors that were sent with the bytes. */
static int sent_with(struct msghdr *message, int *sent)
{
    int count = 0;
    for (struct cmsghdr *it = CMSG_FIRSTHDR(message); it != NULL; it = CMSG_NXTHDR(message, it)) {
        if (it->cmsg_level != SOL_SOCKET || it->cmsg_type != SCM_RIGHTS)
            continue;
        count = (int)((it->cmsg_len - CMSG_LEN(0)) / sizeof(int));
        memcpy(sent, CMSG_DATA(it), (size_t)count * sizeof(int));
    }
    return count;
}

INSTEAD ssize_t read(int file, void *to, size_t size)
{
    if (file != STREAM || size == 0 || !is_socket(STREAM))
        return read_as_before(file, to, size);
    tell_number();
    for (;;) {
        union {
            struct cmsghdr head;
            char room[CMSG_SPACE(MOST_SENT * sizeof(int))];
        } beside;
        struct iovec bytes = {to, size};
        struct msghdr message = {.msg_iov = &bytes, .msg_iovlen = 1, .msg_control = &beside,
                                 .msg_controllen = sizeof beside};
        int sent[MOST_SENT];
        ssize_t got = recvmsg(STREAM, &message, gathered_size > 0 ? MSG_DONTWAIT : 0);
        if (got < 0 && errno == EINTR)
            continue;
        if (got < 0 && (errno == EAGAIN || errno == EWOULDBLOCK)) {
            send_gathered();
            continue;
        }
        if (got == 0 && was_forked)
            _exit(0);
        if (got <= 0)
            return got;
        int count = sent_with(&message, sent);
        if (count == 0)
            return got;
        const char *word = to;
        if (word[0] == 'F')
            left = number_of(word + 1, (size_t)got - 1);
        else
            branch(sent, count);
        for (int n = 0; n < count; n++)
            close(sent[n]);
    }
}
