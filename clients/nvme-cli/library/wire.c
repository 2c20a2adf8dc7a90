// The conversation with the server: one connection a request, so that nothing is kept between two of them, whatever a
// process does with its descriptors, its threads and its children. protocol.py has both forms in words.
#define _GNU_SOURCE
#include "lab.h"

#include <errno.h>
#include <string.h>
#include <sys/socket.h>
#include <sys/time.h>
#include <sys/un.h>
#include <unistd.h>

#define REQUEST_BYTES 80
#define ANSWER_BYTES 20
#define NOT_MAPPED 0xffffffffu
// Beyond this a server that doesn't answer is taken as gone.
#define LONGEST_SECONDS 120
#define MOST_PARTS 1024

// A server that is not there, or goes away, is a disk that was pulled.
static int gone(int fd) {
    int why = errno;
    close(fd);
    errno = why == EFAULT ? EFAULT : ENODEV;
    return -1;
}

static int connect_to_server(void) {
    struct sockaddr_un address = {.sun_family = AF_UNIX};
    if (!lab_view_path("/socket", address.sun_path, sizeof address.sun_path)) {
        errno = ENODEV;
        return -1;
    }
    int fd = socket(AF_UNIX, SOCK_STREAM | SOCK_CLOEXEC, 0);
    if (fd < 0) {
        return -1;
    }
    struct timeval limit = {.tv_sec = LONGEST_SECONDS};
    setsockopt(fd, SOL_SOCKET, SO_RCVTIMEO, &limit, sizeof limit);
    setsockopt(fd, SOL_SOCKET, SO_SNDTIMEO, &limit, sizeof limit);
    int failed;
    do {
        failed = connect(fd, (struct sockaddr *)&address, sizeof address);
    } while (failed && errno == EINTR);
    return failed ? gone(fd) : fd;
}

// Drops the bytes that were moved from the front of the parts.
static void drop(struct msghdr *message, size_t moved) {
    while (message->msg_iovlen > 0 && moved >= message->msg_iov->iov_len) {
        moved -= message->msg_iov->iov_len;
        message->msg_iov++;
        message->msg_iovlen--;
    }
    if (message->msg_iovlen > 0) {
        message->msg_iov->iov_base = (char *)message->msg_iov->iov_base + moved;
        message->msg_iov->iov_len -= moved;
    }
}

// Sends or receives a head and the following parts completely.
static int move_all(int fd, uint8_t *head, size_t length, const struct lab_data *data, bool is_sent) {
    struct iovec parts[MOST_PARTS + 1];
    parts[0] = (struct iovec){.iov_base = head, .iov_len = length};
    if (data->count > 0) {
        memcpy(parts + 1, data->parts, (size_t)data->count * sizeof *parts);
    }
    struct msghdr message = {.msg_iov = parts, .msg_iovlen = (size_t)data->count + 1};
    drop(&message, 0);
    while (message.msg_iovlen > 0) {
        ssize_t moved = is_sent ? sendmsg(fd, &message, MSG_NOSIGNAL) : recvmsg(fd, &message, 0);
        if (moved > 0) {
            drop(&message, (size_t)moved);
        } else if (moved == 0) {
            errno = ENODEV;
            return -1;
        } else if (errno != EINTR) {
            return -1;
        }
    }
    return 0;
}

static int send_request(int fd, const struct lab_request *request) {
    const struct lab_data *data = &request->data;
    uint8_t head[4 + REQUEST_BYTES] = {0};
    uint64_t address = data->count > 0 ? (uintptr_t)data->parts[0].iov_base : 0;
    // Parts are gathered at the start of a page, and so are data that are not aligned to four bytes.
    uint32_t offset = data->count == 1 && address % 4 == 0 ? address % 4096 : 0;
    lab_put(head, REQUEST_BYTES + (data->is_mapped ? data->length : 0), 4);
    head[4] = (uint8_t)request->asking;
    head[5] = request->is_admin ? 0 : 1;
    lab_put(head + 6, request->device.controller, 2);
    lab_put(head + 8, request->device.nsid, 4);
    lab_put(head + 12, data->is_mapped ? offset : NOT_MAPPED, 4);
    lab_put(head + 16, data->length, 4);
    memcpy(head + 20, request->entry, sizeof request->entry);
    return move_all(fd, head, sizeof head, data, true);
}

// Receives the answer; the data go straight to where the caller wants them.
static int receive_answer(int fd, struct lab_request *request) {
    const struct lab_data none = {0};
    uint8_t head[4 + ANSWER_BYTES];
    if (move_all(fd, head, sizeof head, &none, false)) {
        return -1;
    }
    int refused = (int)lab_get(head + 4, 4);
    if (refused) {
        errno = refused;
        return 1;
    }
    memcpy(request->completion, head + 8, sizeof request->completion);
    uint64_t length = lab_get(head, 4) - ANSWER_BYTES;
    if (length == 0) {
        return 0;
    }
    if (length != request->data.length || !request->data.is_mapped) {
        errno = ENODEV;
        return -1;
    }
    return move_all(fd, head, 0, &request->data, false);
}

int lab_ask(struct lab_request *request) {
    if (request->data.count > MOST_PARTS) {
        errno = EINVAL;
        return -1;
    }
    int fd = connect_to_server();
    if (fd < 0) {
        return -1;
    }
    if (send_request(fd, request)) {
        return gone(fd);
    }
    int answered = receive_answer(fd, request);
    if (answered < 0) {
        return gone(fd);
    }
    int why = errno;
    close(fd);
    errno = why;
    return answered ? -1 : 0;
}
