// client WHAT [driver]: tries one thing, of raw hosts or of those with drivers; or hammers a device, or waits at one.
#include "client.h"

#include <string.h>
#include <unistd.h>

// Writes blocks of its own, again and again, and finds each time what it wrote.
void hammer(const char *device, unsigned first, unsigned rounds) {
    int fd = open_device(device);
    uint8_t *out = room_at(MOST, 0), *in = room_at(MOST, 0);
    for (unsigned round = 0; round < rounds; round++) {
        uint32_t count = 1 + round * 37 % 64;
        fill(out, count * BLOCK, first + round);
        CHECK_IS(on_blocks(fd, WRITE, first, count, out), SUCCESS);
        CHECK_IS(on_blocks(fd, READ, first, count, in), SUCCESS);
        CHECK(is_filled(in, count * BLOCK, first + round));
    }
    free(out);
    free(in);
}

static const struct {
    const char *name;
    void (*what)(void);
} trials[] = {
    {"admin", try_admin}, {"queues", try_queues}, {"attachment", try_attachment}, {"blocks", try_blocks},
    {"pointers", try_pointers}, {"reservations", try_reservations}, {"unsaid", try_unsaid}, {"unread", try_unread},
    {"files", try_files}, {"disk", try_disk}, {"others", try_others},
};

// `gone DEVICE SECONDS`: opens a device, waits for a byte, then prints the result of a command.
static int tell_gone(const char *device) {
    int fd = open_device(device);
    puts("open");
    fflush(stdout);
    getchar();
    int status = io(fd, FLUSH, 1, 0, 0, 0, NULL, 0);
    perror(status == SUCCESS ? "success" : "flush");
    return status == SUCCESS ? 0 : 3;
}

int main(int count, char **words) {
    has_driver = count == 3 && strcmp(words[2], "driver") == 0;
    for (size_t i = 0; (count == 2 || has_driver) && i < sizeof trials / sizeof *trials; i++) {
        if (strcmp(words[1], trials[i].name) == 0) {
            trials[i].what();
            return 0;
        }
    }
    if (count == 5 && strcmp(words[1], "hammer") == 0) {
        hammer(words[2], (unsigned)atoi(words[3]), (unsigned)atoi(words[4]));
        return 0;
    }
    if (count == 3 && strcmp(words[1], "gone") == 0) {
        return tell_gone(words[2]);
    }
    fprintf(stderr, "client: which trial?\n");
    return 2;
}
