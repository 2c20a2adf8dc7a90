/* A device in another thread, which writes completions word by word while they are read: read in the wrong order some
 * are torn, and none is as port.c reads them. usage: race COMPLETIONS SECONDS: each
 * order is tried on this number of completions, or for this time. */
#include "../snapshot.h"

#include <pthread.h>
#include <stdatomic.h>
#include <stdbool.h>
#include <stdint.h>
#include <stdio.h>
#include <stdlib.h>
#include <string.h>
#include <time.h>

enum { ENTRIES = 32 };

static volatile uint32_t ring[ENTRIES][4];
static volatile uint32_t consumed;
static uint32_t count;
static double seconds;
static atomic_bool is_over;

static double now(void)
{
    struct timespec t;
    clock_gettime(CLOCK_MONOTONIC, &t);
    return (double)t.tv_sec + (double)t.tv_nsec / 1e9;
}


/* Each completion has its number in three double words, and the phase tag in the last one. */
static void *write_completions(void *unused)
{
    (void)unused;
    for (uint32_t n = 0; n < count; n++) {
        while (n - consumed >= ENTRIES - 1 && !is_over)
            ;
        volatile uint32_t *to = ring[n % ENTRIES];
        to[0] = n, to[1] = n, to[2] = n;
        atomic_thread_fence(memory_order_release);
        to[3] = (n & 0xffff) | (~(n / ENTRIES) & 1) << 16;
    }
    return NULL;
}

static bool read_first_to_last(const volatile uint32_t *at, uint32_t phase, uint32_t entry[4])
{
    for (int i = 0; i < 4; i++)
        entry[i] = at[i];
    return (entry[3] >> 16 & 1) == phase;
}

/* The number of completions that were torn. */
static uint32_t torn_by(bool (*read)(const volatile uint32_t *, uint32_t, uint32_t *))
{
    pthread_t thread;
    uint32_t torn = 0, entry[4];
    double end = now() + seconds;
    memset((void *)ring, 0, sizeof ring);
    consumed = 0, is_over = false;
    if (pthread_create(&thread, NULL, write_completions, NULL))
        exit(2);
    for (uint32_t n = 0; n < count; n++) {
        while (!read(ring[n % ENTRIES], ~(n / ENTRIES) & 1, entry))
            ;
        torn += entry[0] != n || entry[1] != n || entry[2] != n;
        consumed = n + 1;
        if (n % 1024 == 0 && now() > end)
            break;
    }
    is_over = true;
    pthread_join(thread, NULL);
    return torn;
}

int main(int words, char **word)
{
    count = words > 1 ? (uint32_t)strtoul(word[1], NULL, 10) : 3000000;
    seconds = words > 2 ? strtod(word[2], NULL) : 10;
    uint32_t wrong = torn_by(read_first_to_last), right = torn_by(take_snapshot);
    printf("up to %u completions: %u torn if the phase tag is read last, %u if it is read first\n", count, wrong, right);
    return right != 0 ? 1 : wrong == 0 ? 3 : 0;
}
