/* What the workers share: the states that were met with their edges, texts by numbers, and work to be taken. */
#define _GNU_SOURCE
#include "walker.h"

#include <sched.h>
#include <string.h>
#include <sys/mman.h>

enum { HEADS = 1 << 20, TEXT_HEADS = 1 << 16, POSITION_BITS = 1 << 26 };

/* A text that has a number: its digest, where it is, and the next one of its head. */
struct known {
    struct digest key;
    uint64_t place, size;
    uint32_t next;
};

struct shared *shared;

/* Tables that grow: memory is taken as it is written first. Number 0 is none. */
static struct {
    _Atomic uint32_t *heads, *text_heads;
    _Atomic uint8_t *positions;
    struct node *nodes;
    struct edge *edges;
    struct known *texts;
    char *bytes, *items;
} tables;

static void *shared_room(size_t size)
{
    void *found = mmap(NULL, size, PROT_READ | PROT_WRITE, MAP_SHARED | MAP_ANONYMOUS | MAP_NORESERVE, -1, 0);
    if (found == MAP_FAILED)
        give_up("unsuited", "the system gives no memory", (struct text){"", 0});
    return found;
}

static size_t item_size(void) { return (sizeof(struct item) + state_size() + 63) / 64 * 64; }

void make_tables(void)
{
    shared = shared_room(sizeof *shared);
    tables.heads = shared_room(HEADS * sizeof *tables.heads);
    tables.text_heads = shared_room(TEXT_HEADS * sizeof *tables.text_heads);
    tables.positions = shared_room(POSITION_BITS / 8);
    size_t most = job.most_bytes + (size_t)job.jobs * MOST_ANSWER; /* which is noted after an event */
    tables.nodes = shared_room(most);
    tables.edges = shared_room(most);
    tables.texts = shared_room(most);
    tables.bytes = shared_room(most);
    tables.items = shared_room(MOST_ITEMS * item_size());
    shared->nodes = shared->edges = shared->texts = 1;
}

size_t bytes_of_tables(void)
{
    return (HEADS + TEXT_HEADS) * sizeof(uint32_t) + shared->nodes * sizeof(struct node)
           + shared->edges * sizeof(struct edge) + shared->texts * sizeof(struct known) + shared->text_bytes;
}

struct node *node_at(uint32_t place) { return &tables.nodes[place]; }

struct edge *edges_of(const struct node *node) { return &tables.edges[node->edges]; }

static void lock(atomic_flag *it)
{
    while (atomic_flag_test_and_set_explicit(it, memory_order_acquire))
        sched_yield();
}

static void unlock(atomic_flag *it) { atomic_flag_clear_explicit(it, memory_order_release); }

/* Counts how far orders were: exactly while a plan has no more positions than there are bits. */
static void count_position(const struct state *state)
{
    uint64_t place = 0;
    for (int n = 0; n < state->phase && n < job.phase_count; n++)
        place = place * 31 + (uint64_t)job.phases[n].length + 1;
    for (int n = 0; !is_end(state) && n < job.phases[state->phase].count; n++)
        place = place * (uint64_t)(job.phases[state->phase].parts[n].count + 1) + state->done[n];
    place %= POSITION_BITS;
    uint8_t bit = (uint8_t)(1u << place % 8);
    if ((atomic_fetch_or(&tables.positions[place / 8], bit) & bit) == 0)
        shared->positions++;
}

static uint32_t find_node(uint32_t from, uint32_t to, struct digest key)
{
    for (; from != to; from = tables.nodes[from].next)
        if (is_same(tables.nodes[from].key, key))
            return from;
    return 0;
}

uint32_t meet(const struct state *state, bool *is_new)
{
    struct digest key = key_of(state);
    _Atomic uint32_t *head = &tables.heads[key.low % HEADS];
    uint32_t seen = 0, first = *head, found = find_node(first, 0, key), mine = 0;
    *is_new = false;
    while (found == 0) {
        if (mine == 0) {
            size_t parts = is_end(state) ? 0 : (size_t)job.phases[state->phase].count;
            mine = shared->nodes++;
            tables.nodes[mine].key = key;
            tables.nodes[mine].phase = state->phase;
            tables.nodes[mine].edges = atomic_fetch_add(&shared->edges, (uint32_t)parts);
        }
        tables.nodes[mine].next = first;
        *is_new = atomic_compare_exchange_strong(head, &first, mine);
        if (*is_new)
            break;
        seen = tables.nodes[mine].next;
        found = find_node(first, seen, key);
    }
    if (*is_new) {
        shared->states++;
        count_position(state);
    }
    return *is_new ? mine : found;
}

uint32_t text_number(struct text text)
{
    struct digest key = digest_of(text.at, text.size, (struct digest){0, 0});
    _Atomic uint32_t *head = &tables.text_heads[key.low % TEXT_HEADS];
    for (int turn = 0; turn < 2; turn++) {
        for (uint32_t n = *head; n != 0; n = tables.texts[n].next) {
            if (!is_same(tables.texts[n].key, key))
                continue;
            if (turn == 1)
                unlock(&shared->text_lock);
            return n;
        }
        if (turn == 0)
            lock(&shared->text_lock); /* and again, since another may have put it there */
    }
    uint32_t number = shared->texts++;
    tables.texts[number] = (struct known){key, shared->text_bytes, text.size, *head};
    memcpy(tables.bytes + shared->text_bytes, text.at, text.size);
    shared->text_bytes += text.size;
    *head = number;
    unlock(&shared->text_lock);
    return number;
}

struct text text_at(uint32_t number)
{
    return (struct text){tables.bytes + tables.texts[number].place, tables.texts[number].size};
}

bool put_item(const uint16_t *path, uint32_t length, const struct state *state, int next, int end)
{
    lock(&shared->item_lock);
    bool has_room = shared->queued < MOST_ITEMS;
    if (has_room) {
        char *at = tables.items + (size_t)shared->queued++ * item_size();
        struct item *item = (void *)at;
        item->length = length;
        item->next = next;
        item->end = end;
        memcpy(item->path, path, length * sizeof *path);
        memcpy(at + sizeof *item, state, state_size());
    }
    unlock(&shared->item_lock);
    return has_room;
}

bool take_item(struct item *item, struct state *state)
{
    lock(&shared->item_lock);
    bool is_there = shared->queued > 0;
    if (is_there) {
        const char *at = tables.items + (size_t)--shared->queued * item_size();
        memcpy(item, at, sizeof *item);
        memcpy(state, at + sizeof *item, state_size());
        shared->hungry--;
    }
    unlock(&shared->item_lock);
    return is_there;
}

bool is_all_done(void)
{
    lock(&shared->item_lock);
    bool is_done = shared->hungry == job.jobs && shared->queued == 0;
    unlock(&shared->item_lock);
    return is_done;
}
