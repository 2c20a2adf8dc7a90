/* Counts the orders after what was walked, level by level: each state passes on what leads to it, as gathering.py does.
 *
 * What leads to a state is distinguished by the answers so far, as a sum of digests, and by the part that came last.
 * Each entry counts its orders, and has the changes of the best one: the fewest, and of these the first. The entries of
 * a level are in the order of their best orders, so that what they pass on comes in the order of the orders too.
 *
 * If the caller has stopped the walk, or stops this, a level keeps a part of its entries: the report is partial. */
#include "walker.h"

#include <stdio.h>
#include <stdlib.h>
#include <string.h>

struct entry {
    struct digest answers;
    uint32_t node, mark, changes, turn;
    uint64_t count[];
};

/* How an entry was reached: the place of the entry before it, and the choice. */
struct origin {
    uint32_t before;
    uint16_t choice;
};

struct level {
    char *entries;
    struct origin *origins; /* by turns while it grows, then by places */
    uint32_t *slots;
    size_t size, capacity, slot_count, turns, origin_room;
};

enum { MOST_OF_PART = 1 << 15, EACH = 1 << 14 };

static size_t used, width;

static void *changed(void *before, size_t from, size_t to)
{
    used += to - from;
    void *found = used + bytes_of_tables() > job.most_bytes ? NULL : realloc(before, to + (to == 0));
    if (found == NULL)
        give_up("memory", "to count the orders of what was walked", (struct text){"", 0});
    return found;
}

static struct entry *entry_at(const struct level *level, size_t place)
{
    return (void *)(level->entries + place * width);
}

static uint64_t hash_of(const struct entry *entry)
{
    struct digest key = digest_of(&entry->node, 2 * sizeof entry->node, entry->answers);
    return key.low;
}

static uint32_t *slot_of(const struct level *level, const struct entry *wanted)
{
    for (uint64_t n = hash_of(wanted);; n++) {
        uint32_t *slot = &level->slots[n % level->slot_count];
        const struct entry *found = *slot == 0 ? NULL : entry_at(level, *slot - 1);
        if (found == NULL || (found->node == wanted->node && found->mark == wanted->mark
                              && is_same(found->answers, wanted->answers)))
            return slot;
    }
}

static void grow(struct level *level)
{
    size_t before = level->capacity, slots = level->slot_count;
    level->capacity = before == 0 ? 256 : 2 * before;
    level->slot_count = 2 * level->capacity;
    level->entries = changed(level->entries, before * width, level->capacity * width);
    level->slots = changed(level->slots, slots * sizeof *level->slots, level->slot_count * sizeof *level->slots);
    memset(level->slots, 0, level->slot_count * sizeof *level->slots);
    for (size_t n = 0; n < level->size; n++)
        *slot_of(level, entry_at(level, n)) = (uint32_t)n + 1;
}

static void add_count(struct entry *to, const struct entry *from)
{
    uint64_t carry = 0;
    for (int n = 0; n < job.limbs; n++) {
        uint64_t sum = to->count[n] + carry;
        carry = sum < carry;
        sum += from->count[n];
        carry += sum < from->count[n];
        to->count[n] = sum;
    }
}

/* Adds what an entry passes on; the best order of two is the one with fewer changes, or the earlier one. */
static void add(struct level *level, const struct entry *wanted, struct origin origin)
{
    if (level->size == level->capacity)
        grow(level);
    if (level->turns == level->origin_room) {
        size_t before = level->origin_room;
        level->origin_room = 2 * before + 256;
        level->origins = changed(level->origins, before * sizeof origin, level->origin_room * sizeof origin);
    }
    uint32_t turn = (uint32_t)level->turns, *slot = slot_of(level, wanted);
    if (*slot == 0 && shared->stopped && level->size >= MOST_OF_PART)
        return;
    level->origins[level->turns++] = origin;
    if (*slot == 0) {
        struct entry *entry = entry_at(level, level->size++);
        memcpy(entry, wanted, width);
        entry->turn = turn;
        *slot = (uint32_t)level->size;
        return;
    }
    struct entry *entry = entry_at(level, *slot - 1);
    add_count(entry, wanted);
    if (wanted->changes < entry->changes) {
        entry->changes = wanted->changes;
        entry->turn = turn;
    }
}

/* Puts entries into the order of their best orders, which is that of their turns. */
static void rank(struct level *level)
{
    size_t size = level->size, place = 0;
    uint32_t *by_turn = changed(NULL, 0, level->turns * sizeof *by_turn);
    char *entries = changed(NULL, 0, size * width);
    memset(by_turn, 0, level->turns * sizeof *by_turn);
    for (size_t n = 0; n < size; n++)
        by_turn[entry_at(level, n)->turn] = (uint32_t)n + 1;
    for (size_t turn = 0; turn < level->turns; turn++) {
        if (by_turn[turn] == 0)
            continue;
        memcpy(entries + place * width, entry_at(level, by_turn[turn] - 1), width);
        level->origins[place++] = level->origins[turn];
    }
    used -= level->turns * sizeof *by_turn + level->capacity * width + level->slot_count * sizeof *level->slots;
    free(by_turn);
    free(level->entries);
    free(level->slots);
    level->entries = entries;
    level->origins = changed(level->origins, level->origin_room * sizeof *level->origins,
                             size * sizeof *level->origins);
    level->capacity = size;
    level->slots = NULL;
    level->slot_count = 0;
}

/* The answers so far and one more: a sum, so that their order does not matter. */
static struct digest answers_with(const struct entry *entry, struct edge edge)
{
    uint32_t pair[] = {edge.step, edge.label};
    struct digest found = digest_of(pair, sizeof pair, (struct digest){0, 0});
    found.low += entry->answers.low;
    found.high += entry->answers.high + (found.low < entry->answers.low);
    return found;
}

static bool leads_to_end(const struct node *node)
{
    if (node->phase == job.phase_count)
        return node->last != 0;
    for (int choice = 0; choice < job.phases[node->phase].count; choice++)
        if (node_at(edges_of(node)[choice].follower)->has_end)
            return true;
    return false;
}

/* Finds the states from which an end is known: all of them after a whole walk. */
static void find_ends(void)
{
    for (bool is_found = true; is_found;) {
        is_found = false;
        for (uint32_t n = shared->nodes; --n > 0;) {
            if (node_at(n)->has_end || !leads_to_end(node_at(n)))
                continue;
            node_at(n)->has_end = is_found = true;
        }
    }
}

/* Passes on what leads to a state. */
static void pass_on(struct level *next, const struct entry *entry, uint32_t place, struct entry *wanted)
{
    const struct node *node = node_at(entry->node);
    if (node->phase == job.phase_count)
        return;
    for (int choice = 0; choice < job.phases[node->phase].count; choice++) {
        struct edge edge = edges_of(node)[choice];
        if (edge.follower == 0 || !node_at(edge.follower)->has_end)
            continue;
        memcpy(wanted, entry, width);
        wanted->answers = answers_with(entry, edge);
        wanted->node = edge.follower;
        wanted->mark = (uint32_t)(node->phase * MOST_PARTS + choice + 1);
        wanted->changes += wanted->mark != entry->mark;
        add(next, wanted, (struct origin){place, (uint16_t)choice});
    }
}

static void drop(struct level *level)
{
    used -= level->capacity * width + level->slot_count * sizeof *level->slots;
    free(level->entries);
    free(level->slots);
    level->entries = NULL;
    level->slots = NULL;
}

/* The outcomes of the last level: what leads to equal last answers, together. */
static struct level outcomes_of(const struct level *last, struct entry *wanted)
{
    struct level found = {0};
    for (size_t n = 0; n < last->size; n++) {
        const struct entry *entry = entry_at(last, n);
        memcpy(wanted, entry, width);
        wanted->node = node_at(entry->node)->last;
        wanted->mark = 0;
        if (wanted->node != 0)
            add(&found, wanted, (struct origin){(uint32_t)n, 0});
    }
    return found;
}

/* Reports an outcome: how many orders, changes, the number of its last answers, and the best order with its answers. */
static void tell_outcome(const struct entry *entry, const struct level *levels, uint32_t place, uint32_t root)
{
    uint16_t *order = calloc((size_t)job.length + 1, sizeof *order);
    for (int depth = job.length; order != NULL && depth > 0; depth--) {
        struct origin origin = levels[depth].origins[place];
        order[depth - 1] = origin.choice;
        place = origin.before;
    }
    tell("outcome %d", (int)entry->changes);
    tell(" %u 0x", entry->node);
    for (int n = job.limbs; n-- > 0;)
        tell("%016llx", (unsigned long long)entry->count[n]);
    for (int depth = 0; order != NULL && depth < job.length; depth++) {
        struct edge edge = edges_of(node_at(root))[order[depth]];
        tell(" %d:%u", order[depth], edge.label);
        root = edge.follower;
    }
    tell("\n");
    free(order);
}

size_t bytes_of_counts(void) { return used; }

void gather(uint32_t root)
{
    width = sizeof(struct entry) + (size_t)job.limbs * sizeof(uint64_t);
    struct level *levels = calloc((size_t)job.length + 1, sizeof *levels);
    struct entry *wanted = calloc(1, width);
    if (levels == NULL || wanted == NULL)
        give_up("memory", "to count the orders of what was walked", (struct text){"", 0});
    find_ends();
    wanted->node = root;
    wanted->count[0] = 1;
    add(&levels[0], wanted, (struct origin){0, 0});
    for (int depth = 0; depth < job.length; depth++) {
        for (size_t n = 0; n < levels[depth].size; n++) {
            if (n % EACH == 0)
                tell_progress();
            pass_on(&levels[depth + 1], entry_at(&levels[depth], n), (uint32_t)n, wanted);
        }
        drop(&levels[depth]);
        rank(&levels[depth + 1]);
    }
    struct level found = outcomes_of(&levels[job.length], wanted);
    for (size_t n = 0; n < found.size; n++) {
        const struct entry *entry = entry_at(&found, n);
        tell_outcome(entry, levels, found.origins[entry->turn].before, root);
    }
}
