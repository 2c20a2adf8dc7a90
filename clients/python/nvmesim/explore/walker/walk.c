/* What a worker does: it runs each event of the states that it met first, the deepest first, and copies the program's
 * memory where more than one event may come. If another worker has nothing to do, it gives away what is left of the
 * first of its states: the other runs the events up to there again. */
#define _GNU_SOURCE
#include "walker.h"

#include <string.h>
#include <unistd.h>

/* A state of which some events were not run yet. */
struct frame {
    struct snapshot *copy;
    struct state *state;
    uint16_t choices[MOST_PARTS];
    int count, next;
};

static struct {
    struct worker *worker;
    struct frame *frames;
    struct snapshot *base;
    struct item *item;
    uint16_t *path;
    size_t length; /* of the path to the state in the first frame */
    int depth;     /* the last frame */
} *its;

static void prepare(struct worker *worker)
{
    its = room(sizeof *its);
    its->worker = worker;
    its->item = room(sizeof *its->item);
    its->path = room(MOST_LENGTH * sizeof *its->path);
    its->frames = room((size_t)(job.length + 1) * sizeof *its->frames);
    for (int n = 0; n <= job.length; n++)
        its->frames[n].state = room(state_size());
    make_labels();
    begin_tracking();
    let_fail(job.fails);
    save(&its->base);
}

/* Puts the rest of the first state with unfinished choices where another worker takes it, unless it is the last one. */
static void give(void)
{
    for (int n = 0; n <= its->depth; n++) {
        struct frame *frame = &its->frames[n];
        int left = frame->count - frame->next;
        if (left == 0)
            continue;
        if (n == its->depth && left == 1)
            return;
        int first = n == its->depth ? frame->next + 1 : frame->next;
        if (put_item(its->path, (uint32_t)(its->length + (size_t)n), frame->state, first, frame->count))
            frame->count = first;
        return;
    }
}

/* Runs an event from a state, whose result `after` becomes; whether more follows. */
static bool run(const struct frame *frame, int choice, struct state *after)
{
    const struct step *step = step_at(frame->state, choice);
    bool is_new = false;
    memcpy(after, frame->state, state_size());
    if (step->is_crash)
        crash(its->base);
    struct text label = take(after, step, ask(step->asked, asked_count(step)));
    struct edge *edge = &edges_of(node_at(frame->state->node))[choice];
    edge->label = text_number(label);
    edge->step = (uint32_t)step->number;
    after->calls_left = calls_left();
    advance(after, choice);
    after->node = meet(after, &is_new);
    edge->follower = after->node;
    its->worker->events++;
    its->worker->copies = bytes_of_copies();
    if (bytes_of_tables() > job.most_bytes / 4 * 3)
        shared->stopped = BY_MEMORY;
    if (is_new && is_end(after)) {
        let_fail(0);
        node_at(after->node)->last = text_number(ask(job.last, job.last_count));
    }
    return is_new && !is_end(after);
}

/* Runs all events from the state of the first frame on, where the program is. */
static void dig(void)
{
    bool is_there = true; /* whether the program is in the state of the last frame */
    its->depth = 0;
    while (its->depth >= 0 && !shared->stopped) {
        struct frame *frame = &its->frames[its->depth], *next = frame + 1;
        if (frame->next == frame->count) {
            its->depth--;
            is_there = false;
            continue;
        }
        if (shared->hungry > shared->queued)
            give();
        if (!is_there)
            restore(frame->copy);
        else if (frame->count - frame->next > 1)
            save(&frame->copy);
        int choice = frame->choices[frame->next++];
        is_there = run(frame, choice, next->state);
        if (!is_there)
            continue;
        its->path[its->length + (size_t)its->depth++] = (uint16_t)choice;
        next->count = choices_at(next->state, next->choices);
        next->next = 0;
    }
}

/* Brings the program to the state of some work, by its events alone. */
static void replay(void)
{
    const struct item *item = its->item;
    struct state *state = its->frames[1].state;
    begin_state(state);
    restore(its->base);
    for (uint32_t n = 0; n < item->length; n++) {
        const struct step *step = step_at(state, item->path[n]);
        if (step->is_crash)
            crash(its->base);
        else
            ask(step->event, 1);
        advance(state, item->path[n]);
    }
    memcpy(its->path, item->path, item->length * sizeof item->path[0]);
}

static void take_up(void)
{
    struct frame *first = &its->frames[0];
    replay();
    its->length = its->item->length;
    choices_at(first->state, first->choices);
    first->next = its->item->next;
    first->count = its->item->end;
    dig();
}

/* Asks for the first state. The program is asked after it was copied: a crash must not bring back what it has read. */
static void begin(void)
{
    bool is_new;
    struct state *root = its->frames[0].state;
    begin_state(root);
    take_looks(root, ask(job.first, job.look_count));
    root->calls_left = calls_left();
    shared->root = root->node = meet(root, &is_new);
    if (is_end(root))
        node_at(root->node)->last = text_number(ask(job.last, job.last_count));
    put_item(its->path, 0, root, 0, choices_at(root, its->frames[0].choices));
}

void work(struct worker *worker, bool is_first)
{
    prepare(worker);
    worker->is_busy = is_first;
    if (is_first)
        begin();
    shared->hungry++;
    while (!shared->stopped && !is_all_done()) {
        if (!take_item(its->item, its->frames[0].state)) {
            usleep(50);
            continue;
        }
        worker->is_busy = true;
        take_up();
        worker->is_busy = false;
        shared->hungry++;
    }
}
