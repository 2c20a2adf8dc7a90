/* Walks all orders of a script's marked parts inside the program nvmelive: what the files of this library share.
 *
 * The library is loaded before the C library (LD_PRELOAD), with the number of a file that has the job in NVMESIM_WALK.
 * program.c runs the program as a coroutine and copies its memory, job.c has the job, tables.c what the workers share,
 * tracks.c what answers mean, walk.c what a worker does, gather.c counts the orders, and run.c is the whole.
 */
#ifndef WALKER_H
#define WALKER_H

#include <stdatomic.h>
#include <stdbool.h>
#include <stddef.h>
#include <stdint.h>

enum stop { BY_NOTHING, BY_CALLER, BY_MEMORY, BY_FAULT };

enum {
    MOST_PARTS = 64,
    MOST_CONTROLLERS = 64,
    MOST_LOOKS = 256,
    MOST_PENDING = 32,
    MOST_FETCHED = 128,
    MOST_JOBS = 64,
    MOST_LENGTH = 4096,
    MOST_ITEMS = 64,
    MOST_ANSWER = 64 << 20, /* bytes of the answers to what is sent at once */
    WHY_SIZE = 1024
};

/* A digest of 128 bits, which represents a text or a history. */
struct digest {
    uint64_t low, high;
};

struct digest digest_of(const void *bytes, size_t size, struct digest before);
static inline bool is_same(struct digest one, struct digest other)
{
    return one.low == other.low && one.high == other.high;
}

/* Text that is not terminated. */
struct text {
    const char *at;
    size_t size;
};

bool begins_with(struct text text, const char *head);
struct text next_word(struct text *rest);
struct text next_line(struct text *rest);
uint64_t number_in(struct text word);

/* ---- job.c ---- */

/* An event: the lines that are sent for it are, if it is an execution, a look at what is fetched, then the event, then
 * what it can have changed. */
struct step {
    const char *name;
    struct text asked, event;
    const char **heads; /* what its answer begins with */
    const int *looks;   /* the places of the lines that are asked after it */
    int head_count, look_count, number;
    int controller; /* its place among the controllers, -1 for an event of all */
    int queue;      /* of a request */
    int place;      /* of an execution of a controller that there is, else -1 */
    bool is_power_cycle, is_crash;
};

struct part {
    struct step *steps;
    int count;
};

struct phase {
    struct part *parts;
    int count, length;
};

struct job {
    struct text setup, first, last; /* lines that are sent */
    int setup_count, look_count, last_count, controller_count, phase_count, length;
    bool is_shared[MOST_LOOKS], is_raw[MOST_CONTROLLERS], are_blocks_seen;
    struct phase *phases;
    const char **names; /* of the steps, by their numbers */
    int jobs, limbs; /* how many events run at once; the words that a count of orders has */
    size_t most_bytes;
    uint64_t fails; /* the call of the image that fails, 0 for none */
    int results, stop; /* files */
    double seconds;
};

extern struct job job;

/* How many lines are sent for an event. */
static inline int asked_count(const struct step *step)
{
    return (step->place >= 0) + !step->is_crash + step->look_count;
}


void read_job(int file);
void *room(size_t size);

/* ---- program.c ---- */

/* A copy of the program's memory where it waits for a line. */
struct snapshot;

/* Runs on a stack of its own once the program waits for its first line; it never returns. */
void run_all(void);
/* Sends lines, and returns their answers, each with its line feed. They stay until the next call. */
struct text ask(struct text lines, int count);
void begin_tracking(void);
void save(struct snapshot **copy);
void restore(const struct snapshot *copy);
/* Brings the program back, but not its image. */
void crash(const struct snapshot *base);
/* Which call of the image fails, counted from now; 0 for none. */
void let_fail(uint64_t call);
uint64_t calls_left(void);
size_t bytes_of_copies(void);
/* Ends this process, and with it the exploration, for a reason. */
void give_up(const char *kind, const char *why, struct text about);

/* ---- tracks.c ---- */

struct posted {
    uint32_t name, taken;
    struct digest text, found;
};

/* The requests in a controller and in its host's driver, as tracks.py has them. Requests are numbers of steps. */
struct track {
    uint32_t lane_size[2], posted_size[2], fetched_size, ticket_size, queue_size, taken[2], heard[2];
    uint32_t lanes[2][MOST_PENDING], fetched[MOST_FETCHED];
    struct posted posted[2][MOST_PENDING];
    struct {
        uint64_t ticket;
        uint32_t name;
    } tickets[MOST_PENDING];
    struct {
        uint32_t name, queue;
    } queues[MOST_PENDING];
};

/* A state, as states.py has it. */
struct state {
    uint32_t node;
    uint16_t phase, done[MOST_PARTS];
    uint64_t calls_left;
    struct digest medium, looks[MOST_LOOKS], raw[MOST_CONTROLLERS];
    struct track tracks[];
};

void make_labels(void);
size_t state_size(void);
/* A state before all events, of which nothing was asked yet. */
void begin_state(struct state *state);
void take_looks(struct state *state, struct text answers);
/* What an event's answers add to a state; the label of its answer, which stays until the next call. */
struct text take(struct state *state, const struct step *step, struct text answers);
struct digest key_of(const struct state *state);
const struct step *step_at(const struct state *state, int choice);
void advance(struct state *state, int choice);
int choices_at(const struct state *state, uint16_t *choices);
static inline bool is_end(const struct state *state) { return state->phase == job.phase_count; }

/* ---- tables.c ---- */

struct edge {
    uint32_t follower, label, step; /* the state after it, its answer, and its event */
};

/* A state that was met. Its edges are as many as its phase has parts, by their places. */
struct node {
    struct digest key;
    uint32_t next, edges, last;
    uint16_t phase;
    bool has_end; /* whether the end of an order is known after it */
};

/* Work of one worker: what follows a state. */
struct item {
    uint32_t length;
    int next, end; /* which of its choices */
    uint16_t path[MOST_LENGTH];
};

struct worker {
    _Atomic uint64_t asks, events, copies;
    _Atomic bool is_busy;
};

struct shared {
    _Atomic uint32_t nodes, states, edges, texts, positions;
    _Atomic uint64_t text_bytes;
    _Atomic uint32_t root;
    _Atomic int hungry, queued, stopped;
    atomic_flag text_lock, item_lock;
    struct worker workers[MOST_JOBS];
    char kind[32], why[WHY_SIZE];
};

extern struct shared *shared;

void make_tables(void);
/* The node of a state, and whether it is new. */
uint32_t meet(const struct state *state, bool *is_new);
struct node *node_at(uint32_t place);
struct edge *edges_of(const struct node *node);
uint32_t text_number(struct text text);
struct text text_at(uint32_t number);
size_t bytes_of_tables(void);
/* Lets another worker take the choices of a state from `next` up to `end`; false if too much waits already. */
bool put_item(const uint16_t *path, uint32_t length, const struct state *state, int next, int end);
/* Takes work for a worker that has none, which then has some. */
bool take_item(struct item *item, struct state *state);
/* Whether no worker has work. */
bool is_all_done(void);

/* ---- walk.c ---- */

void work(struct worker *worker, bool is_first);

/* ---- gather.c ---- */

void gather(uint32_t root);
size_t bytes_of_counts(void);

/* ---- run.c ---- */

void tell(const char *form, ...) __attribute__((format(printf, 1, 2)));
/* Reports the progress, and takes the caller's wish to stop. */
void tell_progress(void);

#endif
