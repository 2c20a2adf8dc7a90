/* The whole: the setup, workers that are forked there, their progress, and what they found. Results are lines. */
#define _GNU_SOURCE
#include "walker.h"

#include <poll.h>
#include <signal.h>
#include <stdarg.h>
#include <stdio.h>
#include <stdlib.h>
#include <string.h>
#include <sys/prctl.h>
#include <sys/wait.h>
#include <time.h>
#include <unistd.h>

enum { SHORT_MS = 1, LONG_MS = 20, SHORT_TURNS = 50, REPORTED = 5 };

/* With what a worker ends that has done its work; the program ends with nothing of the kind. */
enum { DONE = 93 };

static FILE *results;
static pid_t workers[MOST_JOBS];
static bool is_worker;

void tell(const char *form, ...)
{
    va_list given;
    va_start(given, form);
    vfprintf(results, form, given);
    va_end(given);
}

/* Ends the workers that still run. */
static void end_workers(void)
{
    for (int n = 0; n < job.jobs; n++)
        if (workers[n] > 0) {
            kill(workers[n], SIGKILL);
            waitpid(workers[n], NULL, 0);
        }
}

static void end_with_fault(const char *kind, const char *why)
{
    end_workers();
    if (results == NULL)
        _exit(1); /* before the job was read: the caller sees the end */
    tell("fault %s %s\n", kind, why);
    fflush(results);
    _exit(1);
}

void give_up(const char *kind, const char *why, struct text about)
{
    char whole[WHY_SIZE];
    snprintf(whole, sizeof whole, "%s%s%.*s", why, *why != 0 && about.size > 0 ? " " : "", (int)about.size, about.at);
    if (!is_worker)
        end_with_fault(kind, whole);
    if (atomic_exchange(&shared->stopped, BY_FAULT) != BY_FAULT) {
        memcpy(shared->why, whole, sizeof whole);
        snprintf(shared->kind, sizeof shared->kind, "%s", kind);
    }
    _exit(1);
}

static void start_workers(void)
{
    fflush(results);
    for (int n = 0; n < job.jobs; n++) {
        workers[n] = fork();
        if (workers[n] < 0)
            end_with_fault("memory", "the system lets no more processes begin");
        if (workers[n] > 0)
            continue;
        is_worker = true;
        prctl(PR_SET_PDEATHSIG, SIGKILL);
        work(&shared->workers[n], n == 0);
        _exit(DONE);
    }
}

static uint64_t sum_of(bool is_copies)
{
    uint64_t sum = 0;
    for (int n = 0; n < job.jobs; n++)
        sum += is_copies ? shared->workers[n].copies : shared->workers[n].events;
    return sum;
}

/* Notes whether the caller has stopped the exploration, after a while. */
static void heed_caller(int milliseconds)
{
    struct pollfd caller = {.fd = job.results, .events = POLLIN};
    poll(&caller, shared->stopped ? 0 : 1, milliseconds);
    if (caller.revents != 0 && !shared->stopped)
        shared->stopped = BY_CALLER;
}

void tell_progress(void)
{
    uint64_t bytes = bytes_of_tables() + sum_of(true) + bytes_of_counts();
    tell("progress %u %u %llu %llu\n", shared->states, shared->positions, (unsigned long long)sum_of(false),
         (unsigned long long)bytes);
    fflush(results);
    heed_caller(0);
}

/* Stops the walk at three quarters of the memory, since the counts take some too. */
static void check_memory(void)
{
    if (bytes_of_tables() + sum_of(true) > job.most_bytes / 4 * 3 && !shared->stopped)
        shared->stopped = BY_MEMORY;
}

static double now(void)
{
    struct timespec time;
    clock_gettime(CLOCK_MONOTONIC, &time);
    return (double)time.tv_sec + (double)time.tv_nsec / 1e9;
}

/* Ends all if a worker has waited for an answer for too long. */
static void check_time(void)
{
    static uint64_t asks[MOST_JOBS];
    static double since[MOST_JOBS];
    for (int n = 0; n < job.jobs; n++) {
        const struct worker *worker = &shared->workers[n];
        if (!worker->is_busy || worker->events != asks[n] || since[n] == 0)
            since[n] = now();
        asks[n] = worker->events;
        if (now() - since[n] > job.seconds)
            end_with_fault("hangs", "");
    }
}

/* A worker has ended where the program ended it. */
static void end_with_status(int status)
{
    char number[16];
    snprintf(number, sizeof number, "%d", WIFSIGNALED(status) ? -WTERMSIG(status) : WEXITSTATUS(status));
    end_with_fault("died", number);
}

/* Takes the end of a worker; how many have ended. */
static int ended(void)
{
    int count = 0, status;
    for (int n = 0; n < job.jobs; n++) {
        if (workers[n] > 0 && waitpid(workers[n], &status, WNOHANG) == workers[n]) {
            workers[n] = 0;
            if (shared->kind[0] != 0)
                end_with_fault(shared->kind, shared->why);
            if (WIFSIGNALED(status) || WEXITSTATUS(status) != DONE)
                end_with_status(status);
        }
        count += workers[n] == 0;
    }
    return count;
}

static void wait_for_workers(void)
{
    for (int turn = 1; ended() < job.jobs; turn++) {
        heed_caller(turn < SHORT_TURNS ? SHORT_MS : LONG_MS);
        check_time();
        check_memory();
        if (turn % REPORTED == 0)
            tell_progress();
    }
}

static void set_up(void)
{
    struct text answers = ask(job.setup, job.setup_count);
    while (answers.size > 0) {
        struct text answer = next_line(&answers);
        if (!begins_with(answer, "ok") && !begins_with(answer, "started"))
            give_up("protocol", "neither ok nor started:", answer);
    }
}

/* Reports the texts that outcomes name by numbers. */
static void tell_texts(void)
{
    for (uint32_t n = 1; n < shared->texts; n++) {
        struct text text = text_at(n);
        tell("text %zu\n", text.size);
        fwrite(text.at, 1, text.size, results);
    }
}

void run_all(void)
{
    int file = -1;
    if (sscanf(getenv("NVMESIM_WALK"), "%d %d", &file, &job.results) != 2)
        _exit(2);
    results = fdopen(job.results, "w");
    read_job(file);
    close(file);
    tell("begun\n");
    set_up();
    make_tables();
    start_workers();
    wait_for_workers();
    for (int n = 0; n < job.jobs; n++)
        shared->workers[n].copies = 0;
    tell_texts();
    gather(shared->root);
    tell("end %d\n", (int)shared->stopped);
    fflush(results);
    _exit(0);
}
