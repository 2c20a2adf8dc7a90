/* The job: what the explorer has compiled from a plan, as lines of numbers and texts. */
#include "walker.h"

#include <stdio.h>
#include <stdlib.h>
#include <string.h>
#include <unistd.h>

struct job job;

/* What was not read yet. */
static struct text rest;

bool begins_with(struct text text, const char *head)
{
    size_t size = strlen(head);
    return text.size >= size && memcmp(text.at, head, size) == 0;
}

/* The text up to a mark, which is left out, and what follows. */
static struct text next_to(struct text *from, char mark)
{
    const char *end = from->size == 0 ? NULL : memchr(from->at, mark, from->size);
    size_t size = end == NULL ? from->size : (size_t)(end - from->at);
    struct text found = {from->at, size};
    size += end != NULL;
    *from = (struct text){from->at + size, from->size - size};
    return found;
}

struct text next_word(struct text *from) { return next_to(from, ' '); }

struct text next_line(struct text *from) { return next_to(from, '\n'); }

uint64_t number_in(struct text word)
{
    uint64_t number = 0;
    for (size_t n = 0; n < word.size && word.at[n] >= '0' && word.at[n] <= '9'; n++)
        number = 10 * number + (uint64_t)(word.at[n] - '0');
    return number;
}

static int next_number(struct text *line)
{
    struct text word = next_word(line);
    bool is_negative = begins_with(word, "-");
    int number = (int)number_in((struct text){word.at + is_negative, word.size - is_negative});
    return is_negative ? -number : number;
}

static const char *next_name(void)
{
    struct text line = next_line(&rest);
    char *name = room(line.size + 1);
    memcpy(name, line.at, line.size);
    return name;
}

/* The next `count` lines, with their line feeds. */
static struct text next_lines(int count)
{
    struct text found = {rest.at, 0};
    for (; count > 0; count--)
        next_line(&rest);
    found.size = (size_t)(rest.at - found.at);
    return found;
}

static void read_step(struct step *step, int number)
{
    struct text line = next_line(&rest);
    step->number = number;
    step->controller = next_number(&line);
    step->queue = next_number(&line);
    step->place = next_number(&line);
    step->is_power_cycle = next_number(&line) != 0;
    step->is_crash = next_number(&line) != 0;
    step->head_count = next_number(&line);
    step->look_count = next_number(&line);
    int *looks = room((size_t)step->look_count * sizeof *looks + 1);
    for (int n = 0; n < step->look_count; n++)
        looks[n] = next_number(&line);
    step->looks = looks;
    job.names[number] = step->name = next_name();
    step->heads = room((size_t)step->head_count * sizeof *step->heads + 1);
    for (int n = 0; n < step->head_count; n++)
        step->heads[n] = next_name();
    struct text asked = step->asked = next_lines(asked_count(step));
    if (step->place >= 0)
        next_line(&asked);
    step->event = asked;
    next_line(&asked);
    step->event.size -= asked.size;
}

static void read_phase(struct phase *phase, int *number)
{
    struct text line = next_line(&rest);
    phase->count = next_number(&line);
    phase->parts = room((size_t)phase->count * sizeof *phase->parts + 1);
    for (int n = 0; n < phase->count; n++) {
        struct part *part = &phase->parts[n];
        line = next_line(&rest);
        part->count = next_number(&line);
        part->steps = room((size_t)part->count * sizeof *part->steps + 1);
        for (int place = 0; place < part->count; place++)
            read_step(&part->steps[place], (*number)++);
        phase->length += part->count;
    }
}

static void read_all_of(int file)
{
    size_t size = 0, capacity = 1 << 20;
    char *text = malloc(capacity);
    ssize_t count = 1;
    while (text != NULL && (count = read(file, text + size, capacity - size)) > 0) {
        size += (size_t)count;
        if (size == capacity)
            text = realloc(text, capacity *= 2);
    }
    if (text == NULL || count < 0)
        give_up("unsuited", "the job can't be read", (struct text){"", 0});
    char *kept = room(size + 1);
    memcpy(kept, text, size);
    free(text);
    rest = (struct text){kept, size};
}

void read_job(int file)
{
    read_all_of(file);
    struct text line = next_line(&rest);
    job.jobs = next_number(&line);
    job.limbs = next_number(&line);
    job.most_bytes = number_in(next_word(&line));
    job.seconds = (double)number_in(next_word(&line)) / 1000;
    job.fails = number_in(next_word(&line));
    job.are_blocks_seen = next_number(&line) != 0;
    job.setup_count = next_number(&line);
    job.look_count = next_number(&line);
    job.last_count = next_number(&line);
    job.controller_count = next_number(&line);
    job.phase_count = next_number(&line);
    job.length = next_number(&line);
    line = next_line(&rest);
    for (int n = 0; n < job.look_count; n++)
        job.is_shared[n] = next_number(&line) != 0;
    line = next_line(&rest);
    for (int n = 0; n < job.controller_count; n++)
        job.is_raw[n] = next_number(&line) != 0;
    job.setup = next_lines(job.setup_count);
    job.first = next_lines(job.look_count);
    job.last = next_lines(job.last_count);
    job.names = room((size_t)job.length * sizeof *job.names);
    job.phases = room((size_t)job.phase_count * sizeof *job.phases);
    int number = 0;
    for (int n = 0; n < job.phase_count; n++)
        read_phase(&job.phases[n], &number);
}
