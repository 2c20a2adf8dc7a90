/* What an event's answers add to a state: a copy of states.py and tracks.py, which say why. */
#include "walker.h"

#include <stdio.h>
#include <string.h>

static const uint32_t UNNAMED = UINT32_MAX;
static const struct text NOTHING = {"", 0};
static const char *const TELLING[] = {"read", "reservation_report", "identify", "get_features", NULL};
static const char *const WRITING[] = {"write", "write_zeroes", NULL};

/* Room for a label. */
static struct label {
    char *at;
    size_t capacity;
} *label;

/* Is called before copies of memory are taken, so that none has the place of the label. */
void make_labels(void) { label = room(sizeof *label); }

__extension__ typedef unsigned __int128 wide;

struct digest digest_of(const void *bytes, size_t size, struct digest before)
{
    const wide factor = (wide)0x9e3779b97f4a7c15 << 64 | 0xf39cc0605cedc835;
    const char *at = bytes;
    wide found = ((wide)before.high << 64 | before.low) + 1;
    for (size_t place = 0; place <= size; place += sizeof(uint64_t)) {
        uint64_t piece = 0;
        size_t left = size - place;
        memcpy(&piece, at + place, left < sizeof piece ? left : sizeof piece);
        found = (found ^ piece ^ ((wide)(left < sizeof piece ? left + 1 : 0) << 64)) * factor;
        found ^= found >> 71;
    }
    return (struct digest){(uint64_t)found, (uint64_t)(found >> 64)};
}

static struct digest digest_of_text(struct text text) { return digest_of(text.at, text.size, (struct digest){0, 0}); }

size_t state_size(void) { return sizeof(struct state) + (size_t)job.controller_count * sizeof(struct track); }

void begin_state(struct state *state)
{
    memset(state, 0, state_size());
    while (state->phase < job.phase_count && job.phases[state->phase].length == 0)
        state->phase++;
}

void take_looks(struct state *state, struct text answers)
{
    for (int n = 0; n < job.look_count; n++)
        state->looks[n] = digest_of_text(next_line(&answers));
}

const struct step *step_at(const struct state *state, int choice)
{
    return &job.phases[state->phase].parts[choice].steps[state->done[choice]];
}

int choices_at(const struct state *state, uint16_t *choices)
{
    int count = 0;
    if (is_end(state))
        return 0;
    const struct phase *phase = &job.phases[state->phase];
    for (int n = 0; n < phase->count; n++)
        if (state->done[n] < phase->parts[n].count)
            choices[count++] = (uint16_t)n;
    return count;
}

void advance(struct state *state, int choice)
{
    int done = 0;
    state->done[choice]++;
    for (int n = 0; n < MOST_PARTS; n++)
        done += state->done[n];
    while (!is_end(state) && done == job.phases[state->phase].length) {
        state->phase++;
        memset(state->done, 0, sizeof state->done);
        done = 0;
    }
}

static void *removed(void *from, uint32_t *size, uint32_t place, size_t width)
{
    char *at = (char *)from + place * width;
    memmove(at, at + width, (--*size - place) * width);
    return from;
}

/* Room for one more; the program never has as many in progress as there is room for. */
static uint32_t one_more(uint32_t *size, uint32_t most)
{
    if (*size == most)
        give_up("unsuited", "a controller has too many requests in progress", NOTHING);
    return (*size)++;
}

static uint32_t queue_of(const struct track *track, uint32_t name, struct text answer)
{
    for (uint32_t n = 0; n < track->queue_size; n++)
        if (track->queues[n].name == name)
            return track->queues[n].queue;
    give_up("protocol", "it is about a request that is not in progress:", answer);
    return 0;
}

static void placed(struct track *track, const struct step *step, uint64_t ticket)
{
    uint32_t name = (uint32_t)step->number, queue = (uint32_t)step->queue, place;
    place = one_more(&track->lane_size[queue], MOST_PENDING);
    track->lanes[queue][place] = name;
    place = one_more(&track->ticket_size, MOST_PENDING);
    track->tickets[place].ticket = ticket;
    track->tickets[place].name = name;
    place = one_more(&track->queue_size, MOST_PENDING);
    track->queues[place].name = name;
    track->queues[place].queue = queue;
}

static void took(struct track *track, uint64_t queue)
{
    uint32_t place = one_more(&track->fetched_size, MOST_FETCHED);
    track->fetched[place] = UNNAMED;
    if (queue > 1 || track->lane_size[queue] == 0)
        return;
    track->fetched[place] = track->lanes[queue][0];
    removed(track->lanes[queue], &track->lane_size[queue], 0, sizeof track->lanes[queue][0]);
    track->taken[queue]++;
}

static uint32_t executed(struct track *track, uint64_t place, struct text told, struct digest found, struct text answer)
{
    if (place >= track->fetched_size)
        give_up("protocol", "it executes more than was fetched:", answer);
    uint32_t name = track->fetched[place];
    removed(track->fetched, &track->fetched_size, (uint32_t)place, sizeof track->fetched[0]);
    if (name != UNNAMED) {
        uint32_t queue = queue_of(track, name, answer), last = one_more(&track->posted_size[queue], MOST_PENDING);
        track->posted[queue][last] = (struct posted){name, track->taken[queue], digest_of_text(told), found};
    }
    return name;
}

/* The completion of a request was taken, which reported how many commands were fetched. */
static void heard(struct track *track, uint32_t name, uint32_t queue)
{
    bool is_first = true;
    for (uint32_t n = 0; n < track->posted_size[queue];) {
        struct posted *it = &track->posted[queue][n];
        if (it->name != name) {
            n++;
            continue;
        }
        track->heard[queue] = is_first ? it->taken : track->heard[queue];
        is_first = false;
        removed(track->posted[queue], &track->posted_size[queue], n, sizeof *it);
    }
}

static uint32_t polled(struct track *track, uint64_t ticket, bool is_aborted, struct text answer)
{
    uint32_t name = UNNAMED;
    for (uint32_t n = 0; n < track->ticket_size;) {
        if (track->tickets[n].ticket == ticket) {
            name = track->tickets[n].name;
            removed(track->tickets, &track->ticket_size, n, sizeof track->tickets[0]);
        } else {
            n++;
        }
    }
    if (name == UNNAMED)
        give_up("protocol", "it delivers a ticket under which no request waits:", answer);
    uint32_t queue = queue_of(track, name, answer);
    for (uint32_t n = track->queue_size; n-- > 0;)
        if (track->queues[n].name == name)
            removed(track->queues, &track->queue_size, n, sizeof track->queues[0]);
    if (!is_aborted)
        heard(track, name, queue);
    return name;
}

static void emptied(struct track *track)
{
    memset(track->lane_size, 0, sizeof track->lane_size);
    memset(track->posted_size, 0, sizeof track->posted_size);
    memset(track->taken, 0, sizeof track->taken);
    memset(track->heard, 0, sizeof track->heard);
    track->fetched_size = 0;
}

/* ---- labels ---- */

static char *label_room(size_t size)
{
    if (label->capacity < size)
        label->at = room(label->capacity = 2 * size);
    return label->at;
}

static struct text labelled_as(const char *name, struct text words)
{
    size_t head = strlen(name), size = head + 1 + words.size;
    char *at = label_room(size);
    memcpy(at, name, head);
    at[head] = ' ';
    memcpy(at + head + 1, words.at, words.size);
    return (struct text){at, words.size == 0 ? head : size};
}

static struct text of_request(uint32_t number, struct text words)
{
    return labelled_as(number == UNNAMED ? "?" : job.names[number], words);
}

static bool is_word(struct text word, const char *wanted)
{
    return word.size == strlen(wanted) && memcmp(word.at, wanted, word.size) == 0;
}

/* An answer by the names of requests, without controllers and tickets, which orders number differently. */
static struct text labelled(struct state *state, const struct step *step, struct text answer, struct digest found)
{
    struct track *track = step->controller < 0 ? NULL : &state->tracks[step->controller];
    struct text rest = answer, head = next_word(&rest);
    next_word(&rest);
    struct text words = rest, first = next_word(&words), after = words, second = next_word(&after);
    if (is_word(head, "placed")) {
        placed(track, step, number_in(first));
        return head;
    }
    if (is_word(head, "fetch") && second.size > 0) {
        if (is_word(second, "took"))
            took(track, number_in(first));
        return second;
    }
    if (is_word(head, "execute") && second.size > 0)
        return is_word(second, "posted")
                   ? of_request(executed(track, number_in(first), after, found, answer), words)
                   : second;
    if (is_word(head, "poll") && second.size > 0)
        return of_request(polled(track, number_in(first), is_word(second, "aborted"), answer), words);
    if (is_word(head, "reset") || (is_word(head, "up") && is_word(rest, "ok")))
        emptied(track);
    if (is_word(head, "up") || is_word(head, "poll"))
        return rest;
    char name[32];
    snprintf(name, sizeof name, "%.*s", (int)head.size, head.at);
    return labelled_as(name, rest);
}

/* ---- states ---- */

static bool is_among(struct text word, const char *const *words)
{
    for (; *words != NULL; words++)
        if (is_word(word, *words))
            return true;
    return false;
}

/* The opcode's name of the command at a place of those that are fetched; nothing if there is none. */
static struct text opcode_at(struct text fetched, int place)
{
    while (fetched.size > 0)
        if (is_word(next_word(&fetched), "name") && place-- == 0)
            return next_word(&fetched);
    return NOTHING;
}

/* What represents all that hosts share. */
static struct digest shared_by_hosts(const struct state *state)
{
    struct digest found = state->medium;
    for (int n = 0; n < job.look_count; n++)
        if (job.is_shared[n])
            found = digest_of(&state->looks[n], sizeof state->looks[n], found);
    return found;
}

static void chain_raw(struct state *state, const struct step *step, struct text answer, struct digest found)
{
    for (int n = 0; n < job.controller_count; n++) {
        if (!job.is_raw[n] || (n != step->controller && !step->is_power_cycle))
            continue;
        struct digest chain = digest_of(&step->number, sizeof step->number, state->raw[n]);
        chain = digest_of(answer.at, answer.size, chain);
        state->raw[n] = digest_of(&found, sizeof found, chain);
    }
}

static void check_fits(const struct step *step, struct text answer)
{
    for (int n = 0; n < step->head_count; n++) {
        size_t size = strlen(step->heads[n]);
        if (begins_with(answer, step->heads[n]) && (answer.size == size || answer.at[size] == ' '))
            return;
    }
    give_up("protocol", step->name, answer);
}

static struct text take_crash(struct state *state)
{
    memset(state->tracks, 0, (size_t)job.controller_count * sizeof state->tracks[0]);
    memset(state->raw, 0, sizeof state->raw);
    return (struct text){"crash", strlen("crash")};
}

static struct text take_event(struct state *state, const struct step *step, struct text *answers)
{
    struct text fetched = step->place >= 0 ? next_line(answers) : NOTHING, answer = next_line(answers);
    struct text opcode = opcode_at(fetched, step->place), told = answer;
    struct digest found = is_among(opcode, TELLING) ? shared_by_hosts(state) : (struct digest){0, 0};
    check_fits(step, answer);
    if (step->is_power_cycle)
        for (int n = 0; n < job.controller_count; n++)
            emptied(&state->tracks[n]);
    else
        told = labelled(state, step, answer, found);
    chain_raw(state, step, answer, found);
    if (is_among(opcode, WRITING) && !job.are_blocks_seen) {
        state->medium = digest_of(told.at, told.size, state->medium);
        if (job.is_raw[step->controller])
            state->medium = digest_of(&state->raw[step->controller], sizeof(struct digest), state->medium);
    }
    return told;
}

struct text take(struct state *state, const struct step *step, struct text answers)
{
    struct text told = step->is_crash ? take_crash(state) : take_event(state, step, &answers);
    for (int n = 0; n < step->look_count; n++)
        state->looks[step->looks[n]] = digest_of_text(next_line(&answers));
    return told;
}

static struct digest digest_of_track(const struct track *it, struct digest found)
{
    found = digest_of(it, offsetof(struct track, lanes), found);
    for (int queue = 0; queue < 2; queue++) {
        found = digest_of(it->lanes[queue], it->lane_size[queue] * sizeof it->lanes[0][0], found);
        found = digest_of(it->posted[queue], it->posted_size[queue] * sizeof it->posted[0][0], found);
    }
    found = digest_of(it->fetched, it->fetched_size * sizeof it->fetched[0], found);
    for (uint32_t n = 0; n < it->ticket_size; n++) {
        uint64_t pair[] = {it->tickets[n].ticket, it->tickets[n].name};
        found = digest_of(pair, sizeof pair, found);
    }
    return digest_of(it->queues, it->queue_size * sizeof it->queues[0], found);
}

struct digest key_of(const struct state *state)
{
    struct digest found = digest_of(state->done, sizeof state->done, state->medium);
    found = digest_of(&state->phase, sizeof state->phase, found);
    found = digest_of(&state->calls_left, sizeof state->calls_left, found);
    found = digest_of(state->looks, (size_t)job.look_count * sizeof state->looks[0], found);
    found = digest_of(state->raw, (size_t)job.controller_count * sizeof state->raw[0], found);
    for (int n = 0; n < job.controller_count; n++)
        found = digest_of_track(&state->tracks[n], found);
    return found;
}
