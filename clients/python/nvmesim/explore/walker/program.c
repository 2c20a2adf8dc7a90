/* The program as a coroutine of the walker, and copies of its memory.
 *
 * The program waits in read() while the walker runs on a stack of its own. A copy keeps the memory of that
 * point: the stack, and each page that was written since tracking began. A page is write-protected until it is written
 * first; what it had before is kept, and from then on each copy has it. */
#define _GNU_SOURCE
#include "walker.h"

#include <dlfcn.h>
#include <errno.h>
#include <signal.h>
#include <stdio.h>
#include <stdlib.h>
#include <string.h>
#include <sys/mman.h>
#include <sys/stat.h>
#include <sys/syscall.h>
#include <ucontext.h>
#include <unistd.h>

enum { PAGE = 4096, PIECE = 256, MOST_REGIONS = 256, MOST_FILES = 64, BELOW_FRAME = 1024 };

static const size_t ARENA = (size_t)8 << 30, STACK = 1 << 20, MOST_PAGES = 1 << 17;

struct region {
    char *begin, *end;
};

struct snapshot {
    size_t capacity, used, page_count, stack_size;
    uint64_t left;
    char *stack;
    ucontext_t program;
    char bytes[]; /* for each piece whether it differs from its base, then those that do: the stack, and the pages */
};

/* What the program calls instead of the C library's functions. */
#define INSTEAD __attribute__((visibility("default")))

/* All of it is in the arena, which no copy has. */
static struct {
    ucontext_t program, walker;
    struct region arena, regions[MOST_REGIONS], files[MOST_FILES];
    size_t region_count, page_count, copied, output_size, first_size;
    struct text input;
    char *used, *stack, *stack_end, *output, **pages, *before, *first_stack;
    void *heap_end;
    uint64_t left; /* calls of the image until one fails, 0 if none does */
    bool is_tracking;
} *it;

static ssize_t (*next_read)(int, void *, size_t);
static ssize_t (*next_write)(int, const void *, size_t);
static ssize_t (*next_pread)(int, void *, size_t, off_t);
static ssize_t (*next_pwrite)(int, const void *, size_t, off_t);
static int (*next_fsync)(int);

__attribute__((constructor)) static void find_next(void)
{
    *(void **)&next_read = dlsym(RTLD_NEXT, "read");
    *(void **)&next_write = dlsym(RTLD_NEXT, "write");
    *(void **)&next_pread = dlsym(RTLD_NEXT, "pread");
    *(void **)&next_pwrite = dlsym(RTLD_NEXT, "pwrite");
    *(void **)&next_fsync = dlsym(RTLD_NEXT, "fsync");
}

/* Memory that is private to this process and in no copy: by the system itself, so that `mmap` is the program's own. */
static char *mapped(size_t size)
{
    int flags = MAP_PRIVATE | MAP_ANONYMOUS | MAP_NORESERVE;
    long found = syscall(SYS_mmap, NULL, size, PROT_READ | PROT_WRITE, flags, -1, 0);
    if (found == -1)
        give_up("unsuited", "the system gives no memory", (struct text){"", 0});
    return (char *)found;
}

/* Zeros of the arena that stay. */
void *room(size_t size)
{
    char *found = it->used;
    it->used += (size + 63) / 64 * 64;
    if (it->used > it->arena.end)
        give_up("unsuited", "the walker's own memory is full", (struct text){"", 0});
    return found;
}

static void start(void (*run)(void))
{
    char *arena = mapped(ARENA);
    it = (void *)arena;
    it->arena = (struct region){arena, arena + ARENA};
    it->used = arena + (sizeof *it + PAGE - 1) / PAGE * PAGE;
    it->output = room(MOST_ANSWER);
    it->pages = room(MOST_PAGES * sizeof *it->pages);
    it->before = room(MOST_PAGES * PAGE);
    getcontext(&it->walker);
    it->walker.uc_stack.ss_sp = room(STACK);
    it->walker.uc_stack.ss_size = STACK;
    makecontext(&it->walker, run, 0);
}

INSTEAD ssize_t read(int file, void *to, size_t size)
{
    if (file != STDIN_FILENO || size == 0 || getenv("NVMESIM_WALK") == NULL)
        return next_read(file, to, size);
    if (it == NULL)
        start(run_all);
    it->stack = (char *)__builtin_frame_address(0) - BELOW_FRAME;
    while (it->input.size == 0)
        swapcontext(&it->program, &it->walker);
    size_t count = it->input.size < size ? it->input.size : size;
    memcpy(to, it->input.at, count);
    it->input = (struct text){it->input.at + count, it->input.size - count};
    return (ssize_t)count;
}

INSTEAD ssize_t write(int file, const void *from, size_t size)
{
    if (file != STDOUT_FILENO || it == NULL)
        return next_write(file, from, size);
    if (size > MOST_ANSWER - it->output_size)
        give_up("unsuited", "an answer is too long", (struct text){"", 0});
    memcpy(it->output + it->output_size, from, size);
    it->output_size += size;
    return (ssize_t)size;
}

static void give_up_script(struct text line, struct text answer)
{
    char why[WHY_SIZE];
    snprintf(why, sizeof why, "'%.*s' was answered '%.*s'", (int)line.size, line.at, (int)answer.size, answer.at);
    give_up("script", why, (struct text){"", 0});
}

/* Refuses an answer that reports a fault of its line, and answers that are too few or too many. */
static void check(struct text lines, int count, struct text answers)
{
    for (; count > 0 && answers.size > 0; count--) {
        struct text line = next_line(&lines), answer = next_line(&answers);
        if (begins_with(answer, "!"))
            give_up_script(line, answer);
        if (answers.size == 0 && count > 1)
            give_up("protocol", "no answer to the line", line);
    }
    if (count > 0 || answers.size > 0)
        give_up("protocol", "it answers no line:", answers);
}

/* A program that refuses its setup ends after its answer. */
__attribute__((destructor)) static void report_refusal(void)
{
    struct text answers = {it == NULL ? "" : it->output, it == NULL || it->is_tracking ? 0 : it->output_size};
    while (answers.size > 0) {
        struct text answer = next_line(&answers);
        if (begins_with(answer, "refused line"))
            give_up("configuration", "", answer);
    }
}

struct text ask(struct text lines, int count)
{
    it->output_size = 0;
    it->input = lines;
    swapcontext(&it->walker, &it->program);
    if (it->is_tracking && sbrk(0) != it->heap_end)
        give_up("unsuited", "the program takes more memory from the system", (struct text){"", 0});
    struct text answers = {it->output, it->output_size};
    check(lines, count, answers);
    return answers;
}

/* More memory than the program had when its memory was copied first would be in no copy. */
INSTEAD void *mmap(void *at, size_t size, int protection, int flags, int file, off_t place)
{
    if (it != NULL && it->is_tracking)
        give_up("unsuited", "the program maps more memory", (struct text){"", 0});
    long found = syscall(SYS_mmap, at, size, protection, flags, file, place);
    return found == -1 ? MAP_FAILED : (void *)found;
}

/* ---- the image ---- */

/* The bytes of an open image that a call reaches, at most `size`; NULL if the file is none. */
static char *reached(int file, off_t place, size_t *size)
{
    if (it == NULL || !it->is_tracking || file < 0 || file >= MOST_FILES || it->files[file].begin == NULL)
        return NULL;
    char *at = it->files[file].begin + place, *end = it->files[file].end;
    *size = at >= end ? 0 : (size_t)(end - at) < *size ? (size_t)(end - at) : *size;
    return at;
}

/* Counts a call of the image; whether it fails. */
static bool fails(const char *at)
{
    bool is_last = at != NULL && it->left == 1;
    if (at != NULL && it->left > 0)
        it->left--;
    if (is_last)
        errno = EIO;
    return is_last;
}

void let_fail(uint64_t call) { it->left = call; }

uint64_t calls_left(void) { return it->left; }

INSTEAD ssize_t pread(int file, void *to, size_t size, off_t place)
{
    char *at = reached(file, place, &size);
    if (at == NULL)
        return next_pread(file, to, size, place);
    if (fails(at))
        return -1;
    memcpy(to, at, size);
    return (ssize_t)size;
}

INSTEAD ssize_t pwrite(int file, const void *from, size_t size, off_t place)
{
    char *at = reached(file, place, &size);
    if (at == NULL)
        return next_pwrite(file, from, size, place);
    if (fails(at))
        return -1;
    memcpy(at, from, size);
    return (ssize_t)size;
}

INSTEAD int fsync(int file)
{
    size_t size = 0;
    const char *at = reached(file, 0, &size);
    return at == NULL ? next_fsync(file) : fails(at) ? -1 : 0;
}

/* Maps each image that is open, so that what is written there stays in memory, and copies have it. */
static void map_images(void)
{
    struct stat found;
    for (int file = STDERR_FILENO + 1; file < MOST_FILES; file++) {
        if (file == job.results || fstat(file, &found) != 0 || !S_ISREG(found.st_mode) || found.st_size == 0)
            continue;
        size_t size = (size_t)found.st_size;
        long at = syscall(SYS_mmap, NULL, size, PROT_READ | PROT_WRITE, MAP_PRIVATE | MAP_NORESERVE, file, 0);
        if (at == -1)
            give_up("unsuited", "the image can't be mapped", (struct text){"", 0});
        it->files[file] = (struct region){(char *)at, (char *)at + size};
    }
}

/* ---- copies ---- */

/* Notes a page that is written first, and lets it be written. */
static void note(int number, siginfo_t *about, void *context)
{
    (void)context;
    char *page = (char *)((uintptr_t)about->si_addr / PAGE * PAGE);
    bool is_tracked = false;
    for (size_t n = 0; n < it->region_count; n++)
        is_tracked = is_tracked || (it->regions[n].begin <= page && page < it->regions[n].end);
    if (!is_tracked || it->page_count == MOST_PAGES) {
        signal(number, SIG_DFL); /* its own fault, which comes again */
        return;
    }
    memcpy(it->before + it->page_count * PAGE, page, PAGE);
    it->pages[it->page_count++] = page;
    if (mprotect(page, PAGE, PROT_READ | PROT_WRITE) != 0)
        signal(number, SIG_DFL);
}

/* Takes a line of the list of the system's regions: private memory that may be written is tracked. */
static void take_region(const char *line)
{
    unsigned long begin, end;
    char kind[5], name[128] = "";
    if (sscanf(line, "%lx-%lx %4s %*s %*s %*s %127s", &begin, &end, kind, name) < 3)
        return;
    if (strcmp(name, "[stack]") == 0)
        it->stack_end = (char *)end;
    if (kind[1] != 'w' || kind[3] != 'p' || strcmp(name, "[stack]") == 0)
        return;
    struct region parts[] = {{(char *)begin, (char *)end}, {(char *)end, (char *)end}};
    if (parts[0].begin < it->arena.end && it->arena.begin < parts[0].end) { /* the system joins neighbours */
        parts[1] = (struct region){it->arena.end, parts[0].end};
        parts[0].end = it->arena.begin;
    }
    for (int n = 0; n < 2; n++) {
        if (parts[n].begin >= parts[n].end)
            continue;
        if (it->region_count == MOST_REGIONS)
            give_up("unsuited", "its memory is in too many regions", (struct text){"", 0});
        it->regions[it->region_count++] = parts[n];
    }
}

void begin_tracking(void)
{
    if (sysconf(_SC_PAGESIZE) != PAGE)
        give_up("unsuited", "pages have another size", (struct text){"", 0});
    map_images();
    FILE *list = fopen("/proc/self/maps", "r");
    char line[512];
    if (list == NULL)
        give_up("unsuited", "there is no /proc/self/maps", (struct text){"", 0});
    while (fgets(line, sizeof line, list) != NULL)
        take_region(line);
    fclose(list);
    struct sigaction on_fault = {.sa_flags = SA_SIGINFO};
    on_fault.sa_sigaction = note;
    sigaction(SIGSEGV, &on_fault, NULL);
    it->heap_end = sbrk(0);
    it->is_tracking = true;
    for (size_t n = 0; n < it->region_count; n++)
        if (mprotect(it->regions[n].begin, (size_t)(it->regions[n].end - it->regions[n].begin), PROT_READ) != 0)
            give_up("unsuited", "its memory can't be protected", (struct text){"", 0});
}

static size_t pieces(size_t size) { return (size + PIECE - 1) / PIECE; }

/* The room that a copy needs for its notes of what differs, at its beginning. */
static size_t notes_size(size_t stack_size, size_t page_count)
{
    return pieces(stack_size) + page_count * (PAGE / PIECE);
}

/* Appends the pieces of memory that differ from its base, and notes which; the end of what was appended. Without a base
 * all do. */
static char *put(char *to, bool *differs, const char *at, const char *base, size_t size)
{
    for (size_t n = 0; n < size; n += PIECE, differs++) {
        size_t some = size - n < PIECE ? size - n : PIECE;
        *differs = base == NULL || memcmp(at + n, base + n, some) != 0;
        if (*differs) {
            memcpy(to, at + n, some);
            to += some;
        }
    }
    return to;
}

/* Brings back the pieces that were appended, and the base for the others; the end of what was read. Without notes it is
 * the base alone. */
static const char *get(const char *from, const bool *differs, char *at, const char *base, size_t size)
{
    for (size_t n = 0; n < size; n += PIECE) {
        size_t some = size - n < PIECE ? size - n : PIECE;
        if (differs != NULL && *differs++) {
            memcpy(at + n, from, some);
            from += some;
        } else if (memcmp(at + n, base + n, some) != 0) {
            memcpy(at + n, base + n, some);
        }
    }
    return from;
}

/* Keeps the stack of the first copy, as the base of the others. */
static void keep_first_stack(size_t size)
{
    if (it->first_stack != NULL)
        return;
    it->first_stack = mapped(size);
    it->first_size = size;
    memcpy(it->first_stack, it->stack, size);
}

/* Makes room for a copy that has this size at most. */
static struct snapshot *with_room(struct snapshot *copy, size_t size)
{
    if (copy != NULL && copy->capacity >= size)
        return copy;
    size_t capacity = size + size / 4 + PAGE;
    if (copy != NULL) {
        it->copied -= copy->used;
        munmap(copy, sizeof *copy + copy->capacity);
    }
    copy = (void *)mapped(sizeof *copy + capacity);
    copy->capacity = capacity;
    return copy;
}

void save(struct snapshot **copy)
{
    size_t stack_size = (size_t)(it->stack_end - it->stack), notes = notes_size(stack_size, it->page_count);
    keep_first_stack(stack_size);
    struct snapshot *found = *copy = with_room(*copy, notes + stack_size + it->page_count * PAGE);
    found->program = it->program;
    found->stack = it->stack;
    found->left = it->left;
    found->stack_size = stack_size;
    found->page_count = it->page_count;
    bool *differs = (bool *)found->bytes;
    const char *base = stack_size == it->first_size ? it->first_stack : NULL;
    char *to = put(found->bytes + notes, differs, it->stack, base, stack_size);
    differs += pieces(stack_size);
    for (size_t n = 0; n < it->page_count; n++, differs += PAGE / PIECE)
        to = put(to, differs, it->pages[n], it->before + n * PAGE, PAGE);
    size_t used = (size_t)(to - found->bytes);
    if (used > found->used) { /* the system gives memory where it is written first */
        it->copied += used - found->used;
        found->used = used;
    }
}

static bool is_of_image(const char *page)
{
    for (int file = 0; file < MOST_FILES; file++)
        if (it->files[file].begin <= page && page < it->files[file].end)
            return true;
    return false;
}

/* The end of a page's pieces, which are not brought back. */
static const char *skipped(const char *from, const bool *differs)
{
    for (size_t n = 0; differs != NULL && n < PAGE / PIECE; n++)
        from += differs[n] ? PIECE : 0;
    return from;
}

static void bring_back(const struct snapshot *copy, bool has_image)
{
    const bool *differs = (const bool *)copy->bytes;
    const char *from = copy->bytes + notes_size(copy->stack_size, copy->page_count);
    it->program = copy->program;
    it->stack = copy->stack;
    it->left = copy->left;
    from = get(from, differs, copy->stack, it->first_stack, copy->stack_size);
    differs += pieces(copy->stack_size);
    for (size_t n = 0; n < it->page_count; n++) {
        const bool *notes = n < copy->page_count ? differs + n * (PAGE / PIECE) : NULL;
        if (has_image || !is_of_image(it->pages[n]))
            from = get(from, notes, it->pages[n], it->before + n * PAGE, PAGE);
        else
            from = skipped(from, notes);
    }
}

void restore(const struct snapshot *copy) { bring_back(copy, true); }

void crash(const struct snapshot *base) { bring_back(base, false); }

size_t bytes_of_copies(void)
{
    return it->copied + it->page_count * PAGE;
}
