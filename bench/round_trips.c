/* Round trips a second of an nvmelive over two pipes: PROGRAM COUNT. It places a Write, rings, fetches, executes and
   polls in turn, and reads each answer before it writes the next line. It says too how much memory the program had at
   most by the first line, by a tenth of them, by the half and by the last, in KiB, if the system reports. */
#include <stdio.h>
#include <stdlib.h>
#include <string.h>
#include <sys/types.h>
#include <time.h>
#include <unistd.h>

static char held[1 << 16];

static void ask(int to, int from, const char *line) {
    size_t len = strlen(line), got = 0;
    if (write(to, line, len) != (ssize_t)len) exit(2);
    do {
        ssize_t n = read(from, held + got, sizeof held - got);
        if (n <= 0) exit(3);
        got += (size_t)n;
    } while (held[got - 1] != '\n');
}

static long peak_of(pid_t process) {
    char path[64], line[256];
    long kib = 0;
    snprintf(path, sizeof path, "/proc/%ld/status", (long)process);
    FILE *file = fopen(path, "r");
    if (!file) return 0;
    while (fgets(line, sizeof line, file)) sscanf(line, "VmHWM: %ld", &kib);
    fclose(file);
    return kib;
}

int main(int argc, char **argv) {
    static const char *set_up[] = {"controller 1 host 0xa1\n", "namespace 1 blocks 64 shared\n", "attached 1 1\n",
                                   "start\n", "up 1\n"};
    static const char *lines[] = {"write 1 1 0 1 hex:5a\n", "ring 1\n", "fetch 1 1\n", "execute 1 0\n", "poll 1\n"};
    int down[2], up[2];
    struct timespec begun, ended;
    if (argc != 3 || pipe(down) || pipe(up)) return 1;
    long count = atol(argv[2]);
    pid_t process = fork();
    if (process == 0) {
        dup2(down[0], 0);
        dup2(up[1], 1);
        close(down[0]), close(down[1]), close(up[0]), close(up[1]);
        execl(argv[1], argv[1], (char *)0);
        _exit(127);
    }
    close(down[0]), close(up[1]);
    for (int i = 0; i < 5; i++) ask(down[1], up[0], set_up[i]);
    long peaks[4] = {peak_of(process)};
    clock_gettime(CLOCK_MONOTONIC, &begun);
    for (long i = 0; i < count; i++) {
        ask(down[1], up[0], lines[i % 5]);
        if (i + 1 == count / 10) peaks[1] = peak_of(process);
        if (i + 1 == count / 2) peaks[2] = peak_of(process);
    }
    clock_gettime(CLOCK_MONOTONIC, &ended);
    double seconds = (ended.tv_sec - begun.tv_sec) + (ended.tv_nsec - begun.tv_nsec) / 1e9;
    peaks[3] = peak_of(process);
    printf("%ld round trips in %.1f seconds, %.0f a second; ", count, seconds, count / seconds);
    printf("at most %ld KiB at the first, %ld at a tenth, %ld at the half, %ld at the last\n", peaks[0], peaks[1],
           peaks[2], peaks[3]);
    return 0;
}
