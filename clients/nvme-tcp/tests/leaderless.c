// For tests of the resource agent: a program whose first thread ends at SIGUSR1 while another runs. So does the target's
// if SIGKILL ends it while storage that hangs holds one of its threads. Its commands succeed.
#include <pthread.h>
#include <signal.h>
#include <string.h>
#include <unistd.h>

static void *run(void *nothing) {
    for (;;)
        pause();
    return nothing;
}

int main(int count, char **words) {
    sigset_t signals;
    pthread_t thread;
    int number;
    if (count > 1 && (strcmp(words[1], "ctl") == 0 || strcmp(words[1], "check") == 0))
        return 0;
    sigemptyset(&signals);
    sigaddset(&signals, SIGUSR1);
    sigaddset(&signals, SIGTERM);
    pthread_sigmask(SIG_BLOCK, &signals, NULL);
    pthread_create(&thread, NULL, run, NULL);
    do
        sigwait(&signals, &number);
    while (number != SIGUSR1);
    pthread_exit(NULL);
}
