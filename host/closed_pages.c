/* Closed memory by the pages of an operating system. */
#define _DEFAULT_SOURCE                   /* for MAP_ANONYMOUS */
#define _POSIX_C_SOURCE 200809L
#include "closed.h"
#include <signal.h>
#include <sys/mman.h>

const int closed_by_machine = 1;

uint8_t *closed_between(void) {
    uint8_t *closed = mmap(0, 3 * CLOSED_ROOM, PROT_NONE, MAP_PRIVATE | MAP_ANONYMOUS, -1, 0);
    if (closed == MAP_FAILED || mprotect(closed + CLOSED_ROOM, CLOSED_ROOM, PROT_READ | PROT_WRITE) != 0)
        return 0;
    return closed + CLOSED_ROOM;
}

static void (*tell)(const void *address);

/* No call prints, so that it is safe to do so here. */
static void stopped(int number, siginfo_t *stop, void *context) {
    (void)number, (void)context;
    tell(stop->si_addr);
}

int closed_watch(void (*told)(const void *address)) {
    struct sigaction action = { .sa_sigaction = stopped, .sa_flags = SA_SIGINFO };
    tell = told;
    sigemptyset(&action.sa_mask);
    return sigaction(SIGSEGV, &action, 0) == 0 && sigaction(SIGBUS, &action, 0) == 0;
}
