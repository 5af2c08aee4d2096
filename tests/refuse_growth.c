/* Is loaded before the C library in a program whose growths, its calls of malloc and realloc, are refused one at a time.

   REFUSE_GROWTH=N    the growth with this number, counted from 1, gets no memory, and one line on standard error says so
   COUNT_GROWTHS=1    a line on standard error says at the end how many growths there were
   REFUSE_EACH=1      the program is run with its first, second and each further growth refused, until a run asks for no more.
                      Each run is a copy of the process as it is before `main`, and reads standard input, which must be a file,
                      from its start. A run with a growth refused must end with status 0 or 3, a run without one with 0. What
                      the runs print is printed; the last line is `growths: N`, or says which run went wrong. */
#define _GNU_SOURCE
#include <dlfcn.h>
#include <stddef.h>
#include <stdio.h>
#include <stdlib.h>
#include <sys/mman.h>
#include <sys/wait.h>
#include <unistd.h>

#define MOST_GROWTHS 20000
#define SECONDS 20

static long seen = 0;
static long wanted = 0;
static volatile int *was_refused = NULL; /* shared with the process that starts the runs */

static int refused(void) {
    if (++seen != wanted)
        return 0;
    if (was_refused) {
        *was_refused = 1;
    } else {
        static const char line[] = "growth refused\n";
        (void)!write(2, line, sizeof line - 1);
    }
    return 1;
}

void *malloc(size_t size) {
    static void *(*next)(size_t);
    if (!next)
        next = (void *(*)(size_t))dlsym(RTLD_NEXT, "malloc");
    return refused() ? NULL : next(size);
}

void *realloc(void *block, size_t size) {
    static void *(*next)(void *, size_t);
    if (!next)
        next = (void *(*)(void *, size_t))dlsym(RTLD_NEXT, "realloc");
    return refused() ? NULL : next(block, size);
}

static void stop(const char *what, long growth, int status) {
    dprintf(1, "wrong: %s: growth %ld, status %d\n", what, growth, status);
    _exit(1);
}

/* Returns in each run, and not in the process that starts them. */
static void refuse_each(void) {
    was_refused = mmap(NULL, sizeof *was_refused, PROT_READ | PROT_WRITE, MAP_SHARED | MAP_ANONYMOUS, -1, 0);
    if (was_refused == MAP_FAILED)
        stop("no shared memory", 0, 0);
    for (long growth = 1; growth <= MOST_GROWTHS; growth++) {
        *was_refused = 0;
        (void)lseek(0, 0, SEEK_SET);
        pid_t run = fork();
        if (run < 0)
            stop("no process", growth, 0);
        if (run == 0) {
            alarm(SECONDS);
            wanted = growth;
            return;
        }
        int status = 0;
        if (waitpid(run, &status, 0) != run || !WIFEXITED(status))
            stop("a run did not end by itself", growth, status);
        if (WEXITSTATUS(status) != 0 && !(*was_refused && WEXITSTATUS(status) == 3))
            stop(*was_refused ? "a run with a growth refused" : "a run without a refusal", growth, WEXITSTATUS(status));
        if (!*was_refused) {
            dprintf(1, "growths: %ld\n", growth - 1);
            _exit(0);
        }
    }
    stop("too many growths", MOST_GROWTHS, 0);
}

__attribute__((constructor)) static void begin(void) {
    const char *number = getenv("REFUSE_GROWTH");
    wanted = number ? atol(number) : 0;
    seen = 0;
    if (getenv("REFUSE_EACH"))
        refuse_each();
}

__attribute__((destructor)) static void tell(void) {
    if (getenv("COUNT_GROWTHS"))
        dprintf(2, "growths %ld\n", seen);
}
