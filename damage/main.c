/*
 * Calls every function of libzibrotka.a with right and damaged inputs, each list between two pages that cannot be touched.
 *
 *     guard run SECONDS SEED        calls 0, 1, 2 .. of the seed for so many seconds
 *     guard call NUMBER SEED        one call alone
 *     guard stack CALLS SEED        so many calls; prints the bytes of stack that each function touched
 */
#define _GNU_SOURCE
#include "calls.h"
#include "memory.h"

#include <signal.h>
#include <stdio.h>
#include <stdlib.h>
#include <string.h>
#include <time.h>
#include <unistd.h>

static uint64_t first, last, seed;
static double seconds;

static double now(void)
{
    struct timespec t;
    clock_gettime(CLOCK_MONOTONIC, &t);
    return (double)t.tv_sec + (double)t.tv_nsec * 1e-9;
}

static void on_signal(int number, siginfo_t *about, void *nothing)
{
    char what[200];
    (void)nothing;
    int list = number == SIGALRM ? 0 : list_beside(about->si_addr);
    if (number == SIGALRM)
        snprintf(what, sizeof what, "no answer in 60 seconds");
    else if (list > 0)
        snprintf(what, sizeof what, "%s at an address beside list %d (counted as they are made)", strsignal(number), list);
    else
        snprintf(what, sizeof what, "%s at %s", strsignal(number), list < 0 ? "the end of the stack" : "an address that was not given");
    tell_call(what);
    _exit(1);
}

static void watch_signals(void)
{
    static const int numbers[] = {SIGSEGV, SIGBUS, SIGILL, SIGFPE, SIGTRAP, SIGABRT, SIGALRM};
    struct sigaction action = {.sa_flags = SA_SIGINFO | SA_ONSTACK};
    action.sa_sigaction = on_signal;
    for (size_t i = 0; i < sizeof numbers / sizeof numbers[0]; i++)
        sigaction(numbers[i], &action, NULL);
}

static void run(void)
{
    double end = now() + seconds;
    for (uint64_t i = first; i < last; i++) {
        make_call(seed, i);
        if (seconds > 0 && i % 16 == 0 && now() >= end)
            break;
    }
}

static void tell_counts(void)
{
    uint64_t all = 0;
    for (size_t i = 0; i < n_calls; i++)
        all += calls[i].made;
    printf("damage: seed %llu, %llu calls (", (unsigned long long)seed, (unsigned long long)all);
    for (size_t i = 0; i < n_calls; i++)
        printf("%s%s %llu", i ? ", " : "", calls[i].name, (unsigned long long)calls[i].made);
    printf("), answered %llu, refused (", (unsigned long long)refused[0]);
    for (size_t i = 1; i < 18; i++)
        printf("%s%zu: %llu", i > 1 ? ", " : "", i, (unsigned long long)refused[i]);
    printf("); no crash, no hang, no wrong answer\n");
}

int main(int argc, char **argv)
{
    if (argc != 4 || (strcmp(argv[1], "run") != 0 && strcmp(argv[1], "call") != 0 && strcmp(argv[1], "stack") != 0)) {
        fprintf(stderr, "usage: guard run SECONDS SEED, guard call NUMBER SEED, or guard stack CALLS SEED\n");
        return 2;
    }
    uint64_t number = strtoull(argv[2], NULL, 10);
    seed = strtoull(argv[3], NULL, 10);
    seconds = strcmp(argv[1], "run") == 0 ? (double)number : 0.0;
    first = strcmp(argv[1], "call") == 0 ? number : 0;
    last = seconds > 0 ? UINT64_MAX : strcmp(argv[1], "call") == 0 ? number + 1 : number;
    watch_signals();
    memory_begin();
    on_small_stack(run);
    alarm(0);
    if (strcmp(argv[1], "stack") == 0)
        for (size_t i = 0; i < n_calls; i++)
            printf("zibrotka_%s %zu\n", calls[i].name, calls[i].deepest);
    else
        tell_counts();
    return 0;
}
