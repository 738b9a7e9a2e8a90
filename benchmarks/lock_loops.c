// Threads that take turns at a plain ticket lock, beside the crate gr_timing_lock.
//
//     lock_loops WAIT THREADS TURNS WORK
//
// WAIT is `yield` (sched_yield between two looks, as gr_turn does at first) or `spin` (the processor's hint
// alone). Each turn writes an entry, and behind it are WORK steps of arithmetic. Prints how many entries there are, how
// many turns made one, and the sum of what the arithmetic came to: it is the crate's, so no step was left out.
#include <pthread.h>
#include <sched.h>
#include <stdatomic.h>
#include <stdbool.h>
#include <stdint.h>
#include <stdio.h>
#include <stdlib.h>
#include <string.h>

struct lock {
    _Atomic uint64_t ticket;
    _Atomic uint64_t serving;
};

static struct lock lock;
static bool yields;
static uint32_t *entries;
static uint64_t count;
static unsigned long turns, work;

static void enter(void) {
    uint64_t ticket = atomic_fetch_add(&lock.ticket, 1);
    while (atomic_load(&lock.serving) != ticket) {
        if (yields)
            sched_yield();
        else
            __builtin_ia32_pause();
    }
}

static void leave(void) { atomic_fetch_add(&lock.serving, 1); }

static uint64_t steps(uint64_t state) {
    for (unsigned long step = 0; step < work; step++) {
        state ^= state << 13;
        state ^= state >> 7;
        state ^= state << 17;
    }
    return state;
}

static void *take_turns(void *number) {
    uint64_t state = (uintptr_t)number;
    for (unsigned long turn = 0; turn < turns; turn++) {
        enter();
        entries[count++] = (uint32_t)(uintptr_t)number;
        leave();
        state = steps(state);
    }
    return (void *)(uintptr_t)state;
}

int main(int argc, char **argv) {
    if (argc != 5)
        return 2;
    yields = strcmp(argv[1], "yield") == 0;
    unsigned long threads = strtoul(argv[2], NULL, 10);
    turns = strtoul(argv[3], NULL, 10);
    work = strtoul(argv[4], NULL, 10);
    pthread_t *started = malloc((threads + 1) * sizeof *started);
    entries = malloc((threads * turns + 1) * sizeof *entries);
    if (!started || !entries)
        return 6;
    for (uintptr_t thread = 0; thread < threads; thread++)
        if (pthread_create(&started[thread], NULL, take_turns, (void *)(thread + 1)))
            return 6;
    uint64_t checksum = 0;
    for (unsigned long thread = 0; thread < threads; thread++) {
        void *state;
        pthread_join(started[thread], &state);
        checksum += (uintptr_t)state;
    }
    printf("%llu entries, %lu turns, checksum %llu\n", (unsigned long long)count, threads * turns,
           (unsigned long long)checksum);
    return 0;
}
