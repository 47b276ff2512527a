// Calls of the static library, mix by mix: prints each mix with the nanoseconds of CPU time of one call, the best of some short runs.
// `bench/turns` builds it with two archives and runs the two by turns. Arguments: calls a run, runs, the one mix to run.
#include "picman.h"
#include <stdio.h>
#include <stdlib.h>
#include <time.h>

static volatile uint64_t answer;
static picman_machine machine, filled;

static double now(void) {
    struct timespec t;
    clock_gettime(CLOCK_PROCESS_CPUTIME_ID, &t);
    return (double)t.tv_sec * 1e9 + (double)t.tv_nsec;
}

// A store with references of layer 1, numbers from 1 on.
static void fill(picman_machine *m, int references) {
    picman_reset(m);
    picman_init(m, PICMAN_SLOTS, PICMAN_PLACES);
    for (int i = 0; i < references; i++) {
        picman_get(m);
        picman_answer put = picman_put(m, PICMAN_REFERENCE, (uint32_t)i + 1, 1, 0);
        if (PICMAN_STATUS(put) != PICMAN_DONE) {
            fprintf(stderr, "reference %d: %d\n", i, PICMAN_STATUS(put));
            exit(1);
        }
    }
}

#define MIXES 32
static double best[MIXES];
static const char *names[MIXES];

int main(int argc, char **argv) {
    int calls = argc > 1 ? atoi(argv[1]) : 2000, runs = argc > 2 ? atoi(argv[2]) : 6, only = argc > 3 ? atoi(argv[3]) : -1, mixes = 0;
    static const uint32_t numbers[PICMAN_PLACES];
    for (int run = 0; run < runs; run++) {
        mixes = 0;
#define MIX(name, setup, call)                                                                                             \
    do {                                                                                                                   \
        names[mixes] = name;                                                                                               \
        if (only >= 0 && only != mixes++) break;                                                                           \
        if (only < 0) mixes++;                                                                                             \
        setup;                                                                                                             \
        for (int i = 0; i < 200; i++) { call; }                                                                            \
        double start = now();                                                                                              \
        for (int i = 0; i < calls; i++) { call; }                                                                          \
        double each = (now() - start) / calls;                                                                             \
        if (run == 0 || each < best[mixes - 1]) best[mixes - 1] = each;                                                    \
    } while (0)
        MIX("get and put without reference, empty store", fill(&machine, 0),
            picman_get(&machine); answer = picman_put(&machine, 0, (uint32_t)i, 1, 0));
        MIX("the same, 10 references in the store", fill(&machine, 10),
            picman_get(&machine); answer = picman_put(&machine, 0, 100 + (uint32_t)i, 1, 0));
        MIX("the same, 20 references", fill(&machine, 20),
            picman_get(&machine); answer = picman_put(&machine, 0, 100 + (uint32_t)i, 1, 0));
        MIX("get and put of a reference at layer 0", fill(&machine, 0),
            picman_get(&machine); answer = picman_put(&machine, PICMAN_REFERENCE, (uint32_t)i, 0, 0));
        MIX("the same, gap 8", fill(&machine, 0),
            picman_get(&machine); answer = picman_put(&machine, PICMAN_REFERENCE, (uint32_t)i, 0, 8));
        MIX("get and put of an IDR picture", fill(&machine, 0),
            picman_get(&machine); answer = picman_put(&machine, PICMAN_REFERENCE | PICMAN_IDR, (uint32_t)i, 0, 0));
        MIX("put of no picture", fill(&machine, 4), answer = picman_put(&machine, PICMAN_NO_PICTURE, (uint32_t)i, 1, 0));
        MIX("put of no picture at layer 0", fill(&machine, 3), answer = picman_put(&machine, PICMAN_NO_PICTURE, (uint32_t)i, 0, 0));
        MIX("lists B, 4 references", fill(&machine, 4), answer = picman_lists(&machine, PICMAN_SLICE_B, 100, 1, 0, PICMAN_PLACES));
        MIX("lists B, 10 references on both sides", fill(&machine, 10), answer = picman_lists(&machine, PICMAN_SLICE_B, 5, 1, 0, PICMAN_PLACES));
        MIX("lists B, 21 references", fill(&machine, 21), answer = picman_lists(&machine, PICMAN_SLICE_B, 100, 1, 0, PICMAN_PLACES));
        MIX("lists P, no reference", fill(&machine, 0), answer = picman_lists(&machine, PICMAN_SLICE_P, 100, 1, 0, PICMAN_PLACES));
        MIX("lists P, 1 reference", fill(&machine, 1), answer = picman_lists(&machine, PICMAN_SLICE_P, 100, 1, 0, PICMAN_PLACES));
        MIX("lists P, 4 references", fill(&machine, 4), answer = picman_lists(&machine, PICMAN_SLICE_P, 100, 1, 0, PICMAN_PLACES));
        MIX("lists P, 21 references", fill(&machine, 21), answer = picman_lists(&machine, PICMAN_SLICE_P, 100, 1, 0, PICMAN_PLACES));
        MIX("derive, groups of 8", fill(&machine, 0), answer = picman_derive(&machine, 3, (uint8_t)(i & 3)));
        MIX("copy of an entry", fill(&machine, 0), answer = picman_copy(&machine, (uint64_t)i % PICMAN_PLACES, 0, 1, 3, 1000 + (uint32_t)i, numbers));
        fill(&filled, 0);
        for (int i = 0; i < 20; i++) {
            picman_get(&filled);
            picman_put(&filled, PICMAN_WANTED, (uint32_t)i, 1, 0);
        }
        MIX("out, 20 wanted (20 calls and a copy of the machine)", machine = filled, machine = filled;
            for (int j = 0; j < 20; j++) answer = picman_out(&machine));
    }
    for (int mix = 0; mix < mixes; mix++)
        if (only < 0 || only == mix) printf("%s\t%.2f\n", names[mix], best[mix]);
}
