// For each file: the number that `probe` gives it, the stack that `probe` takes below its caller, and its time. The stack is a thread's
// own; it is painted, and after the call the lowest byte that is not paint says how far down the call went. x86-64 only.
#include <pthread.h>
#include <stdio.h>
#include <stdlib.h>
#include <time.h>

unsigned char probe(const unsigned char *bytes, size_t length);

// Within NEAR bytes of the caller nothing is painted, so a call that takes less counts as NEAR.
enum { PAINT = 0xa5, NEAR = 64, ROUNDS = 20 };

static unsigned char stack[1 << 20] __attribute__((aligned(64)));
static unsigned char bytes[1 << 17];
static size_t length, used;
static unsigned char number;
static double took;

static double nanoseconds(void) {
    struct timespec t;
    clock_gettime(CLOCK_MONOTONIC, &t);
    return t.tv_sec * 1e9 + t.tv_nsec;
}

static void *measure(void *unused) {
    volatile unsigned char *here, *p;
    __asm__ volatile("mov %%rsp, %0" : "=r"(here));
    for (p = stack; p < here - NEAR; p++) *p = PAINT;
    number = probe(bytes, length);
    for (p = stack; p < here - NEAR && *p == PAINT; p++) {}
    used = here - p;

    // the best of some rounds of calls, each long enough for the clock
    int calls = 1 + 100000 / (length + 100);
    for (int round = 0; round < ROUNDS; round++) {
        double start = nanoseconds();
        for (int i = 0; i < calls; i++) probe(bytes, length);
        double each = (nanoseconds() - start) / calls;
        if (round == 0 || each < took) took = each;
    }
    return unused;
}

int main(int count, char **names) {
    size_t most = 0;
    double longest = 0;
    pthread_attr_t own;
    pthread_attr_init(&own);
    pthread_attr_setstack(&own, stack, sizeof stack);
    printf("number  stack   bytes        ns  ns/byte\n");
    for (int i = 1; i < count; i++) {
        FILE *file = fopen(names[i], "rb");
        if (!file) return perror(names[i]), 1;
        length = fread(bytes, 1, sizeof bytes, file);
        fclose(file);
        pthread_t thread;
        if (pthread_create(&thread, &own, measure, NULL)) return perror("a thread"), 1;
        pthread_join(thread, NULL);
        printf("%6d %6zu %7zu %9.0f %8.2f  %s\n", number, used, length, took, length ? took / length : 0, names[i]);
        if (most < used) most = used;
        if (longest < took) longest = took;
    }
    printf("at most %zu bytes of stack and %.0f ns\n", most, longest);
    return 0;
}
