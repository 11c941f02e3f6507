/* Runs the functions of include/vvcc.h with every slice next to an inaccessible page, then some of the cases in a thread with 64 KiB of stack.
 * usage: guarded [SEED] [CASES] */
#include "guarded.h"

#include <pthread.h>
#include <stdio.h>
#include <stdlib.h>
#include <string.h>
#include <sys/mman.h>

#define STACK ((size_t)65536)
#define SHUT ((size_t)1 << 20)
#define PAINT 0xA5

static test_case now;
static counts plain, small;
static size_t small_cases;

/* Some cases, and the longest ones among them. */
static void run_cases(size_t cases, size_t longest, counts *n) {
    for (size_t i = 0; i < longest; i++) {
        longest_case(&now, i);
        check_case(&now, n);
    }
    for (size_t i = longest; i < cases; i++) {
        any_case(&now);
        check_case(&now, n);
    }
}

/* The thread's work. */
static void *in_the_thread(void *unused) {
    run_cases(small_cases, 80, &small);
    return unused;
}

/* A stack of 64 KiB with inaccessible memory below it, painted. */
static uint8_t *painted_stack(void) {
    void *all = mmap(NULL, SHUT + STACK, PROT_NONE, MAP_PRIVATE | MAP_ANONYMOUS | MAP_NORESERVE, -1, 0);
    if (all == MAP_FAILED || mprotect((uint8_t *)all + SHUT, STACK, PROT_READ | PROT_WRITE)) {
        perror("guarded: mmap");
        exit(1);
    }
    return memset((uint8_t *)all + SHUT, PAINT, STACK);
}

/* Runs cases in a thread with that stack; returns how many bytes of it were touched. */
static size_t run_on_small_stack(void) {
    uint8_t *stack = painted_stack();
    pthread_attr_t attr;
    pthread_t thread;
    size_t kept = 0;
    if (pthread_attr_init(&attr) || pthread_attr_setstack(&attr, stack, STACK) || pthread_create(&thread, &attr, in_the_thread, NULL) ||
        pthread_join(thread, NULL)) {
        fprintf(stderr, "guarded: no thread\n");
        exit(1);
    }
    while (kept < STACK && stack[kept] == PAINT)
        kept++;
    return STACK - kept;
}

/* How many answers of a call were refusals. */
static size_t refused(const counts *n, int call) {
    size_t all = 0;
    for (int e = 1; e < REFUSALS; e++)
        all += n->answers[call][e];
    return all;
}

/* A line for each call: how often it refused, by number. */
static void print_refusals(const counts *n) {
    for (int c = 0; c < CALLS; c++) {
        printf("%s refused", call_names[c]);
        for (int e = 1; e < REFUSALS; e++)
            if (n->answers[c][e])
                printf(" %d: %zu", e, n->answers[c][e]);
        printf("\n");
    }
}

/* Prints the counts by call, accepted and refused; returns their sum. */
static size_t print_counts(const counts *n) {
    size_t all = 0;
    for (int c = 0; c < CALLS; c++) {
        printf(" %s %zu + %zu%s", call_names[c], n->answers[c][0], refused(n, c), c + 1 < CALLS ? "," : ";");
        all += n->answers[c][0] + refused(n, c);
    }
    return all;
}

int main(int argc, char **argv) {
    uint64_t seed = argc > 1 ? strtoull(argv[1], NULL, 10) : 1;
    size_t cases = argc > 2 ? strtoull(argv[2], NULL, 10) : 450000;
    seed_numbers(seed);
    open_places();
    size_t faults = check_faults(), long_inputs = check_long_inputs();
    run_cases(cases, 80, &plain);
    small_cases = cases / 15;
    size_t deepest = run_on_small_stack();
    print_refusals(&plain);
    printf("guarded, accepted + refused:");
    size_t all = print_counts(&plain);
    printf(" %zu cases, nothing wrong\nshort codes: %zu streams, %zu zeros taken out\n", all, plain.short_streams, plain.taken_out);
    printf("unit check: %zu pass, %zu do not\non 64 KiB of stack:", plain.pass, plain.answers[CHECK_UNIT][0] - plain.pass);
    all = print_counts(&small);
    printf(" %zu cases, %zu bytes of stack; %zu long inputs; %zu faults noticed\n", all, deepest, long_inputs, faults);
    return 0;
}
