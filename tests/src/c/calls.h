/* The calls of the library that the callers in C make, and how they print what these leave. */
#include <inttypes.h>
#include <stddef.h>
#include <stdio.h>
#include <stdlib.h>

struct answer {
    uint32_t refusal, end; /* 1 found, 2 none, 3 spent */
    uint64_t propagations, decisions, backtracks;
};

struct position {
    size_t length;
    uint64_t propagations, decisions, backtracks;
};

struct answer fawnloom_search(const int32_t *list, size_t words, uint32_t v, uint8_t *values, size_t values_length,
                              int32_t *trail, size_t trail_length, uint64_t budget);
struct answer fawnloom_resume(const int32_t *list, size_t words, uint32_t v, uint8_t *values, size_t values_length,
                              int32_t *trail, size_t trail_length, struct position *position, uint64_t budget);
struct answer fawnloom_next(const int32_t *list, size_t words, uint32_t v, uint8_t *values, size_t values_length,
                            int32_t *trail, size_t trail_length, struct position *position, uint64_t budget);

static int32_t list[1 << 16], trail[16000];
static uint8_t values[16000];

/* Reads v and the words of a list; the number of words, or -1. All is open. */
static ptrdiff_t read_list(uint32_t *v) {
    ptrdiff_t words = 0;
    if (scanf("%" SCNu32, v) != 1 || *v > 16000) return -1;
    while (words < 1 << 16 && scanf("%" SCNd32, &list[words]) == 1) words++;
    for (uint32_t i = 0; i < *v; i++) values[i] = 2;
    return words;
}

static void print_answer(struct answer a) {
    printf("%" PRIu32 " %" PRIu32 " %" PRIu64 " %" PRIu64 " %" PRIu64 "\n", a.refusal, a.end, a.propagations, a.decisions,
           a.backtracks);
}

static void print_position(struct position p) {
    printf("%zu %" PRIu64 " %" PRIu64 " %" PRIu64 "\n", p.length, p.propagations, p.decisions, p.backtracks);
}

/* An answer, the record, values and trail. */
static void print_left(struct answer a, struct position p, uint32_t v) {
    print_answer(a);
    print_position(p);
    for (uint32_t i = 0; i < v; i++) printf("%d %" PRId32 "\n", values[i], trail[i]);
}
