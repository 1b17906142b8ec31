/* The calls of one seat by the header for C, as bench/c_calls.txt makes them in Rattle: ROW CALLS, for a row of bench/c_calls. It prints
 * how many calls were made, the nanoseconds that they took together, and how many replied yes or what was read. */
#include <inttypes.h>
#include <mvrlu.h>
#include <stdio.h>
#include <stdlib.h>
#include <string.h>
#include <time.h>

enum { KEYS = 20, OBJECTS = 1024 };

static mvrlu_sets sets;
static mvrlu_seat seat;

static void must(int32_t status) {
    if (status == MVRLU_OK) return;
    fprintf(stderr, "c_calls: %s\n", mvrlu_strerror(status));
    exit(1);
}

static uint64_t now(void) {
    struct timespec at;
    clock_gettime(CLOCK_MONOTONIC, &at);
    return (uint64_t)at.tv_sec * 1000000000u + (uint64_t)at.tv_nsec;
}

static uint64_t ask(uint32_t set, uint64_t calls) {
    uint64_t yes = 0;
    mvrlu_reply reply;
    for (uint64_t call = 0; call < calls; call++) yes += mvrlu_sets_has(&sets, set, (uint32_t)(call % KEYS), &reply) == MVRLU_OK;
    return yes;
}

static uint64_t turn(uint32_t set, uint64_t calls) {
    uint64_t yes = 0;
    mvrlu_reply reply;
    for (uint64_t call = 0; call < calls / 2; call++) {
        uint32_t key = (uint32_t)(call % KEYS) | 1u;
        yes += mvrlu_sets_add(&sets, set, key, &reply) == MVRLU_OK;
        yes += mvrlu_sets_del(&sets, set, key, &reply) == MVRLU_OK;
    }
    return yes;
}

static uint64_t read_objects(uint64_t calls) {
    uint64_t sum = 0, words[MVRLU_WORDS];
    for (uint64_t call = 0; call < calls; call++) {
        mvrlu_enter(&seat);
        if (mvrlu_read(&seat, (uint32_t)(call % OBJECTS), words) == MVRLU_OK) sum += words[0];
        mvrlu_leave(&seat);
    }
    return sum;
}

static int time_set(uint32_t set, int asks, uint64_t calls) {
    mvrlu_sets_options options = MVRLU_SETS_OPTIONS_INIT;
    must(mvrlu_sets_open(&options, &sets, 1));
    for (uint32_t key = 0; key < KEYS; key += 2) must(mvrlu_sets_add(&sets, set, key, NULL));
    uint64_t begun = now();
    uint64_t yes = asks ? ask(set, calls) : turn(set, calls);
    uint64_t spent = now() - begun;
    printf("%" PRIu64 " %" PRIu64 " %" PRIu64 "\n", calls, spent, yes);
    must(mvrlu_sets_close(&sets));
    return 0;
}

static int time_reads(uint64_t calls) {
    mvrlu_options options = MVRLU_OPTIONS_INIT;
    options.objects = OBJECTS;
    must(mvrlu_open(&options, &seat, 1));
    uint64_t begun = now();
    uint64_t sum = read_objects(calls);
    uint64_t spent = now() - begun;
    printf("%" PRIu64 " %" PRIu64 " %" PRIu64 "\n", calls, spent, sum);
    must(mvrlu_close(&seat));
    return 0;
}

int main(int count, char **words) {
    if (count != 3) return 2;
    uint64_t calls = strtoull(words[2], NULL, 10);
    if (strcmp(words[1], "has-list") == 0) return time_set(MVRLU_LIST(0), 1, calls);
    if (strcmp(words[1], "has-table") == 0) return time_set(MVRLU_HASH(0), 1, calls);
    if (strcmp(words[1], "turn-list") == 0) return time_set(MVRLU_LIST(0), 0, calls);
    if (strcmp(words[1], "turn-table") == 0) return time_set(MVRLU_HASH(0), 0, calls);
    if (strcmp(words[1], "read") == 0) return time_reads(calls);
    return 2;
}
