/* Four threads move keys between a list and a tree while two others ask for them in both: each key is in one of them
 * at each time. Ends with 1 at a pair that says otherwise. */
#include "wanted.h"

#include <pthread.h>

#ifndef ROUNDS
#define ROUNDS 50000
#endif

enum { KEYS = 64, MOVERS = 4, ASKERS = 2, THREADS = MOVERS + ASKERS };

typedef struct worker { mvrlu_sets *sets; uint32_t number; unsigned long done; } worker;

/* Moves one key after another, from where it is. Each mover has keys of its own, so it knows where. */
static void *move(void *given) {
    worker *me = given;
    for (unsigned long i = 0; i < ROUNDS; i++) {
        uint32_t key = MOVERS * (uint32_t)(i % (KEYS / MOVERS)) + me->number, in_list = (i / (KEYS / MOVERS)) % 2 == 0;
        uint32_t source = in_list ? MVRLU_LIST(0) : MVRLU_TREE(3), target = in_list ? MVRLU_TREE(3) : MVRLU_LIST(0);
        int32_t status;
        do {
            status = mvrlu_sets_move(me->sets, source, target, key, NULL);
        } while (mvrlu_may_retry(status));
        if (status != MVRLU_OK) fail("a move", status);
        me->done++;
    }
    return NULL;
}

static void *ask(void *given) {
    worker *me = given;
    uint64_t last = 0;
    for (unsigned long i = 0; i < ROUNDS; i++) {
        mvrlu_reply reply;
        int32_t status = mvrlu_sets_pair(me->sets, MVRLU_LIST(0), MVRLU_TREE(3), (uint32_t)(i % KEYS), &reply);
        if (status != MVRLU_OK) fail("a pair", status);
        if (reply.value + reply.second != 1) fail("a key in both, or in none", (long long)(reply.value + reply.second));
        if (reply.committed != 0 || reply.time < last) fail("a time before an earlier one", (long long)reply.time);
        last = reply.time;
        me->done++;
    }
    return NULL;
}

int main(void) {
    static mvrlu_sets sets[THREADS];
    mvrlu_sets_options options = MVRLU_SETS_OPTIONS_INIT;
    worker workers[THREADS];
    pthread_t threads[THREADS];
    mvrlu_reply reply;
    uint64_t commits = 0, rests = 0;
    unsigned long moves = 0, pairs = 0;
    int32_t status = mvrlu_sets_open(&options, sets, THREADS);
    if (status != MVRLU_OK) fail("open", status);
    for (uint32_t key = 0; key < KEYS; key++) {
        if (mvrlu_sets_put(&sets[0], MVRLU_LIST(0), key, key + 1000, NULL) != MVRLU_OK) fail("a put", key);
    }
    for (uint32_t i = 0; i < THREADS; i++) {
        workers[i] = (worker){&sets[i], i, 0};
        if (pthread_create(&threads[i], NULL, i < MOVERS ? move : ask, &workers[i]) != 0) fail("no thread", i);
    }
    for (int i = 0; i < THREADS; i++) {
        pthread_join(threads[i], NULL);
        if (i < MOVERS) moves += workers[i].done;
        else pairs += workers[i].done;
    }
    for (uint32_t key = 0; key < KEYS; key++) {
        int32_t there = mvrlu_sets_get(&sets[0], MVRLU_LIST(0), key, &reply);
        if (there == MVRLU_NO) there = mvrlu_sets_get(&sets[0], MVRLU_TREE(3), key, &reply);
        if (there != MVRLU_OK || reply.value != key + 1000) fail("a value that was lost", key);
    }
    for (int i = 0; i < THREADS; i++) {
        mvrlu_counts counts;
        if (mvrlu_sets_counts(&sets[i], &counts) != MVRLU_OK) fail("counts", i);
        commits += counts.commits;
        rests += counts.rests;
    }
    if (commits != KEYS + moves) fail("not one commit for each move", (long long)commits);
    if (reply.time != commits + rests) fail("entries that nobody made", (long long)reply.time);
    for (int i = 0; i < THREADS; i++) {
        if (mvrlu_sets_close(&sets[i]) != MVRLU_OK) fail("close", i);
    }
    printf("moves %lu beside pairs %lu, none wrong\n", moves, pairs);
    return 0;
}
