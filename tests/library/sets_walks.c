/* Two threads change one set by blocks that keep two facts of each of its states: of the keys 2k and 2k + 1 exactly one is there, and
 * the values add up to the same. Two others walk over it meanwhile: each walk is of one state, so it finds both facts. Ends with 1 at a
 * walk that says otherwise. */
#include "wanted.h"

#include <pthread.h>

#ifndef ROUNDS
#define ROUNDS 5000
#endif

enum { PAIRS = 32, THREADS = 4, EACH = 1000 };

typedef struct worker { mvrlu_sets *sets; uint32_t number, set; unsigned long done; } worker;

/* Makes a block, again as long as others come first. */
static void amend(worker *me, const mvrlu_command commands[], size_t count) {
    mvrlu_reply replies[MVRLU_BLOCK_MAX];
    int32_t status;
    do {
        status = mvrlu_sets_block(me->sets, commands, count, replies);
    } while (mvrlu_may_retry(status));
    if (status != MVRLU_OK) fail("a block", status);
    for (size_t i = 0; i < count; i++) {
        if (replies[i].status != MVRLU_OK) fail("a command of a block", replies[i].status);
    }
    me->done++;
}

/* Takes one key of a pair out and puts the other in, and pays from one pair to the next. Each thread has pairs of its own. */
static void *change(void *given) {
    worker *me = given;
    static const uint32_t own = PAIRS / 2;
    uint32_t there[PAIRS / 2] = {0};
    uint64_t value[PAIRS / 2];
    for (uint32_t i = 0; i < own; i++) value[i] = EACH;
    for (unsigned long i = 0; i < ROUNDS; i++) {
        uint32_t a = (uint32_t)(i % own), b = (a + 1) % own, first = 2 * (2 * a + me->number), second = 2 * (2 * b + me->number);
        uint64_t paid = i % 7 % value[a];
        mvrlu_command commands[] = {
            {MVRLU_DEL, me->set, 0, first + there[a], 0},
            {MVRLU_PUT, me->set, 0, first + 1 - there[a], value[a] - paid},
            {MVRLU_PUT, me->set, 0, second + there[b], value[b] + paid},
        };
        amend(me, commands, paid == 0 ? 2 : 3);
        there[a] = 1 - there[a];
        value[a] -= paid;
        value[b] += paid;
    }
    return NULL;
}

/* One walk has room for all, in the other half of the rounds for ten of them. */
static void *walk(void *given) {
    worker *me = given;
    uint64_t last = 0;
    for (unsigned long i = 0; i < ROUNDS; i++) {
        mvrlu_entry entries[2 * PAIRS];
        mvrlu_walk told;
        uint64_t sum = 0, room = i % 2 == 0 ? 2 * PAIRS : 10;
        int32_t status = mvrlu_sets_walk(me->sets, me->set, 0, entries, room, &told);
        if (status != MVRLU_OK) fail("a walk", status);
        if (told.time < last) fail("a time before an earlier one", (long long)told.time);
        last = told.time;
        if (told.count != (i % 2 == 0 ? PAIRS : 10)) fail("entries too many or too few", (long long)told.count);
        for (uint32_t k = 0; k < told.count; k++) {
            if (entries[k].key / 2 != k) fail("a pair with no key or with two", entries[k].key);
            sum += entries[k].value;
        }
        if (told.more != i % 2 || (told.more && told.next / 2 != 10)) fail("the key to go on from", told.next);
        if (!told.more && sum != (uint64_t)PAIRS * EACH) fail("another sum", (long long)sum);
        me->done++;
    }
    return NULL;
}

static unsigned long walk_beside_changes(uint32_t set) {
    static mvrlu_sets sets[THREADS];
    mvrlu_sets_options options = MVRLU_SETS_OPTIONS_INIT;
    worker workers[THREADS];
    pthread_t threads[THREADS];
    int32_t status = mvrlu_sets_open(&options, sets, THREADS);
    if (status != MVRLU_OK) fail("open", status);
    for (uint32_t k = 0; k < PAIRS; k++) {
        if (mvrlu_sets_put(&sets[0], set, 2 * k, EACH, NULL) != MVRLU_OK) fail("a put", k);
    }
    for (uint32_t i = 0; i < THREADS; i++) {
        workers[i] = (worker){&sets[i], i % 2, set, 0};
        if (pthread_create(&threads[i], NULL, i < 2 ? change : walk, &workers[i]) != 0) fail("no thread", i);
    }
    for (int i = 0; i < THREADS; i++) pthread_join(threads[i], NULL);
    for (int i = 0; i < THREADS; i++) {
        if (mvrlu_sets_close(&sets[i]) != MVRLU_OK) fail("close", i);
    }
    return workers[2].done + workers[3].done;
}

int main(void) {
    unsigned long list = walk_beside_changes(MVRLU_LIST(2)), table = walk_beside_changes(MVRLU_HASH(2)), tree = walk_beside_changes(MVRLU_TREE(2));
    printf("walks %lu, each of one state\n", list + table + tree);
    return 0;
}
