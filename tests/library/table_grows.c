/* Four threads add, take out and look for keys of their own in one table, and split its buckets, while two others look for keys that are never
 * taken out. Ends with 1 at an answer that is wrong, and looks at each key and each count afterwards. */
#include "wanted.h"

#include <pthread.h>

#ifndef KEYS
#define KEYS 40000u /* of each thread */
#endif

enum { CHANGERS = 4, ASKERS = 2, THREADS = CHANGERS + ASKERS, STAYING = 1000 };

typedef struct worker { mvrlu_table *table; uint32_t number; uint64_t changes, splits, asks; } worker;

static int is_done; /* set once the changers have ended */

/* The keys of a changer, which no other has; those that stay are below STAYING. */
static uint32_t key_of(uint32_t number, uint32_t i) { return STAYING + i * CHANGERS + number; }

static void change(worker *me, int32_t (*call)(mvrlu_table *, uint32_t, mvrlu_reply *), uint32_t key, uint64_t *last) {
    mvrlu_reply reply;
    int32_t status;
    do {
        status = call(me->table, key, &reply);
    } while (mvrlu_may_retry(status));
    if (status != MVRLU_OK || reply.committed != 1) fail("a change", status);
    if (reply.time <= *last) fail("a time that is not later", (long long)reply.time);
    *last = reply.time;
    me->changes++;
}

/* Splits the next bucket, or leaves it to others. */
static void split(worker *me, uint64_t *last) {
    mvrlu_reply reply;
    int32_t status = mvrlu_table_split(me->table, &reply);
    if (mvrlu_may_retry(status) || status == MVRLU_NO) return;
    if (status != MVRLU_OK || reply.committed != 1 || reply.time <= *last) fail("a split", status);
    *last = reply.time;
    me->splits++;
}

/* Adds its keys, of which it takes out each third one again. */
static void *grow(void *given) {
    worker *me = given;
    uint64_t last = 0;
    for (uint32_t i = 0; i < KEYS; i++) {
        change(me, mvrlu_table_add, key_of(me->number, i), &last);
        if (i % 2 == 1) split(me, &last);
        if (i % 3 == 2) {
            if (mvrlu_table_has(me->table, key_of(me->number, i - 1), NULL) != MVRLU_OK) fail("a key that was lost", i);
            change(me, mvrlu_table_del, key_of(me->number, i - 1), &last);
            if (mvrlu_table_has(me->table, key_of(me->number, i - 1), NULL) != MVRLU_NO) fail("a key that came back", i);
        }
    }
    return NULL;
}

static void *ask(void *given) {
    worker *me = given;
    uint64_t last = 0;
    for (uint32_t i = me->number; !__atomic_load_n(&is_done, __ATOMIC_SEQ_CST); i++) {
        mvrlu_reply reply;
        int32_t status = mvrlu_table_has(me->table, i % STAYING, &reply);
        if (status != MVRLU_OK) fail("a key that stays", status);
        if (reply.committed != 0 || reply.time < last) fail("a time before an earlier one", (long long)reply.time);
        last = reply.time;
        me->asks++;
    }
    return NULL;
}

/* Looks at each key once all threads have ended. */
static void look_at_all(mvrlu_table *table) {
    mvrlu_reply reply;
    uint64_t there = 0;
    for (uint32_t number = 0; number < CHANGERS; number++) {
        for (uint32_t i = 0; i < KEYS; i++) {
            int stays = i % 3 != 1 || i + 1 == KEYS;
            if (mvrlu_table_has(table, key_of(number, i), NULL) != (stays ? MVRLU_OK : MVRLU_NO)) fail("a key at the end", i);
            there += (uint64_t)stays;
        }
    }
    if (mvrlu_table_size(table, &reply) != MVRLU_OK || reply.value != there + STAYING) fail("a size", (long long)reply.value);
    if (mvrlu_table_next(table, STAYING, &reply) != MVRLU_OK || reply.value != STAYING) fail("a next key", (long long)reply.value);
}

int main(void) {
    static mvrlu_table table[THREADS];
    mvrlu_table_options options = MVRLU_TABLE_OPTIONS_INIT;
    worker workers[THREADS];
    pthread_t threads[THREADS];
    uint64_t commits = 0, rests = 0, changes = STAYING, splits = 0, asks = 0, last = 0;
    int32_t status = mvrlu_table_open(&options, table, THREADS);
    if (status != MVRLU_OK) fail("open", status);
    for (uint32_t key = 0; key < STAYING; key++) {
        do {
            status = mvrlu_table_add(&table[0], key, NULL);
        } while (mvrlu_may_retry(status));
        if (status != MVRLU_OK) fail("an add", key);
        if (key % 2 == 1) splits += mvrlu_table_split(&table[0], NULL) == MVRLU_OK;
    }
    for (uint32_t i = 0; i < THREADS; i++) {
        workers[i] = (worker){&table[i], i, 0, 0, 0};
        if (pthread_create(&threads[i], NULL, i < CHANGERS ? grow : ask, &workers[i]) != 0) fail("no thread", i);
    }
    for (int i = 0; i < THREADS; i++) {
        if (i == CHANGERS) __atomic_store_n(&is_done, 1, __ATOMIC_SEQ_CST);
        pthread_join(threads[i], NULL);
        changes += workers[i].changes;
        splits += workers[i].splits;
        asks += workers[i].asks;
    }
    look_at_all(&table[0]);
    for (int i = 0; i < THREADS; i++) {
        mvrlu_counts counts;
        if (mvrlu_table_counts(&table[i], &counts) != MVRLU_OK) fail("counts", i);
        commits += counts.commits;
        rests += counts.rests;
    }
    if (commits != changes + splits) fail("not one commit for each change and split", (long long)commits);
    for (int i = 0; i < THREADS; i++) {
        status = mvrlu_table_close_last(&table[i], &last);
        if (status != (i + 1 < THREADS ? MVRLU_NO : MVRLU_OK)) fail("close", status);
    }
    if (last < commits + rests) fail("a last time", (long long)last);
    if (splits < KEYS / 4) fail("few splits", (long long)splits);
    printf("grown by %llu changes beside asks, none wrong\n", (unsigned long long)changes);
    return asks == 0;
}
