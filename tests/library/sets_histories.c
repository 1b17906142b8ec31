/* Random histories of the sets: 2 to 8 threads do single commands, blocks and walks, and each reply is checked afterwards against a replay
 * of all of them in the order of their times, on thirty small maps. Ends with 1 at a fault. Arguments: how many histories, and a number
 * to draw from. */
#include "wanted.h"

#include <pthread.h>
#include <string.h>

#ifndef HISTORIES
#define HISTORIES 100
#endif

enum { SEATS = 8, SETS = 6, KEYS = 6, CALLS = 40, NODES = 20, TRIES = 100000 };

/* One call: its commands, and what each of them replied. A walk has one command, a next from where it begins, and its entries. */
typedef struct made {
    mvrlu_command commands[MVRLU_BLOCK_MAX];
    mvrlu_reply replies[MVRLU_BLOCK_MAX];
    uint32_t count;
    int32_t status;
    int walks;
    mvrlu_entry entries[KEYS];
    size_t room;
    mvrlu_walk walk;
} made;

typedef struct worker {
    mvrlu_sets *sets;
    uint64_t random, next;
    made calls[CALLS];
} worker;

typedef struct maps { int has[MVRLU_SETS_COUNT][KEYS]; uint64_t value[MVRLU_SETS_COUNT][KEYS]; } maps;

static uint32_t draw(worker *me, uint32_t below) {
    me->random = me->random * 6364136223846793005u + 1442695040888963407u;
    return (uint32_t)(me->random >> 33) % below;
}

/* Lists 0 and 1, tables 0 and 1, trees 0 and 1. */
static uint32_t draw_set(worker *me) {
    uint32_t i = draw(me, SETS);
    return i / 2 * 10 + i % 2;
}

static mvrlu_command draw_command(worker *me, uint32_t ops) {
    mvrlu_command c = {1 + draw(me, ops), draw_set(me), draw_set(me), draw(me, KEYS), me->next++ % 5};
    while (c.op == MVRLU_MOVE && c.other == c.set) c.other = draw_set(me);
    return c;
}

static int32_t call(mvrlu_sets *sets, const mvrlu_command *c, mvrlu_reply *reply) {
    switch (c->op) {
        case MVRLU_ADD: return mvrlu_sets_add(sets, c->set, c->key, reply);
        case MVRLU_DEL: return mvrlu_sets_del(sets, c->set, c->key, reply);
        case MVRLU_MOVE: return mvrlu_sets_move(sets, c->set, c->other, c->key, reply);
        case MVRLU_PUT: return mvrlu_sets_put(sets, c->set, c->key, c->value, reply);
        case MVRLU_HAS: return mvrlu_sets_has(sets, c->set, c->key, reply);
        case MVRLU_GET: return mvrlu_sets_get(sets, c->set, c->key, reply);
        case MVRLU_PAIR: return mvrlu_sets_pair(sets, c->set, c->other, c->key, reply);
        case MVRLU_SIZE: return mvrlu_sets_size(sets, c->set, reply);
        default: return mvrlu_sets_next(sets, c->set, c->key, reply);
    }
}

/* A walk, with room for none to all of its entries, and what lies behind them. */
static void walk(worker *me, made *m) {
    mvrlu_entry entries[KEYS + 1];
    for (int i = 0; i <= KEYS; i++) entries[i] = (mvrlu_entry){99, 99};
    m->walks = 1;
    m->count = 1;
    m->commands[0] = (mvrlu_command){MVRLU_NEXT, draw_set(me), 0, draw(me, KEYS), 0};
    m->room = draw(me, KEYS + 1);
    m->status = mvrlu_sets_walk(me->sets, m->commands[0].set, m->commands[0].key, entries, m->room, &m->walk);
    if (m->status != MVRLU_OK) fail("a walk", m->status);
    if (m->walk.count > m->room) fail("entries for which there was no room", (long long)m->walk.count);
    for (uint64_t i = m->walk.count; i <= KEYS; i++) {
        if (entries[i].key != 99 || entries[i].value != 99) fail("an entry behind the last", entries[i].key);
    }
    memcpy(m->entries, entries, sizeof m->entries);
    m->replies[0] = (mvrlu_reply){0, m->walk.time, 0, 0, MVRLU_OK};
}

static void *work(void *given) {
    worker *me = given;
    for (int i = 0; i < CALLS; i++) {
        made *m = &me->calls[i];
        uint32_t kind = draw(me, 3);
        int tries = 0, single = kind == 0;
        if (kind == 2) {
            walk(me, m);
            continue;
        }
        m->count = single ? 1 : 2 + draw(me, MVRLU_BLOCK_MAX - 1);
        for (uint32_t j = 0; j < m->count; j++) m->commands[j] = draw_command(me, single ? MVRLU_NEXT : MVRLU_PAIR);
        do {
            m->status = single ? call(me->sets, m->commands, m->replies) : mvrlu_sets_block(me->sets, m->commands, m->count, m->replies);
        } while (mvrlu_may_retry(m->status) && tries++ < TRIES);
        if (m->status < MVRLU_FULL || mvrlu_may_retry(m->status)) fail("a call", m->status);
        if (single && m->status != m->replies[0].status) fail("a status of another reply", m->status);
    }
    return NULL;
}

static uint64_t size_of(const maps *m, uint32_t set) {
    uint64_t count = 0;
    for (int key = 0; key < KEYS; key++) count += (uint64_t)m->has[set][key];
    return count;
}

/* Whether the maps take more nodes than there are: a key one, in a tree one more for each but the first. */
static int overflows(const maps *m) {
    uint64_t nodes = 0;
    for (uint32_t set = 0; set < MVRLU_SETS_COUNT; set++) {
        uint64_t size = size_of(m, set);
        nodes += set < 20 || size == 0 ? size : 2 * size - 1;
    }
    return nodes > NODES;
}

/* A change, if there is room for it. */
static int32_t change(maps *m, const maps *changed) {
    if (overflows(changed)) return MVRLU_FULL;
    *m = *changed;
    return MVRLU_OK;
}

/* What a command that may change something replies, and what it leaves of the maps. */
static int32_t replay_change(maps *m, const mvrlu_command *c) {
    maps new = *m;
    int *has = &new.has[c->set][c->key], *other = &new.has[c->other][c->key];
    uint64_t *value = &new.value[c->set][c->key];
    if (c->op == MVRLU_DEL && *has) return *has = 0, *m = new, MVRLU_OK;
    if (c->op == MVRLU_ADD && !*has) return *has = 1, *value = 0, change(m, &new);
    if (c->op == MVRLU_PUT && *has && *value != c->value) return *value = c->value, *m = new, MVRLU_OK;
    if (c->op == MVRLU_PUT && !*has) return *has = 1, *value = c->value, change(m, &new);
    if (c->op == MVRLU_MOVE && *has && !*other) {
        *has = 0, *other = 1;
        new.value[c->other][c->key] = *value;
        return change(m, &new);
    }
    return MVRLU_NO;
}

/* What a command replies on the maps, and what it leaves of them. */
static mvrlu_reply replay(maps *m, const mvrlu_command *c) {
    mvrlu_reply r = {0, 0, 0, 0, MVRLU_OK};
    uint32_t key = c->key;
    switch (c->op) {
        case MVRLU_HAS: r.status = m->has[c->set][key] ? MVRLU_OK : MVRLU_NO; break;
        case MVRLU_GET:
            r.status = m->has[c->set][key] ? MVRLU_OK : MVRLU_NO;
            if (r.status == MVRLU_OK) r.value = m->value[c->set][key];
            break;
        case MVRLU_PAIR:
            r.value = (uint64_t)m->has[c->set][key];
            r.second = (uint32_t)m->has[c->other][key];
            break;
        case MVRLU_SIZE: r.value = size_of(m, c->set); break;
        case MVRLU_NEXT:
            while (key < KEYS && !m->has[c->set][key]) key++;
            r.status = key < KEYS ? MVRLU_OK : MVRLU_NO;
            r.value = key < KEYS ? key : 0;
            break;
        default: r.status = replay_change(m, c);
    }
    return r;
}

/* Compares what a walk wrote and told with the map. */
static void check_walk(const maps *m, const made *call) {
    uint32_t set = call->commands[0].set;
    uint64_t count = 0;
    for (uint32_t key = call->commands[0].key; key < KEYS; key++) {
        if (!m->has[set][key]) continue;
        if (count == call->room) {
            if (call->walk.more != 1 || call->walk.next != key) fail("another key to go on from", call->walk.next);
            break;
        }
        if (call->entries[count].key != key) fail("another key of a walk", call->entries[count].key);
        if (call->entries[count].value != m->value[set][key]) fail("another value of a walk", (long long)call->entries[count].value);
        count++;
        if (key == KEYS - 1 && call->walk.more != 0) fail("a key to go on from behind the last", call->walk.next);
    }
    if (call->walk.count != count) fail("another number of entries", (long long)call->walk.count);
    if (count < call->room && (call->walk.more != 0 || call->walk.next != 0)) fail("a key to go on from where there is none", call->walk.next);
}

/* Compares what a call replied with what its commands reply on the maps as one. Answers whether it changed them. */
static void check_call(maps *m, const made *call) {
    maps after = *m;
    mvrlu_reply wanted[MVRLU_BLOCK_MAX];
    int full = 0, changes = 0;
    for (uint32_t i = 0; i < call->count; i++) {
        wanted[i] = replay(&after, &call->commands[i]);
        full |= wanted[i].status == MVRLU_FULL;
        changes |= wanted[i].status == MVRLU_OK && call->commands[i].op <= MVRLU_PUT;
    }
    for (uint32_t i = 0; i < call->count; i++) {
        const mvrlu_reply *got = &call->replies[i];
        if (full) wanted[i] = (mvrlu_reply){0, 0, 0, 0, MVRLU_FULL};
        if (got->status != wanted[i].status) fail("another status", got->status);
        if (got->value != wanted[i].value || got->second != wanted[i].second) fail("another value", (long long)got->value);
        if (got->time != call->replies[0].time) fail("a block of two times", (long long)got->time);
        if (got->committed != (uint32_t)(changes && !full)) fail("a commit that is none, or none that is one", (long long)got->time);
    }
    if (call->status != (full ? MVRLU_FULL : call->count == 1 ? call->replies[0].status : MVRLU_OK)) fail("another status of a call", call->status);
    if (!full) *m = after;
}

/* By time, and the commit of a time before those that read its state. */
static int by_time(const void *a, const void *b) {
    const mvrlu_reply *x = (*(made *const *)a)->replies, *y = (*(made *const *)b)->replies;
    if (x->time != y->time) return x->time < y->time ? -1 : 1;
    return (int)y->committed - (int)x->committed;
}

/* Replays all calls in the order of their times. */
static unsigned check(worker workers[], unsigned count) {
    static made *all[SEATS * CALLS];
    maps m;
    unsigned calls = 0, commits = 0;
    memset(&m, 0, sizeof m);
    for (unsigned i = 0; i < count; i++) {
        uint64_t seen = 0;
        for (unsigned j = 0; j < CALLS; j++) {
            made *call = &workers[i].calls[j];
            if (call->replies[0].time < seen) fail("a time before what was seen", (long long)call->replies[0].time);
            seen = call->replies[0].time;
            all[calls++] = call;
        }
    }
    qsort(all, calls, sizeof *all, by_time);
    for (unsigned i = 0; i < calls; i++) {
        int same = i > 0 && all[i]->replies[0].time == all[i - 1]->replies[0].time;
        if (same && all[i]->replies[0].committed) fail("two commits of one time", (long long)all[i]->replies[0].time);
        if (all[i]->walks) check_walk(&m, all[i]);
        else check_call(&m, all[i]);
        commits += all[i]->replies[0].committed;
    }
    return commits;
}

int main(int argc, char *argv[]) {
    static worker workers[SEATS];
    static mvrlu_sets sets[SEATS];
    unsigned long histories = argc > 1 ? strtoul(argv[1], NULL, 10) : HISTORIES, commits = 0;
    uint64_t random = argc > 2 ? strtoull(argv[2], NULL, 10) : 1;
    mvrlu_sets_options options = MVRLU_SETS_OPTIONS_INIT;
    options.objects = 180 + NODES;
    options.slots = 128;
    for (unsigned long history = 0; history < histories; history++) {
        unsigned count = 2 + history % (SEATS - 1);
        pthread_t threads[SEATS];
        if (mvrlu_sets_open(&options, sets, count) != MVRLU_OK) fail("open", (long long)history);
        for (unsigned i = 0; i < count; i++) {
            memset(&workers[i], 0, sizeof workers[i]);
            workers[i].sets = &sets[i];
            workers[i].random = random + history * SEATS + i;
            if (pthread_create(&threads[i], NULL, work, &workers[i]) != 0) fail("no thread", i);
        }
        for (unsigned i = 0; i < count; i++) pthread_join(threads[i], NULL);
        commits += check(workers, count);
        for (unsigned i = 0; i < count; i++) {
            if (mvrlu_sets_close(&sets[i]) != MVRLU_OK) fail("close", i);
        }
    }
    printf("histories of sets %lu: each reply is that of the replay (%lu commits)\n", histories, commits);
    return commits == 0;
}
