/* A table of sessions and its index, in sets: a hash table has the deadline of each session, and a tree all deadlines in their order.
 * Threads renew sessions of their own: the old deadline goes and the new one comes in both, by a block, which is one commit. Others ask
 * for the session that ends first, and find table and index agreed in each state. docs/C.md says how the library is installed; then, at
 * the top of the repository:
 *     cc -O2 examples/c/sessions.c $(pkg-config --cflags --libs mvrlu) -o sessions */
#include <mvrlu.h>
#include <pthread.h>
#include <sched.h>
#include <stdatomic.h>
#include <stdio.h>
#include <stdlib.h>

enum { SESSIONS = 64, WORKERS = 2, WATCHERS = 2, SEATS = WORKERS + WATCHERS, RENEWALS = 20000 };

typedef struct user { mvrlu_sets *seat; uint32_t number; } user;

static atomic_int working = WORKERS;

static void fail(const char *what, const char *why) {
    fprintf(stderr, "%s: %s\n", what, why);
    exit(1);
}

/* A key of the index: deadlines are in order, and each session's are its own. */
static uint32_t index_key(uint32_t session, uint32_t deadline) { return deadline * SESSIONS + session; }

/* Makes a block until it is done. It is given up where another seat comes first, and then nothing was done. */
static void do_block(mvrlu_sets *seat, const mvrlu_command commands[], size_t count, mvrlu_reply replies[]) {
    int32_t status;
    while (mvrlu_may_retry(status = mvrlu_sets_block(seat, commands, count, replies))) sched_yield();
    if (status != MVRLU_OK) fail("block", mvrlu_strerror(status));
}

/* Puts a session off, from a deadline to a later one, in the table and in the index. */
static void renew(mvrlu_sets *seat, uint32_t session, uint32_t old, uint32_t deadline) {
    mvrlu_reply replies[3];
    do_block(seat, (mvrlu_command[3]){
        {.op = MVRLU_DEL, .set = MVRLU_TREE(0), .key = index_key(session, old)},
        {.op = MVRLU_ADD, .set = MVRLU_TREE(0), .key = index_key(session, deadline)},
        {.op = MVRLU_PUT, .set = MVRLU_HASH(0), .key = session, .value = deadline},
    }, 3, replies);
    if (replies[0].status != MVRLU_OK && old != 0) fail("renew", "the old deadline isn't in the index");
}

/* Each worker has every other session for its own, and renews them in turn. */
static void *work(void *given) {
    user *me = given;
    for (uint32_t done = 0; done < RENEWALS; done++) {
        uint32_t session = (done * WORKERS + me->number) % SESSIONS, turn = done / (SESSIONS / WORKERS);
        renew(me->seat, session, 1 + turn, 2 + turn);
    }
    atomic_fetch_sub(&working, 1);
    return NULL;
}

/* Asks for the session that ends first, and then, in one state, for its deadline in the table and in the index. */
static void watch_once(mvrlu_sets *seat) {
    mvrlu_reply first, replies[2];
    if (mvrlu_sets_next(seat, MVRLU_TREE(0), 0, &first) != MVRLU_OK) fail("next", "there is no session");
    uint32_t session = (uint32_t)first.value % SESSIONS, deadline = (uint32_t)first.value / SESSIONS;
    do_block(seat, (mvrlu_command[2]){
        {.op = MVRLU_GET, .set = MVRLU_HASH(0), .key = session},
        {.op = MVRLU_HAS, .set = MVRLU_TREE(0), .key = (uint32_t)first.value},
    }, 2, replies);
    int is_that = replies[0].status == MVRLU_OK && replies[0].value == deadline;
    if (is_that != (replies[1].status == MVRLU_OK)) fail("watch", "table and index say different things");
}

static void *watch(void *given) {
    do watch_once(((user *)given)->seat);
    while (atomic_load(&working) > 0);
    return NULL;
}

int main(void) {
    static mvrlu_sets seats[SEATS];
    mvrlu_sets_options options = MVRLU_SETS_OPTIONS_INIT;
    user users[SEATS];
    pthread_t threads[SEATS];
    mvrlu_reply size;
    int32_t status = mvrlu_sets_open(&options, seats, SEATS);
    if (status != MVRLU_OK) fail("open", mvrlu_strerror(status));
    for (uint32_t session = 0; session < SESSIONS; session++) renew(&seats[0], session, 0, 1);
    for (uint32_t i = 0; i < SEATS; i++) {
        users[i] = (user){&seats[i], i};
        pthread_create(&threads[i], NULL, i < WORKERS ? work : watch, &users[i]);
    }
    for (int i = 0; i < SEATS; i++) pthread_join(threads[i], NULL);
    mvrlu_sets_size(&seats[0], MVRLU_TREE(0), &size);
    printf("renewals %d, sessions %d in the index\n", WORKERS * RENEWALS, (int)size.value);
    for (int i = 0; i < SEATS; i++) mvrlu_sets_close(&seats[i]);
    return 0;
}
