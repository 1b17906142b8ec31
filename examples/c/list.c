/* A sorted linked list of the user's own, in objects: threads take a key out and put another in, as one commit, while others walk
 * over the whole list, so each walk counts as many keys as the first. docs/C.md says how the library is installed; then, at the
 * top of the repository:
 *     cc -O2 examples/c/list.c $(pkg-config --cflags --libs mvrlu) -o list
 *
 * Object 0 is the head, and each other one a node or vacant. A vacant object has words that are all 0, which mvrlu_vacant looks for; a
 * node has a key, and keys begin at 1. That is part of the state and is committed with the rest, so the node of a key that was taken
 * out may be used again at once: a walk that began before still reads what it was. The one rule is to lock all that a commit depends
 * on: to put a node in, the one before it; to take it out, that one and the node itself. */
#include <mvrlu.h>
#include <pthread.h>
#include <stdatomic.h>
#include <stdio.h>
#include <stdlib.h>

enum { PAIRS = 32, CHANGERS = 2, WALKERS = 2, SEATS = CHANGERS + WALKERS, CHANGES = 20000 };
enum { LENGTH = PAIRS * CHANGERS, NODES = 2 * LENGTH };
enum { KEY, NEXT }; /* the words of a node, of which the head has NEXT alone */
enum { HEAD = 0, END = 0 };

typedef struct user { mvrlu_seat *seat; uint32_t hint; unsigned number; } user;
typedef struct place { uint32_t before, node; int is_there; } place;

static atomic_int changing = CHANGERS;

static void must(const char *what, int32_t status) {
    if (status == MVRLU_OK) return;
    fprintf(stderr, "%s: %s\n", what, mvrlu_strerror(status));
    exit(1);
}

/* The key of a node, and in `next` where it leads. A walk reads these two words alone. */
static uint64_t look(mvrlu_seat *seat, uint32_t node, uint32_t *next) {
    uint64_t words[2];
    must("read", mvrlu_read_pair(seat, node, KEY, words));
    *next = (uint32_t)words[1];
    return words[0];
}

/* The first node whose key isn't below this one, or END, and the node before it. */
static place find(mvrlu_seat *seat, uint64_t key) {
    uint32_t before = HEAD, node, next;
    uint64_t found = 0;
    for (look(seat, HEAD, &node); node != END && (found = look(seat, node, &next)) < key; node = next) before = node;
    return (place){before, node, node != END && found == key};
}

/* Has a node lead elsewhere. This and the next two tell a refusal, a status above 0: then the section is to be aborted. */
static int32_t lead(mvrlu_seat *seat, uint32_t node, uint32_t next) {
    uint64_t words[MVRLU_WORDS];
    int32_t status = mvrlu_lock(seat, node, NULL);
    if (status != MVRLU_OK) return status;
    must("read", mvrlu_read(seat, node, words));
    words[NEXT] = next;
    return mvrlu_write(seat, node, words);
}

/* Puts a key in, where it isn't there. The node before it is locked first, so that a head whose list is empty isn't found as vacant. */
static int32_t put_in(user *me, uint64_t key) {
    place at = find(me->seat, key);
    uint32_t node = END;
    int32_t status;
    if (at.is_there) return MVRLU_OK;
    if ((status = mvrlu_lock(me->seat, at.before, NULL)) != MVRLU_OK) return status;
    if ((status = mvrlu_vacant(me->seat, &me->hint, &node)) != MVRLU_OK) return status;
    must("lead", lead(me->seat, at.before, node));
    return mvrlu_write(me->seat, node, (uint64_t[MVRLU_WORDS]){[KEY] = key, [NEXT] = at.node});
}

/* Takes a key out, where it is there. */
static int32_t take_out(user *me, uint64_t key) {
    place at = find(me->seat, key);
    uint32_t next;
    int32_t status;
    if (!at.is_there) return MVRLU_OK;
    look(me->seat, at.node, &next);
    if ((status = lead(me->seat, at.before, next)) != MVRLU_OK || (status = mvrlu_lock(me->seat, at.node, NULL)) != MVRLU_OK) return status;
    return mvrlu_write(me->seat, at.node, (uint64_t[MVRLU_WORDS]){0});
}

/* Tries once to take a key out and put another in, and tells whether that was committed: else nothing was done. */
static int exchange(user *me, uint64_t out, uint64_t in) {
    int32_t status;
    if (mvrlu_prepare(me->seat) != MVRLU_OK) return 0; /* a walk still needs what the log holds */
    must("enter", mvrlu_enter(me->seat));
    if ((status = take_out(me, out)) == MVRLU_OK && (status = put_in(me, in)) == MVRLU_OK)
        while ((status = mvrlu_commit(me->seat, NULL, NULL)) == MVRLU_AGAIN) { }
    if (status < 0) must("exchange", status);
    if (status > 0) must("abort", mvrlu_abort(me->seat)); /* another thread came first */
    return status == MVRLU_OK;
}

/* Each changer has PAIRS of keys for its own, and always one of each in the list. */
static uint64_t own_key(const user *me, unsigned pair, unsigned which) { return 1 + me->number + CHANGERS * (2 * pair + which % 2); }

static void *change(void *given) {
    user *me = given;
    for (unsigned done = 0; done < CHANGES;)
        done += (unsigned)exchange(me, own_key(me, done % PAIRS, done / PAIRS), own_key(me, done % PAIRS, done / PAIRS + 1));
    atomic_fetch_sub(&changing, 1);
    return NULL;
}

static void broken(const char *how) {
    fprintf(stderr, "a walk found %s\n", how);
    exit(1);
}

/* Walks over the whole list, until nobody changes it any more. */
static void *walk(void *given) {
    mvrlu_seat *seat = ((user *)given)->seat;
    int last_walk, keys;
    do {
        uint64_t key, before = 0;
        uint32_t node;
        last_walk = atomic_load(&changing) == 0;
        must("enter", mvrlu_enter(seat));
        for (keys = 0, look(seat, HEAD, &node); node != END; keys++, before = key)
            if ((key = look(seat, node, &node)) <= before) broken("a key that doesn't rise");
        must("leave", mvrlu_leave(seat));
        if (keys != LENGTH) broken("another length");
    } while (!last_walk);
    return NULL;
}

int main(void) {
    static mvrlu_seat seats[SEATS];
    mvrlu_options options = MVRLU_OPTIONS_INIT;
    user users[SEATS];
    pthread_t threads[SEATS];
    options.objects = 1 + NODES;
    must("open", mvrlu_open(&options, seats, SEATS));
    for (unsigned i = 0; i < SEATS; i++) users[i] = (user){&seats[i], i * (NODES / SEATS), i};
    for (unsigned i = 0; i < LENGTH; i++)
        if (!exchange(&users[0], 0, own_key(&users[i % CHANGERS], i / CHANGERS, 0))) return 1;
    for (int i = 0; i < SEATS; i++) pthread_create(&threads[i], NULL, i < CHANGERS ? change : walk, &users[i]);
    for (int i = 0; i < SEATS; i++) pthread_join(threads[i], NULL);
    printf("changes %d, each walk %d keys\n", CHANGERS * CHANGES, LENGTH);
    for (int i = 0; i < SEATS; i++) must("close", mvrlu_close(&seats[i]));
    return 0;
}
