/* Random histories: 2 to 8 threads read and commit a few objects, and each section is checked afterwards against a
 * replay of the commits in the order of their times: its reads, its commit, and the cause of each refusal. Ends with 1
 * at a fault. Arguments: how many histories, and a number to draw from. */
#include "wanted.h"

#include <pthread.h>
#include <string.h>

#ifndef HISTORIES
#define HISTORIES 100
#endif

enum { SEATS = 8, OBJECTS = 6, SECTIONS = 40, WRITE_MAX = 3, SLOTS = 64, TRIES = 4 };

/* A lock that was refused, and what was told: the seat that holds the object, or the time of the write. */
typedef struct refusal {
    int32_t status; /* MVRLU_OK where none was refused */
    uint32_t object;
    uint64_t by;
} refusal;

/* What one section read, and what it committed at `time`, if that isn't 0. */
typedef struct section {
    uint64_t snapshot, time, reads[OBJECTS], writes[OBJECTS];
    uint32_t number, written; /* of its seat; a bit for each object */
    refusal lock;
    uint64_t rivals[TRIES]; /* the times of the entries that came before its commit */
    unsigned lost;
} section;

typedef struct worker {
    mvrlu_seat *seat;
    uint32_t number;
    uint64_t random, next;
    section sections[SECTIONS];
    unsigned count;
} worker;

static void must(const char *what, int32_t status) {
    if (status != MVRLU_OK) fail(what, status);
}

static uint32_t draw(worker *me, uint32_t below) {
    me->random = me->random * 6364136223846793005u + 1442695040888963407u;
    return (uint32_t)(me->random >> 33) % below;
}

/* The first word of an object, whose other words tell whether it is whole. */
static uint64_t read_whole(mvrlu_seat *seat, uint32_t object) {
    uint64_t words[MVRLU_WORDS];
    must("read", mvrlu_read(seat, object, words));
    for (int i = 1; i < MVRLU_WORDS; i++) {
        if (words[i] != words[0]) fail("an object in parts", object);
    }
    return words[0];
}

/* Locks and writes some objects. 0 where a lock was refused. */
static int write_some(worker *me, section *done) {
    for (uint32_t left = 1 + draw(me, WRITE_MAX); left > 0; left--) {
        uint32_t object = draw(me, OBJECTS);
        uint64_t words[MVRLU_WORDS], value = me->next++;
        done->lock = (refusal){MVRLU_OK, object, UINT64_MAX};
        done->lock.status = mvrlu_lock(me->seat, object, &done->lock.by);
        if (done->lock.status != MVRLU_OK) return 0;
        for (int i = 0; i < MVRLU_WORDS; i++) words[i] = value;
        must("write", mvrlu_write(me->seat, object, words));
        if (read_whole(me->seat, object) != value) fail("an own write that isn't read", object);
        done->writes[object] = value;
        done->written |= 1u << object;
    }
    return 1;
}

static void commit_some(worker *me, section *done) {
    int32_t status = MVRLU_AGAIN;
    if (write_some(me, done) && draw(me, 8) != 0) {
        while (status == MVRLU_AGAIN && done->lost < TRIES) {
            status = mvrlu_commit(me->seat, NULL, &done->time);
            if (status == MVRLU_AGAIN) done->rivals[done->lost++] = done->time;
        }
    }
    if (status == MVRLU_OK) return;
    if (status != MVRLU_AGAIN) fail("commit", status);
    done->time = 0;
    must("abort", mvrlu_abort(me->seat));
}

static void *work(void *given) {
    worker *me = given;
    while (me->count < SECTIONS) {
        section *done = &me->sections[me->count++];
        done->number = me->number;
        int room = mvrlu_prepare(me->seat) == MVRLU_OK;
        must("enter", mvrlu_enter(me->seat));
        must("time", mvrlu_time(me->seat, &done->snapshot));
        for (uint32_t object = 0; object < OBJECTS; object++) done->reads[object] = read_whole(me->seat, object);
        if (room && draw(me, 2) == 0) commit_some(me, done);
        else must("leave", mvrlu_leave(me->seat));
    }
    return NULL;
}

static int by_snapshot(const void *a, const void *b) {
    const section *x = *(section *const *)a, *y = *(section *const *)b;
    return (x->snapshot > y->snapshot) - (x->snapshot < y->snapshot);
}

static int by_time(const void *a, const void *b) {
    const section *x = *(section *const *)a, *y = *(section *const *)b;
    return (x->time > y->time) - (x->time < y->time);
}

/* Each section of a worker begins with all that it had seen. */
static void check_order(const worker *me) {
    uint64_t seen = 0;
    for (unsigned i = 0; i < me->count; i++) {
        if (me->sections[i].snapshot < seen) fail("a snapshot before what was seen", (long long)me->sections[i].snapshot);
        seen = me->sections[i].time > 0 ? me->sections[i].time : me->sections[i].snapshot;
    }
}

/* What the commits up to a time came to. */
typedef struct replay { uint64_t state[OBJECTS], written_at[OBJECTS], last; } replay;

/* The next commit in the order of times. Nothing that it wrote was written since its snapshot. */
static void apply(replay *so_far, const section *commit) {
    if (commit->time <= so_far->last) fail("a time that came twice", (long long)commit->time);
    so_far->last = commit->time;
    for (uint32_t object = 0; object < OBJECTS; object++) {
        if (!(commit->written >> object & 1)) continue;
        if (so_far->written_at[object] > commit->snapshot) fail("a commit over a later one", (long long)commit->time);
        so_far->written_at[object] = commit->time;
        so_far->state[object] = commit->writes[object];
    }
}

/* What the histories came to. */
typedef struct tally { unsigned long commits, stale, busy, again; } tally;

/* All commits of a history, in the order of their times, its seats, and the time of its last entry. */
typedef struct ordered { section **made; unsigned commits, seats; uint64_t last; } ordered;

/* The commit of another seat at a time, or NULL where that is a rest. */
static const section *commit_of_another(const ordered *whole, const section *mine, uint64_t time) {
    section wanted = {.time = time}, *key = &wanted;
    section *const *found = bsearch(&key, whole->made, whole->commits, sizeof *whole->made, by_time);
    if (found == NULL) return NULL;
    if ((*found)->number == mine->number) fail("came first, and is of the same seat", (long long)time);
    return *found;
}

/* A lock is refused for a seat that isn't its own, or for a commit of the object that its section doesn't see. */
static void check_lock(const ordered *whole, const section *mine, tally *told) {
    const refusal *lock = &mine->lock;
    if (lock->status == MVRLU_BUSY) {
        told->busy++;
        if (lock->by >= whole->seats || lock->by == mine->number) fail("busy by no other seat", (long long)lock->by);
    } else if (lock->status == MVRLU_STALE) {
        const section *cause = commit_of_another(whole, mine, lock->by);
        told->stale++;
        if (lock->by <= mine->snapshot) fail("stale by what the section sees", (long long)lock->by);
        if (cause == NULL || !(cause->written >> lock->object & 1)) fail("stale by no write", (long long)lock->by);
    } else {
        must("lock", lock->status);
    }
}

/* A commit is lost to an entry of another seat, each time to a later one, and comes behind them. */
static void check_commit(const ordered *whole, const section *mine, tally *told) {
    uint64_t seen = mine->snapshot;
    for (unsigned i = 0; i < mine->lost; i++) {
        told->again++;
        if (mine->rivals[i] <= seen) fail("lost to an entry before it began", (long long)mine->rivals[i]);
        seen = mine->rivals[i];
        if (seen > whole->last) fail("lost to no entry", (long long)seen);
        commit_of_another(whole, mine, seen);
    }
    if (mine->time != 0 && mine->time <= seen) fail("a commit before what it knew", (long long)mine->time);
}

/* The time of the last entry, once no thread makes one: each entry is a commit or a rest. */
static uint64_t last_entry(mvrlu_seat seats[], unsigned count) {
    uint64_t entries = 0, last;
    for (unsigned i = 0; i < count; i++) {
        mvrlu_counts counts;
        must("count", mvrlu_count(&seats[i], &counts));
        entries += counts.commits + counts.rests;
    }
    must("enter", mvrlu_enter(&seats[0]));
    must("time", mvrlu_time(&seats[0], &last));
    must("leave", mvrlu_leave(&seats[0]));
    if (last != entries) fail("entries that nobody made", (long long)last);
    return last;
}

/* Replays the commits in the order of their times, compares each section's reads with the state of its snapshot, and
 * looks for the cause of what was refused. */
static void check(worker workers[], unsigned count, uint64_t last, tally *told) {
    static section *read[SEATS * SECTIONS], *made[SEATS * SECTIONS];
    replay so_far = {{0}, {0}, 0};
    unsigned reads = 0, commits = 0, next = 0;
    ordered whole;
    for (unsigned i = 0; i < count; i++) {
        check_order(&workers[i]);
        for (unsigned j = 0; j < workers[i].count; j++) {
            read[reads++] = &workers[i].sections[j];
            if (workers[i].sections[j].time > 0) made[commits++] = &workers[i].sections[j];
        }
    }
    qsort(read, reads, sizeof *read, by_snapshot);
    qsort(made, commits, sizeof *made, by_time);
    whole = (ordered){made, commits, count, last};
    for (unsigned i = 0; i < reads; i++) {
        check_lock(&whole, read[i], told);
        check_commit(&whole, read[i], told);
        while (next < commits && made[next]->time <= read[i]->snapshot) apply(&so_far, made[next++]);
        if (memcmp(so_far.state, read[i]->reads, sizeof so_far.state) != 0) fail("a read of another state", (long long)read[i]->snapshot);
    }
    while (next < commits) apply(&so_far, made[next++]);
    told->commits += commits;
}

int main(int argc, char *argv[]) {
    static worker workers[SEATS];
    static mvrlu_seat seats[SEATS];
    unsigned long histories = argc > 1 ? strtoul(argv[1], NULL, 10) : HISTORIES;
    uint64_t random = argc > 2 ? strtoull(argv[2], NULL, 10) : 1;
    mvrlu_options options = MVRLU_OPTIONS_INIT;
    tally told = {0, 0, 0, 0};
    options.objects = OBJECTS;
    options.slots = SLOTS;
    options.write_max = WRITE_MAX;
    for (unsigned long history = 0; history < histories; history++) {
        unsigned count = 2 + history % (SEATS - 1);
        pthread_t threads[SEATS];
        must("open", mvrlu_open(&options, seats, count));
        for (unsigned i = 0; i < count; i++) {
            memset(&workers[i], 0, sizeof workers[i]);
            workers[i].seat = &seats[i];
            workers[i].number = i;
            workers[i].random = random + history * SEATS + i;
            workers[i].next = ((uint64_t)i + 1) << 32;
            if (pthread_create(&threads[i], NULL, work, &workers[i]) != 0) fail("no thread", i);
        }
        for (unsigned i = 0; i < count; i++) pthread_join(threads[i], NULL);
        check(workers, count, last_entry(seats, count), &told);
        for (unsigned i = 0; i < count; i++) must("close", mvrlu_close(&seats[i]));
    }
    printf("histories %lu: each read is of its section's state (%lu commits), and each refusal has its cause "
        "(stale %lu, busy %lu, again %lu)\n", histories, told.commits, told.stale, told.busy, told.again);
    return told.commits == 0;
}
