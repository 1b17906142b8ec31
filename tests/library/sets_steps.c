/* A call of one seat is stopped after so many instructions, and another seat makes calls in the middle of it; so for one number of
 * instructions after another, until the call ends before. Each way in which the two can meet comes, on one thread:
 * MVRLU_STALE, MVRLU_BUSY, MVRLU_AGAIN and MVRLU_SHORT of the sets, and MVRLU_AGAIN of mvrlu_commit, with what they
 * tell and what they leave. MVRLU_WORN is in closing.c. Ends with 1 at an answer that is another than the header's. */
#include "steps.h"

enum { SET = 0, OTHER = 1, KEY = 5, SLOTS = 64, WRITE_MAX = 40, STRIDE = 8 };

static mvrlu_sets sets[2];
static mvrlu_seat seats[2];

static uint64_t value_in(uint32_t set) {
    mvrlu_reply reply;
    int32_t status = mvrlu_sets_get(&sets[0], set, KEY, &reply);
    if (status != MVRLU_OK) fail("a get", status);
    return reply.value;
}

/* What the other seat does in between, and what it came to. */
static uint32_t other_set;
static uint64_t other_value;
static mvrlu_reply other_reply;
static int32_t other_status;

static void put_in_between(void) { other_status = mvrlu_sets_put(&sets[1], other_set, KEY, other_value, &other_reply); }

typedef struct ways { unsigned long both, stale, busy, again; } ways;

/* Two puts, one in the middle of the other, and what may come of it: both are done, or one is given up because of the other. */
static void check_puts(ways *met, int32_t status, const mvrlu_reply *reply, uint64_t value, uint64_t old) {
    int same = other_set == SET;
    uint64_t wanted = status == MVRLU_OK ? value : same ? other_value : old;
    if (status == MVRLU_OK && other_status == MVRLU_OK) {
        met->both++;
        if (reply->time == other_reply.time || !reply->committed || !other_reply.committed) fail("two commits", (long long)reply->time);
        if (same && other_reply.time > reply->time) wanted = other_value;
    } else if (status == MVRLU_STALE && other_status == MVRLU_OK && same) {
        met->stale++;
        want_nothing_done(reply, MVRLU_STALE, other_reply.time);
    } else if (status == MVRLU_OK && other_status == MVRLU_BUSY && same) {
        met->busy++;
        want_nothing_done(&other_reply, MVRLU_BUSY, 0);
    } else if (status == MVRLU_AGAIN && other_status == MVRLU_OK && !same) {
        met->again++;
        want_nothing_done(reply, MVRLU_AGAIN, other_reply.time);
    } else {
        fail("two puts that meet so", status * 100 + other_status);
    }
    if (value_in(SET) != wanted) fail("another value", (long long)value_in(SET));
    if (!same && value_in(OTHER) != other_value) fail("another value in the other set", (long long)value_in(OTHER));
}

/* One put of seat 0, alone or in a block, and one of seat 1 after so many of its instructions, then after more. */
static ways meet(uint32_t set, int in_block, unsigned long stride) {
    ways met = {0, 0, 0, 0};
    uint64_t value = 1000, old;
    for (unsigned long at = 1;; at += stride) {
        mvrlu_reply reply[2];
        mvrlu_command commands[] = {{MVRLU_HAS, OTHER, 0, KEY, 0}, {MVRLU_PUT, SET, 0, KEY, value}};
        int32_t status;
        old = value_in(SET);
        other_set = set;
        other_value = value + 1;
        other_status = MVRLU_NULL;
        commands[1].value = value;
        count_from(at, put_in_between);
        if (in_block) status = mvrlu_sets_block(&sets[0], commands, 2, reply);
        else status = mvrlu_sets_put(&sets[0], SET, KEY, value, &reply[1]);
        count_no_more();
        if (other_status == MVRLU_NULL) return met;
        if (in_block && reply[0].status != (status == MVRLU_OK ? MVRLU_OK : status)) fail("another reply of a block", reply[0].status);
        check_puts(&met, status, &reply[1], value, old);
        if (mvrlu_may_retry(status) && mvrlu_sets_put(&sets[0], SET, KEY, value + 2, NULL) != MVRLU_OK) fail("the call again", status);
        value += 3;
    }
}

/* Puts until it is given up, at most a log's worth; how many were done. */
static unsigned long done_in_between;
static void fill_log(void) {
    for (done_in_between = 0; done_in_between < 2 * SLOTS; done_in_between++) {
        other_value++;
        put_in_between();
        if (other_status != MVRLU_OK) return;
    }
}

/* While a section of seat 0 reads, seat 1 can reclaim nothing that it wrote since: its log has too little room at last. */
static unsigned long run_short(void) {
    unsigned long found = 0;
    for (unsigned long at = 1;; at += 12 * STRIDE) {
        mvrlu_reply reply;
        uint32_t live = 0;
        if (mvrlu_sets_tidy(&sets[1], &live) != MVRLU_OK || live != 0) fail("a log that is not empty", live);
        other_set = OTHER;
        other_status = MVRLU_NULL;
        count_from(at, fill_log);
        int32_t status = mvrlu_sets_size(&sets[0], SET, &reply);
        count_no_more();
        if (status != MVRLU_OK || reply.value != 1) fail("a size", status);
        if (other_status == MVRLU_NULL) return found;
        if (other_status != MVRLU_OK) {
            found++;
            want_nothing_done(&other_reply, MVRLU_SHORT, 0);
            if (done_in_between <= SLOTS - WRITE_MAX) fail("too little room where there is enough", (long long)done_in_between);
            if (value_in(OTHER) != other_value - 1) fail("a put that was not done", (long long)value_in(OTHER));
            if (mvrlu_sets_put(&sets[1], OTHER, KEY, other_value, NULL) != MVRLU_OK) fail("the same put again", other_status);
        }
    }
}

static uint64_t other_time;

static void commit_in_between(void) { other_status = mvrlu_commit(&seats[1], NULL, &other_time); }

/* A section of each seat holds the object of the seat's number, with this word. */
static void hold_both(uint64_t word) {
    const uint64_t words[MVRLU_WORDS] = {word};
    for (uint32_t i = 0; i < 2; i++) {
        if (mvrlu_prepare(&seats[i]) != MVRLU_OK) fail("no room for a section", i);
    }
    for (uint32_t i = 0; i < 2; i++) {
        if (mvrlu_enter(&seats[i]) != MVRLU_OK) fail("no section", i);
        if (mvrlu_lock(&seats[i], i, NULL) != MVRLU_OK) fail("a lock of the own object", i);
        if (mvrlu_write(&seats[i], i, words) != MVRLU_OK) fail("a write", i);
    }
}

/* In a section of seat 0. */
static void want_word(uint32_t object, uint64_t word) {
    uint64_t words[MVRLU_WORDS];
    if (mvrlu_read(&seats[0], object, words) != MVRLU_OK || words[0] != word) fail("another word", object);
}

/* Two commits that took place, in which order, or where the one lost to the other. */
typedef struct orders { unsigned long before, after, again; } orders;

static void check_commits(orders *met, int32_t status, uint64_t time, uint64_t word) {
    if (other_status != MVRLU_OK) fail("a commit in between", other_status);
    if (status == MVRLU_AGAIN) {
        met->again++;
        if (time != other_time) fail("what came first of two commits", (long long)time);
        want_word(0, word);
        want_word(1, word - 1);
        status = mvrlu_commit(&seats[0], NULL, &time);
        if (time != other_time + 1) fail("the time of a commit again", (long long)time);
    } else if (time < other_time) {
        met->before++;
    } else {
        met->after++;
    }
    if (status != MVRLU_OK) fail("a commit", status);
    if (time + 1 != other_time && time != other_time + 1) fail("two times that are apart", (long long)time);
    if (mvrlu_enter(&seats[0]) != MVRLU_OK) fail("no section", 0);
    want_word(0, word);
    want_word(1, word);
    if (mvrlu_leave(&seats[0]) != MVRLU_OK) fail("a section that isn't left", 0);
}

/* A commit of seat 0, and one of seat 1 after so many of its instructions, of another object. */
static orders meet_commits(void) {
    orders met = {0, 0, 0};
    for (unsigned long at = 1;; at++) {
        uint64_t time = 0;
        int32_t status;
        hold_both(at);
        other_status = MVRLU_NULL;
        count_from(at, commit_in_between);
        status = mvrlu_commit(&seats[0], NULL, &time);
        count_no_more();
        if (other_status == MVRLU_NULL) return met;
        check_commits(&met, status, time, at);
    }
}

int main(void) {
    mvrlu_sets_options options = MVRLU_SETS_OPTIONS_INIT;
    mvrlu_options objects = MVRLU_OPTIONS_INIT;
    stop_by_steps();
    options.slots = SLOTS;
    objects.objects = 2;
    objects.slots = SLOTS;
    objects.write_max = 1;
    if (mvrlu_sets_open(&options, sets, 2) != MVRLU_OK || mvrlu_open(&objects, seats, 2) != MVRLU_OK) fail("open", 0);
    if (mvrlu_sets_put(&sets[0], SET, KEY, 1, NULL) != MVRLU_OK || mvrlu_sets_put(&sets[0], OTHER, KEY, 1, NULL) != MVRLU_OK) fail("a put", 0);
    ways same = meet(SET, 0, 2 * STRIDE), apart = meet(OTHER, 0, STRIDE), block = meet(SET, 1, 4 * STRIDE);
    unsigned long shortages = run_short();
    orders commits = meet_commits();
    if (same.both == 0 || same.stale == 0 || same.busy == 0) fail("one key: a way that did not come", (long long)same.both);
    if (apart.both == 0 || apart.again == 0) fail("two sets: a way that did not come", (long long)apart.both);
    if (block.both == 0 || block.stale == 0 || block.busy == 0) fail("blocks: a way that did not come", (long long)block.both);
    if (shortages == 0) fail("a log that has room", 0);
    if (commits.again == 0) fail("commits: none was lost", (long long)commits.before);
    if (commits.before == 0 || commits.after == 0) fail("commits: an order didn't come", (long long)commits.after);
    printf("steps: stale %lu, busy %lu, again %lu, short %lu, both done %lu; commits again %lu, both done %lu\n",
        same.stale + block.stale, same.busy + block.busy, apart.again, shortages, same.both + apart.both + block.both,
        commits.again, commits.before + commits.after);
    for (int i = 0; i < 2; i++) {
        if (mvrlu_sets_close(&sets[i]) != MVRLU_OK || mvrlu_close(&seats[i]) != MVRLU_OK) fail("close", i);
    }
    return 0;
}
