/* A call of one seat of a table is stopped after so many instructions, and the other seat makes a call in the middle of it; so for one number of
 * instructions after another, until the call ends before. MVRLU_STALE, MVRLU_AGAIN and MVRLU_SHORT come, with what they tell, and MVRLU_BUSY may;
 * the seat's log counts a commit for each call that tells that it was done, and none for another. Ends with 1 at an answer that is another
 * than the header's. */
#include "steps.h"

enum { KEYS = 40, OWN = 100, SLOTS = 65, STRIDE = 14, SPLIT_STRIDE = 5003, SIZE_STRIDE = 4001 };

static mvrlu_table table[2];

/* A call that changes something, whatever it was before: it splits, or adds or takes out a key of the seat's own. */
typedef int32_t deed(uint32_t seat, mvrlu_reply *reply);

static int32_t split(uint32_t seat, mvrlu_reply *reply) { return mvrlu_table_split(&table[seat], reply); }

static int32_t turn(uint32_t seat, mvrlu_reply *reply) {
    int32_t there = mvrlu_table_has(&table[seat], OWN + seat, NULL);
    return there == MVRLU_OK ? mvrlu_table_del(&table[seat], OWN + seat, reply) : mvrlu_table_add(&table[seat], OWN + seat, reply);
}

/* What the other seat does in between, and what it came to. */
static deed *other_deed;
static mvrlu_reply other_reply;
static int32_t other_status;

static void do_in_between(void) { other_status = other_deed(1, &other_reply); }

/* How many commits the log of a seat tells. */
static uint64_t commits_of(uint32_t seat) {
    mvrlu_counts counts;
    if (mvrlu_table_counts(&table[seat], &counts) != MVRLU_OK) fail("counts", seat);
    return counts.commits;
}

typedef struct ways { unsigned long both, stale, busy, again; } ways;

/* Two deeds, one in the middle of the other, and what may come of it: both are done, or one is given up because of the other. */
static void check(ways *met, int32_t status, const mvrlu_reply *reply) {
    if (status == MVRLU_OK && other_status == MVRLU_OK) {
        met->both++;
        if (reply->time == other_reply.time || !reply->committed || !other_reply.committed) fail("two commits", (long long)reply->time);
    } else if ((status == MVRLU_STALE || status == MVRLU_AGAIN) && other_status == MVRLU_OK) {
        *(status == MVRLU_STALE ? &met->stale : &met->again) += 1;
        want_nothing_done(reply, status, other_reply.time);
    } else if (status == MVRLU_OK && other_status == MVRLU_BUSY) {
        met->busy++;
        want_nothing_done(&other_reply, MVRLU_BUSY, 0);
    } else {
        fail("two deeds that meet so", status * 100 + other_status);
    }
}

/* That each key is there, and no other but the two seats' own. */
static void look_at_all(void) {
    mvrlu_reply reply;
    uint64_t own = 0;
    for (uint32_t key = 0; key < KEYS; key++) {
        if (mvrlu_table_has(&table[0], key, NULL) != MVRLU_OK) fail("a key that was lost", key);
    }
    for (uint32_t seat = 0; seat < 2; seat++) own += mvrlu_table_has(&table[0], OWN + seat, NULL) == MVRLU_OK;
    if (mvrlu_table_size(&table[0], &reply) != MVRLU_OK || reply.value != KEYS + own) fail("a size", (long long)reply.value);
}

/* Empties both logs, so that no deed has too little room. */
static void tidy_both(void) {
    uint32_t live = 1;
    for (uint32_t seat = 0; seat < 2; seat++) {
        if (mvrlu_table_tidy(&table[seat], &live) != MVRLU_OK || live != 0) fail("a log that is not empty", live);
    }
}

/* A deed of seat 0, and one of seat 1 after so many of its instructions, then after more. */
static ways meet(deed *own, deed *other, unsigned long stride) {
    ways met = {0, 0, 0, 0};
    other_deed = other;
    for (unsigned long at = 1;; at += stride) {
        mvrlu_reply reply;
        tidy_both();
        uint64_t before[] = {commits_of(0), commits_of(1)};
        other_status = MVRLU_NULL;
        count_from(at, do_in_between);
        int32_t status = own(0, &reply);
        count_no_more();
        if (other_status == MVRLU_NULL) break;
        check(&met, status, &reply);
        if (commits_of(0) != before[0] + (status == MVRLU_OK)) fail("a commit of what was not done, or none", status);
        if (commits_of(1) != before[1] + (other_status == MVRLU_OK)) fail("a commit of what was not done in between, or none", other_status);
    }
    look_at_all();
    return met;
}

/* Splits until it is given up, at most a log's worth; how many were done. */
static unsigned long done_in_between;
static void fill_log(void) {
    for (done_in_between = 0; done_in_between < 2 * SLOTS; done_in_between++) {
        do_in_between();
        if (other_status != MVRLU_OK) return;
    }
}

/* While a section of seat 0 reads, seat 1 can reclaim nothing that it wrote since: its log has too little room for a split at last. */
static unsigned long run_short(void) {
    unsigned long found = 0;
    other_deed = split;
    for (unsigned long at = 1;; at += SIZE_STRIDE) {
        mvrlu_reply reply;
        tidy_both();
        uint64_t before = commits_of(1);
        other_status = MVRLU_NULL;
        count_from(at, fill_log);
        int32_t status = mvrlu_table_size(&table[0], &reply);
        count_no_more();
        if (status != MVRLU_OK || reply.value != KEYS) fail("a size", status);
        if (other_status == MVRLU_NULL) return found;
        if (commits_of(1) != before + done_in_between) fail("a commit of what was not done, or none", (long long)done_in_between);
        if (other_status == MVRLU_OK) continue;
        found++;
        want_nothing_done(&other_reply, MVRLU_SHORT, 0);
    }
}

int main(void) {
    mvrlu_table_options options = MVRLU_TABLE_OPTIONS_INIT;
    stop_by_steps();
    options.slots = SLOTS;
    if (mvrlu_table_open(&options, table, 2) != MVRLU_OK) fail("open", 0);
    for (uint32_t key = 0; key < KEYS; key++) {
        int32_t status;
        do status = mvrlu_table_add(&table[0], key, NULL);
        while (mvrlu_may_retry(status));
        if (status != MVRLU_OK) fail("an add", status);
    }
    unsigned long shortages = run_short();
    ways splits = meet(split, split, SPLIT_STRIDE), turns = meet(turn, turn, STRIDE), mixed = meet(turn, split, STRIDE);
    if (shortages == 0) fail("a log that has room", 0);
    if (splits.both == 0 || splits.stale == 0) fail("two splits: a way that did not come", (long long)splits.both);
    if (turns.both == 0 || turns.again == 0) fail("two keys: a way that did not come", (long long)turns.both);
    if (mixed.both == 0 || mixed.again == 0) fail("a key and a split: a way that did not come", (long long)mixed.both);
    printf("steps of a table: stale %lu, busy %lu, again %lu, short %lu, both done %lu\n", splits.stale + turns.stale + mixed.stale,
        splits.busy + turns.busy + mixed.busy, turns.again + mixed.again, shortages, splits.both + turns.both + mixed.both);
    for (int i = 0; i < 2; i++) {
        if (mvrlu_table_close(&table[i]) != MVRLU_OK) fail("close", i);
    }
    return 0;
}
