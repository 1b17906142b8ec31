/* Each call on a table of mvrlu.h with each status that it answers on one thread. Prints how many answers were asked for, and ends with 1 at
 * the first that is another than the header says. */
#include "wanted.h"
#include <string.h>


/* A call on a table tells no second answer. */
#define WANT_TABLE(call, status_, value_, time_, committed_) \
    do { \
        WANT_REPLY(call, status_, value_, time_, committed_); \
        WANT(reply.second, 0); \
    } while (0)

static void open_table(mvrlu_table table[], size_t count, uint32_t objects, uint32_t slots, uint64_t opening_time) {
    mvrlu_table_options options = MVRLU_TABLE_OPTIONS_INIT;
    options.objects = objects;
    options.slots = slots;
    options.opening_time = opening_time;
    memset(table, 0, count * sizeof *table);
    WANT(mvrlu_table_open(&options, table, count), MVRLU_OK);
}

static void close_table(mvrlu_table table[], size_t count) {
    for (size_t i = 0; i < count; i++) WANT(mvrlu_table_close(&table[i]), MVRLU_OK);
}

static void options_out_of_range(void) {
    static mvrlu_table table[MVRLU_SEATS_MAX + 1];
    static const struct { uint32_t objects, slots; uint64_t opening_time; } wrong[] = {
        {0, 1024, 0},
        {MVRLU_TABLE_OBJECTS_MIN - 1, 1024, 0},
        {MVRLU_TABLE_OBJECTS_MAX + 1, 1024, 0},
        {MVRLU_TABLE_OBJECTS_MIN, MVRLU_TABLE_SLOTS_MIN - 1, 0},
        {MVRLU_TABLE_OBJECTS_MIN, MVRLU_SLOTS_MAX + 1, 0},
        {MVRLU_TABLE_OBJECTS_MIN, 1024, MVRLU_TIME_MAX + 1},
    };
    mvrlu_table_options options = MVRLU_TABLE_OPTIONS_INIT;
    for (size_t i = 0; i < sizeof wrong / sizeof *wrong; i++) {
        mvrlu_table_options other = MVRLU_TABLE_OPTIONS_INIT;
        other.objects = wrong[i].objects;
        other.slots = wrong[i].slots;
        other.opening_time = wrong[i].opening_time;
        WANT(mvrlu_table_open(&other, table, 1), MVRLU_BAD_NUMBER);
        WANT(table[0].raw.is_open, 0);
    }
    WANT_NO_OPENING(mvrlu_table_open, options, table);
}

static void all_seats_of_a_domain(void) {
    static mvrlu_table table[MVRLU_SEATS_MAX];
    mvrlu_table_options options = MVRLU_TABLE_OPTIONS_INIT;
    open_table(table, MVRLU_SEATS_MAX, MVRLU_TABLE_OBJECTS_MIN, MVRLU_SLOTS_MAX, 0);
    WANT(mvrlu_table_open(&options, table, MVRLU_SEATS_MAX), MVRLU_IN_USE);
    close_table(table, MVRLU_SEATS_MAX);
    WANT(mvrlu_table_close(&table[0]), MVRLU_CLOSED);
}

static void null_pointers(void) {
    mvrlu_table table[1];
    open_table(table, 1, MVRLU_TABLE_OBJECTS_MIN, 65, 0);
    WANT(mvrlu_table_add(NULL, 1, NULL), MVRLU_NULL);
    WANT(mvrlu_table_del(NULL, 1, NULL), MVRLU_NULL);
    WANT(mvrlu_table_has(NULL, 1, NULL), MVRLU_NULL);
    WANT(mvrlu_table_next(NULL, 1, NULL), MVRLU_NULL);
    WANT(mvrlu_table_size(NULL, NULL), MVRLU_NULL);
    WANT(mvrlu_table_split(NULL, NULL), MVRLU_NULL);
    WANT(mvrlu_table_tidy(table, NULL), MVRLU_NULL);
    WANT(mvrlu_table_counts(table, NULL), MVRLU_NULL);
    WANT(mvrlu_table_close(NULL), MVRLU_NULL);
    WANT(mvrlu_table_has(table, 1, NULL), MVRLU_NO);
    close_table(table, 1);
}

/* That each call answers this, and tells nothing. */
static void want_refused(mvrlu_table *table, int32_t status) {
    mvrlu_reply reply = UNTOLD;
    mvrlu_counts counts = {7, 7, 7, 7, 7, 7};
    uint32_t live = 7;
    uint64_t last = 7;
    WANT(mvrlu_table_add(table, 1, &reply), status);
    WANT(mvrlu_table_del(table, 1, &reply), status);
    WANT(mvrlu_table_has(table, 1, &reply), status);
    WANT(mvrlu_table_next(table, 1, &reply), status);
    WANT(mvrlu_table_size(table, &reply), status);
    WANT(mvrlu_table_split(table, &reply), status);
    WANT(mvrlu_table_tidy(table, &live), status);
    WANT(mvrlu_table_counts(table, &counts), status);
    WANT(mvrlu_table_close(table), status);
    WANT(mvrlu_table_close_last(table, &last), status);
    WANT(is_untold(&reply), 1);
    WANT(live == 7 && last == 7 && counts.commits == 7 && counts.live == 7, 1);
}

static void misuse_of_a_seat(void) {
    mvrlu_table table[1], copy, closed = {{0, NULL}, NULL, 0, {0}};
    want_refused(&closed, MVRLU_CLOSED);
    open_table(table, 1, MVRLU_TABLE_OBJECTS_MIN, 65, 0);
    copy = table[0];
    want_refused(&copy, MVRLU_MOVED);
    table[0].in_call = 1;
    want_refused(&table[0], MVRLU_IN_USE);
    table[0].in_call = 0;
    WANT(mvrlu_table_has(table, 1, NULL), MVRLU_NO);
    close_table(table, 1);
}

/* Each line says the status, the value, the time, and whether it is a commit. */
static void calls_on_a_table(void) {
    mvrlu_table table[2];
    mvrlu_reply reply;
    mvrlu_counts counts;
    uint32_t live = 7;
    uint64_t last = 7;
    open_table(table, 2, 2097152, 256, 100);
    WANT_TABLE(mvrlu_table_has(table, 5, &reply), MVRLU_NO, 0, 100, 0);
    WANT_TABLE(mvrlu_table_del(table, 5, &reply), MVRLU_NO, 0, 100, 0);
    WANT_TABLE(mvrlu_table_next(table, 0, &reply), MVRLU_NO, 0, 100, 0);
    WANT_TABLE(mvrlu_table_size(table, &reply), MVRLU_OK, 0, 100, 0);
    WANT_TABLE(mvrlu_table_add(table, 5, &reply), MVRLU_OK, 0, 101, 1);
    WANT_TABLE(mvrlu_table_add(table, 5, &reply), MVRLU_NO, 0, 101, 0);
    WANT_TABLE(mvrlu_table_add(table + 1, UINT32_MAX, &reply), MVRLU_OK, 0, 102, 1);
    WANT_TABLE(mvrlu_table_add(table, 0, &reply), MVRLU_OK, 0, 103, 1);
    WANT_TABLE(mvrlu_table_has(table + 1, 5, &reply), MVRLU_OK, 0, 103, 0);
    WANT_TABLE(mvrlu_table_next(table, 0, &reply), MVRLU_OK, 0, 103, 0);
    WANT_TABLE(mvrlu_table_next(table, 1, &reply), MVRLU_OK, 5, 103, 0);
    WANT_TABLE(mvrlu_table_next(table, 6, &reply), MVRLU_OK, UINT32_MAX, 103, 0);
    WANT_TABLE(mvrlu_table_size(table, &reply), MVRLU_OK, 3, 103, 0);
    WANT_TABLE(mvrlu_table_split(table, &reply), MVRLU_OK, 0, 104, 1);
    WANT_TABLE(mvrlu_table_split(table + 1, &reply), MVRLU_OK, 0, 105, 1);
    WANT_TABLE(mvrlu_table_size(table, &reply), MVRLU_OK, 3, 105, 0);
    WANT_TABLE(mvrlu_table_has(table, UINT32_MAX, &reply), MVRLU_OK, 0, 105, 0);
    WANT_TABLE(mvrlu_table_del(table, UINT32_MAX, &reply), MVRLU_OK, 0, 106, 1);
    WANT_TABLE(mvrlu_table_has(table + 1, UINT32_MAX, &reply), MVRLU_NO, 0, 106, 0);
    WANT(mvrlu_table_counts(table, &counts), MVRLU_OK);
    WANT(counts.commits, 4);
    WANT(mvrlu_table_tidy(table, &live), MVRLU_OK);
    WANT(live, 0);
    WANT(mvrlu_table_close_last(table, &last), MVRLU_NO);
    WANT(last, 7);
    WANT(mvrlu_table_close_last(table + 1, &last), MVRLU_OK);
    WANT(last >= 106 && last <= 108, 1);
}

/* Adds or takes out a key, again where the seat's log was short of room. */
static int32_t done(int32_t (*call)(mvrlu_table *, uint32_t, mvrlu_reply *), mvrlu_table *table, uint32_t key) {
    int32_t status;
    do status = call(table, key, NULL);
    while (mvrlu_may_retry(status));
    return status;
}

/* One node alone: a second key finds no room until the first is gone. */
static void a_full_table(void) {
    mvrlu_table table[1];
    mvrlu_reply reply;
    open_table(table, 1, MVRLU_TABLE_OBJECTS_MIN, 1024, 0);
    WANT_TABLE(mvrlu_table_add(table, 1, &reply), MVRLU_OK, 0, 1, 1);
    WANT_TABLE(mvrlu_table_add(table, 2, &reply), MVRLU_FULL, 0, 1, 0);
    WANT_TABLE(mvrlu_table_del(table, 1, &reply), MVRLU_OK, 0, 2, 1);
    WANT_TABLE(mvrlu_table_add(table, 2, &reply), MVRLU_OK, 0, 3, 1);
    WANT_TABLE(mvrlu_table_has(table, 2, &reply), MVRLU_OK, 0, 3, 0);
    close_table(table, 1);
}

/* The last time: what changes nothing is answered, and what would change something is worn. */
static void a_worn_domain(void) {
    mvrlu_table table[1];
    mvrlu_reply reply;
    open_table(table, 1, MVRLU_TABLE_OBJECTS_MIN, 1024, MVRLU_TIME_MAX - 1);
    WANT_TABLE(mvrlu_table_add(table, 1, &reply), MVRLU_OK, 0, MVRLU_TIME_MAX, 1);
    WANT_TABLE(mvrlu_table_del(table, 1, &reply), MVRLU_WORN, 0, MVRLU_TIME_MAX, 0);
    WANT_TABLE(mvrlu_table_add(table, 1, &reply), MVRLU_NO, 0, MVRLU_TIME_MAX, 0);
    WANT_TABLE(mvrlu_table_has(table, 1, &reply), MVRLU_OK, 0, MVRLU_TIME_MAX, 0);
    WANT_TABLE(mvrlu_table_split(table, &reply), MVRLU_WORN, 0, 0, 0);
    close_table(table, 1);
}

/* So many keys that the first bucket has more than a split can write, until some are taken out. */
static void a_long_bucket(void) {
    enum { KEYS = 1600 };
    mvrlu_table table[1];
    mvrlu_reply reply;
    uint64_t keys;
    uint32_t key;
    open_table(table, 1, 2097152, 1024, 0);
    for (key = 0; key < KEYS; key++) WANT(done(mvrlu_table_add, table, key), MVRLU_OK);
    reply = UNTOLD;
    WANT(mvrlu_table_split(table, &reply), MVRLU_NO);
    keys = reply.value;
    WANT(keys > 61 && keys < KEYS && reply.time == 0 && reply.committed == 0, 1);
    for (key = 0; keys > 61; key++) {
        int32_t status;
        WANT(done(mvrlu_table_del, table, key), MVRLU_OK);
        do status = mvrlu_table_split(table, &reply);
        while (mvrlu_may_retry(status));
        if (status == MVRLU_OK) break;
        WANT(status, MVRLU_NO);
        WANT(reply.value == keys || reply.value == keys - 1, 1);
        keys = reply.value;
    }
    WANT(keys, 62);
    WANT(reply.committed, 1);
    WANT(mvrlu_table_size(table, &reply), MVRLU_OK);
    WANT(reply.value, KEYS - 1 - key);
    for (uint32_t other = 0; other < KEYS; other++) WANT(mvrlu_table_has(table, other, NULL), other > key ? MVRLU_OK : MVRLU_NO);
    close_table(table, 1);
}

/* It grows to its last bucket, and then no bucket is left to be split. */
static void a_whole_table(void) {
    mvrlu_table table[1];
    mvrlu_reply reply;
    uint64_t splits = 0;
    open_table(table, 1, MVRLU_TABLE_OBJECTS_MIN, 1024, 0);
    WANT(mvrlu_table_add(table, 9, NULL), MVRLU_OK);
    while (splits < MVRLU_TABLE_BUCKETS_MAX) {
        int32_t status = mvrlu_table_split(table, &reply);
        if (status == MVRLU_NO) break;
        if (!mvrlu_may_retry(status)) WANT(status, MVRLU_OK);
        splits += status == MVRLU_OK;
    }
    WANT(splits, MVRLU_TABLE_BUCKETS_MAX - 16);
    WANT_TABLE(mvrlu_table_split(table, &reply), MVRLU_NO, 0, 0, 0);
    WANT(mvrlu_table_has(table, 9, NULL), MVRLU_OK);
    WANT(mvrlu_table_size(table, &reply), MVRLU_OK);
    WANT(reply.value, 1);
    close_table(table, 1);
}

int main(void) {
    options_out_of_range();
    all_seats_of_a_domain();
    null_pointers();
    misuse_of_a_seat();
    calls_on_a_table();
    a_full_table();
    a_worn_domain();
    a_long_bucket();
    a_whole_table();
    printf("table: %lu answers asked for\n", asked);
    return 0;
}
