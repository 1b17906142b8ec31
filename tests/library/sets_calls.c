/* Each call on the sets of mvrlu.h with each status that it answers. Prints how many answers were asked for, and ends with 1 at the
 * first that is another than the header says. */
#include "wanted.h"

#include <string.h>

static void open_sets(mvrlu_sets sets[], size_t count, uint32_t objects, uint32_t slots) {
    mvrlu_sets_options options = MVRLU_SETS_OPTIONS_INIT;
    options.objects = objects;
    options.slots = slots;
    memset(sets, 0, count * sizeof *sets);
    WANT(mvrlu_sets_open(&options, sets, count), MVRLU_OK);
}

static void close_sets(mvrlu_sets sets[], size_t count) {
    for (size_t i = 0; i < count; i++) WANT(mvrlu_sets_close(&sets[i]), MVRLU_OK);
}

static void options_out_of_range(void) {
    static mvrlu_sets sets[MVRLU_SEATS_MAX + 1];
    static const struct { uint32_t objects, slots; } wrong[] = {{0, 64}, {180, 64}, {MVRLU_SETS_OBJECTS_MAX + 1, 64}, {181, 63}, {181, 4097}};
    mvrlu_sets_options options = MVRLU_SETS_OPTIONS_INIT;
    for (size_t i = 0; i < sizeof wrong / sizeof *wrong; i++) {
        mvrlu_sets_options other = MVRLU_SETS_OPTIONS_INIT;
        other.objects = wrong[i].objects;
        other.slots = wrong[i].slots;
        WANT(mvrlu_sets_open(&other, sets, 1), MVRLU_BAD_NUMBER);
        WANT(sets[0].raw.is_open, 0);
    }
    WANT_NO_OPENING(mvrlu_sets_open, options, sets);
}

static void all_seats_of_a_domain(void) {
    static mvrlu_sets sets[MVRLU_SEATS_MAX];
    mvrlu_sets_options options = MVRLU_SETS_OPTIONS_INIT;
    open_sets(sets, MVRLU_SEATS_MAX, 70000, MVRLU_SLOTS_MAX);
    WANT(mvrlu_sets_open(&options, sets, MVRLU_SEATS_MAX), MVRLU_IN_USE);
    close_sets(sets, MVRLU_SEATS_MAX);
    WANT(mvrlu_sets_close(&sets[0]), MVRLU_CLOSED);
}

static void calls_on_a_closed_seat(void) {
    mvrlu_sets sets = {{0, NULL}, NULL, 0, {0}};
    mvrlu_reply reply = UNTOLD, replies[1] = {UNTOLD};
    mvrlu_command command = {MVRLU_ADD, 0, 0, 0, 0};
    mvrlu_counts counts = {7, 7, 7, 7, 7, 7};
    mvrlu_entry entries[1] = {{7, 7}};
    mvrlu_walk walk = {7, 7, 7, 7};
    uint32_t live = 7;
    WANT(mvrlu_sets_add(&sets, 0, 1, &reply), MVRLU_CLOSED);
    WANT(mvrlu_sets_put(&sets, 0, 1, 2, &reply), MVRLU_CLOSED);
    WANT(mvrlu_sets_del(&sets, 0, 1, &reply), MVRLU_CLOSED);
    WANT(mvrlu_sets_has(&sets, 0, 1, &reply), MVRLU_CLOSED);
    WANT(mvrlu_sets_get(&sets, 0, 1, &reply), MVRLU_CLOSED);
    WANT(mvrlu_sets_next(&sets, 0, 1, &reply), MVRLU_CLOSED);
    WANT(mvrlu_sets_size(&sets, 0, &reply), MVRLU_CLOSED);
    WANT(mvrlu_sets_move(&sets, 0, 1, 1, &reply), MVRLU_CLOSED);
    WANT(mvrlu_sets_pair(&sets, 0, 1, 1, &reply), MVRLU_CLOSED);
    WANT(mvrlu_sets_block(&sets, &command, 1, replies), MVRLU_CLOSED);
    WANT(mvrlu_sets_walk(&sets, 0, 0, entries, 1, &walk), MVRLU_CLOSED);
    WANT(walk.time == 7 && walk.count == 7 && walk.next == 7 && walk.more == 7 && entries[0].key == 7 && entries[0].value == 7, 1);
    WANT(mvrlu_sets_tidy(&sets, &live), MVRLU_CLOSED);
    WANT(mvrlu_sets_counts(&sets, &counts), MVRLU_CLOSED);
    WANT(mvrlu_sets_close(&sets), MVRLU_CLOSED);
    WANT(is_untold(&reply), 1);
    WANT(is_untold(&replies[0]), 1);
    WANT(live == 7 && counts.commits == 7 && counts.live == 7, 1);
}

/* The same calls on a list, a hash table and a tree. Each line says the status, the value, the time, and whether it is a commit. */
static void calls_on_a_set(uint32_t set, uint32_t other) {
    mvrlu_sets sets[1];
    mvrlu_reply reply;
    open_sets(sets, 1, 256, 64);
    WANT_REPLY(mvrlu_sets_has(sets, set, 5, &reply), MVRLU_NO, 0, 0, 0);
    WANT_REPLY(mvrlu_sets_get(sets, set, 5, &reply), MVRLU_NO, 0, 0, 0);
    WANT_REPLY(mvrlu_sets_next(sets, set, 0, &reply), MVRLU_NO, 0, 0, 0);
    WANT_REPLY(mvrlu_sets_del(sets, set, 5, &reply), MVRLU_NO, 0, 0, 0);
    WANT_REPLY(mvrlu_sets_add(sets, set, 5, &reply), MVRLU_OK, 0, 1, 1);
    WANT_REPLY(mvrlu_sets_add(sets, set, 5, &reply), MVRLU_NO, 0, 1, 0);
    WANT_REPLY(mvrlu_sets_put(sets, set, 5, 0, &reply), MVRLU_NO, 0, 1, 0);
    WANT_REPLY(mvrlu_sets_put(sets, set, 5, 50, &reply), MVRLU_OK, 0, 2, 1);
    WANT_REPLY(mvrlu_sets_put(sets, set, UINT32_MAX, UINT64_MAX, &reply), MVRLU_OK, 0, 3, 1);
    WANT_REPLY(mvrlu_sets_has(sets, set, 5, &reply), MVRLU_OK, 0, 3, 0);
    WANT_REPLY(mvrlu_sets_get(sets, set, 5, &reply), MVRLU_OK, 50, 3, 0);
    WANT_REPLY(mvrlu_sets_get(sets, set, UINT32_MAX, &reply), MVRLU_OK, -1, 3, 0);
    WANT_REPLY(mvrlu_sets_next(sets, set, 5, &reply), MVRLU_OK, 5, 3, 0);
    WANT_REPLY(mvrlu_sets_next(sets, set, 6, &reply), MVRLU_OK, UINT32_MAX, 3, 0);
    WANT_REPLY(mvrlu_sets_size(sets, set, &reply), MVRLU_OK, 2, 3, 0);
    WANT_REPLY(mvrlu_sets_pair(sets, set, other, 5, &reply), MVRLU_OK, 1, 3, 0);
    WANT(reply.second, 0);
    WANT_REPLY(mvrlu_sets_move(sets, other, set, 5, &reply), MVRLU_NO, 0, 3, 0);
    WANT_REPLY(mvrlu_sets_move(sets, set, other, 5, &reply), MVRLU_OK, 0, 4, 1);
    WANT_REPLY(mvrlu_sets_get(sets, other, 5, &reply), MVRLU_OK, 50, 4, 0);
    WANT_REPLY(mvrlu_sets_pair(sets, set, other, 5, &reply), MVRLU_OK, 0, 4, 0);
    WANT(reply.second, 1);
    WANT_REPLY(mvrlu_sets_del(sets, set, UINT32_MAX, &reply), MVRLU_OK, 0, 5, 1);
    WANT_REPLY(mvrlu_sets_size(sets, set, &reply), MVRLU_OK, 0, 5, 0);
    close_sets(sets, 1);
}

static void want_walk(int line, mvrlu_sets *sets, uint32_t set, uint32_t from, size_t room, uint64_t time, uint64_t count, uint32_t next,
    uint32_t more, const mvrlu_entry wanted[]) {
    mvrlu_entry entries[8];
    mvrlu_walk walk = {7, 7, 7, 7};
    for (int i = 0; i < 8; i++) entries[i] = (mvrlu_entry){7, 7};
    want(line, "a walk", mvrlu_sets_walk(sets, set, from, entries, room, &walk), MVRLU_OK);
    want(line, "its time", (long long)walk.time, (long long)time);
    want(line, "its count", (long long)walk.count, (long long)count);
    want(line, "its next", walk.next, next);
    want(line, "its more", walk.more, more);
    for (uint64_t i = 0; i < 8; i++) {
        want(line, "a key", entries[i].key, i < count ? wanted[i].key : 7);
        want(line, "a value", (long long)entries[i].value, i < count ? (long long)wanted[i].value : 7);
    }
}
#define WANT_WALK(from, room, time, count, next, more, wanted) want_walk(__LINE__, sets, set, from, room, time, count, next, more, wanted)

/* Walks over a list, a hash table and a tree, with too little room, enough and more than enough. */
static void walks_over_a_set(uint32_t set) {
    static const mvrlu_entry all[] = {{0, 1}, {16, 2}, {17, 3}, {1000, 4}, {UINT32_MAX, UINT64_MAX}};
    mvrlu_sets sets[1];
    mvrlu_entry entries[1];
    mvrlu_walk walk;
    open_sets(sets, 1, 256, 64);
    WANT_WALK(0, 8, 0, 0, 0, 0, all);
    WANT_WALK(0, 0, 0, 0, 0, 0, all);
    for (int i = 4; i >= 0; i--) WANT(mvrlu_sets_put(sets, set, all[i].key, all[i].value, NULL), MVRLU_OK);
    WANT(mvrlu_sets_put(sets, (set + 10) % 30, 500, 9, NULL), MVRLU_OK);
    WANT_WALK(0, 8, 6, 5, 0, 0, all);
    WANT_WALK(0, 5, 6, 5, 0, 0, all);
    WANT_WALK(0, 4, 6, 4, UINT32_MAX, 1, all);
    WANT_WALK(0, 0, 6, 0, 0, 1, all);
    WANT_WALK(1, 2, 6, 2, 1000, 1, all + 1);
    WANT_WALK(16, 8, 6, 4, 0, 0, all + 1);
    WANT_WALK(1001, 1, 6, 1, 0, 0, all + 4);
    WANT_WALK(UINT32_MAX, 8, 6, 1, 0, 0, all + 4);
    WANT(mvrlu_sets_del(sets, set, UINT32_MAX, NULL), MVRLU_OK);
    WANT_WALK(1001, 8, 7, 0, 0, 0, all);
    WANT_WALK(17, 1, 7, 1, 1000, 1, all + 2);
    WANT(mvrlu_sets_walk(sets, set, 0, NULL, 0, &walk), MVRLU_NULL);
    WANT(mvrlu_sets_walk(sets, set, 0, entries, 1, NULL), MVRLU_NULL);
    close_sets(sets, 1);
}

static void sets_that_are_none(void) {
    mvrlu_sets sets[1];
    mvrlu_reply reply = UNTOLD;
    mvrlu_entry entries[1] = {{7, 7}};
    mvrlu_walk walk = {7, 7, 7, 7};
    open_sets(sets, 1, 181, 64);
    WANT(mvrlu_sets_add(sets, 30, 1, &reply), MVRLU_BAD_SET);
    WANT(mvrlu_sets_put(sets, 30, 1, 2, &reply), MVRLU_BAD_SET);
    WANT(mvrlu_sets_del(sets, UINT32_MAX, 1, &reply), MVRLU_BAD_SET);
    WANT(mvrlu_sets_has(sets, 30, 1, &reply), MVRLU_BAD_SET);
    WANT(mvrlu_sets_get(sets, 30, 1, &reply), MVRLU_BAD_SET);
    WANT(mvrlu_sets_next(sets, 30, 1, &reply), MVRLU_BAD_SET);
    WANT(mvrlu_sets_size(sets, 30, &reply), MVRLU_BAD_SET);
    WANT(mvrlu_sets_move(sets, 30, 1, 1, &reply), MVRLU_BAD_SET);
    WANT(mvrlu_sets_move(sets, 1, 30, 1, &reply), MVRLU_BAD_SET);
    WANT(mvrlu_sets_move(sets, 1, 1, 1, &reply), MVRLU_SAME_SET);
    WANT(mvrlu_sets_pair(sets, 30, 1, 1, &reply), MVRLU_BAD_SET);
    WANT(mvrlu_sets_pair(sets, 1, 30, 1, &reply), MVRLU_BAD_SET);
    WANT(mvrlu_sets_walk(sets, 30, 0, entries, 1, &walk), MVRLU_BAD_SET);
    WANT(walk.time == 7 && walk.count == 7 && walk.next == 7 && walk.more == 7 && entries[0].key == 7, 1);
    WANT(is_untold(&reply), 1);
    WANT(mvrlu_sets_pair(sets, 1, 1, 1, &reply), MVRLU_OK);
    WANT(mvrlu_sets_add(sets, MVRLU_TREE(9), 1, NULL), MVRLU_OK);
    close_sets(sets, 1);
}

/* 181 objects have one node. */
static void a_full_domain(void) {
    mvrlu_sets sets[1];
    mvrlu_reply reply, replies[2];
    const mvrlu_command two[] = {{MVRLU_DEL, 0, 0, 1, 0}, {MVRLU_ADD, MVRLU_HASH(3), 0, 2, 0}};
    const mvrlu_command over[] = {{MVRLU_HAS, 0, 0, 1, 0}, {MVRLU_ADD, MVRLU_HASH(3), 0, 9, 0}};
    open_sets(sets, 1, 181, 64);
    WANT_REPLY(mvrlu_sets_add(sets, 0, 1, &reply), MVRLU_OK, 0, 1, 1);
    WANT_REPLY(mvrlu_sets_add(sets, MVRLU_HASH(3), 2, &reply), MVRLU_FULL, 0, 1, 0);
    WANT_REPLY(mvrlu_sets_put(sets, MVRLU_TREE(3), 2, 9, &reply), MVRLU_FULL, 0, 1, 0);
    WANT(mvrlu_sets_block(sets, over, 2, replies), MVRLU_FULL);
    WANT(replies[0].status == MVRLU_FULL && replies[1].status == MVRLU_FULL && replies[1].committed == 0, 1);
    WANT(mvrlu_sets_block(sets, two, 2, replies), MVRLU_OK);
    WANT(replies[0].status == MVRLU_OK && replies[1].status == MVRLU_OK && replies[1].time == 2, 1);
    WANT_REPLY(mvrlu_sets_move(sets, MVRLU_HASH(3), MVRLU_TREE(3), 2, &reply), MVRLU_OK, 0, 3, 1);
    close_sets(sets, 1);
}

static void blocks_of_commands(void) {
    mvrlu_sets sets[1];
    mvrlu_reply replies[9];
    mvrlu_command commands[9] = {
        {MVRLU_PUT, 0, 0, 1, 10}, {MVRLU_ADD, 10, 0, 2, 0}, {MVRLU_MOVE, 0, 20, 1, 0}, {MVRLU_GET, 20, 0, 1, 0}, {MVRLU_PAIR, 0, 20, 1, 0},
        {MVRLU_DEL, 10, 0, 2, 0}, {MVRLU_HAS, 10, 0, 2, 0}, {MVRLU_ADD, 29, 0, UINT32_MAX, 0}, {MVRLU_HAS, 0, 0, 0, 0},
    };
    const mvrlu_command size[] = {{MVRLU_SIZE, 20, 0, 0, 0}}, next[] = {{MVRLU_NEXT, 20, 0, 0, 0}};
    const mvrlu_command alone[] = {{MVRLU_HAS, 0, 0, 1, 0}, {MVRLU_SIZE, 20, 0, 0, 0}};
    open_sets(sets, 1, 256, 128);
    WANT(mvrlu_sets_block(sets, commands, 8, replies), MVRLU_OK);
    for (int i = 0; i < 8; i++) WANT(replies[i].time == 1 && replies[i].committed == 1, 1);
    for (int i = 0; i < 6; i++) WANT(replies[i].status, MVRLU_OK);
    WANT(replies[3].value, 10);
    WANT(replies[4].value == 0 && replies[4].second == 1, 1);
    WANT(replies[6].status, MVRLU_NO);
    WANT(replies[7].status, MVRLU_OK);
    WANT(mvrlu_sets_block(sets, size, 1, replies), MVRLU_OK);
    WANT(replies[0].value == 1 && replies[0].committed == 0 && replies[0].time == 1, 1);
    WANT(mvrlu_sets_block(sets, next, 1, replies), MVRLU_OK);
    WANT(replies[0].value, 1);
    replies[0] = UNTOLD;
    WANT(mvrlu_sets_block(sets, commands, 0, replies), MVRLU_BAD_BLOCK);
    WANT(mvrlu_sets_block(sets, commands, 9, replies), MVRLU_BAD_BLOCK);
    WANT(mvrlu_sets_block(sets, alone, 2, replies), MVRLU_BAD_BLOCK);
    commands[1].op = 0;
    WANT(mvrlu_sets_block(sets, commands, 2, replies), MVRLU_BAD_COMMAND);
    commands[1].op = 10;
    WANT(mvrlu_sets_block(sets, commands, 2, replies), MVRLU_BAD_COMMAND);
    commands[1].op = MVRLU_ADD;
    commands[1].set = 30;
    WANT(mvrlu_sets_block(sets, commands, 2, replies), MVRLU_BAD_SET);
    commands[2].other = 30;
    WANT(mvrlu_sets_block(sets, commands + 2, 1, replies), MVRLU_BAD_SET);
    commands[2].other = 0;
    WANT(mvrlu_sets_block(sets, commands + 2, 1, replies), MVRLU_SAME_SET);
    WANT(mvrlu_sets_block(sets, NULL, 1, replies), MVRLU_NULL);
    WANT(mvrlu_sets_block(sets, commands, 1, NULL), MVRLU_NULL);
    WANT(is_untold(&replies[0]), 1);
    close_sets(sets, 1);
}

static void counts_of_a_log(void) {
    mvrlu_sets sets[1];
    mvrlu_counts counts;
    uint32_t live = 7;
    open_sets(sets, 1, 256, 64);
    for (uint32_t key = 0; key < 10; key++) WANT(mvrlu_sets_add(sets, 0, key, NULL), MVRLU_OK);
    WANT(mvrlu_sets_counts(sets, &counts), MVRLU_OK);
    WANT(counts.commits, 10);
    WANT(counts.live + counts.freed, 20);
    WANT(counts.aborts, 0);
    WANT(mvrlu_sets_tidy(sets, &live), MVRLU_OK);
    WANT(live, 0);
    WANT(mvrlu_sets_counts(sets, &counts), MVRLU_OK);
    WANT(counts.freed == 20 && counts.live == 0, 1);
    close_sets(sets, 1);
}

static void misuse_of_a_handle(void) {
    mvrlu_sets sets[2], copy;
    mvrlu_reply reply = UNTOLD;
    open_sets(sets, 2, 256, 64);
    copy = sets[0];
    WANT(mvrlu_sets_add(&copy, 0, 1, &reply), MVRLU_MOVED);
    WANT(mvrlu_sets_close(&copy), MVRLU_MOVED);
    sets[0].in_call = 1;
    WANT(mvrlu_sets_has(&sets[0], 0, 1, &reply), MVRLU_IN_USE);
    WANT(mvrlu_sets_close(&sets[0]), MVRLU_IN_USE);
    sets[0].in_call = 0;
    WANT(mvrlu_sets_has(NULL, 0, 1, &reply), MVRLU_NULL);
    WANT(mvrlu_sets_close(NULL), MVRLU_NULL);
    WANT(mvrlu_sets_tidy(&sets[0], NULL), MVRLU_NULL);
    WANT(mvrlu_sets_counts(&sets[0], NULL), MVRLU_NULL);
    WANT(is_untold(&reply), 1);
    close_sets(sets, 2);
}

static void each_status_has_a_text(void) {
    for (int32_t status = MVRLU_BAD_BLOCK; status <= MVRLU_LOG_FULL; status++) {
        if (status == -10) continue; /* no status has this number */
        WANT(strcmp(mvrlu_strerror(status), mvrlu_strerror(99)) != 0, 1);
    }
    WANT(mvrlu_may_retry(MVRLU_AGAIN) && mvrlu_may_retry(MVRLU_BUSY) && mvrlu_may_retry(MVRLU_STALE) && mvrlu_may_retry(MVRLU_SHORT), 1);
    WANT(mvrlu_may_retry(MVRLU_OK) || mvrlu_may_retry(MVRLU_NO) || mvrlu_may_retry(MVRLU_FULL), 0);
}

int main(void) {
    options_out_of_range();
    all_seats_of_a_domain();
    calls_on_a_closed_seat();
    calls_on_a_set(MVRLU_LIST(0), MVRLU_TREE(0));
    calls_on_a_set(MVRLU_HASH(9), MVRLU_LIST(9));
    calls_on_a_set(MVRLU_TREE(9), MVRLU_HASH(0));
    walks_over_a_set(MVRLU_LIST(3));
    walks_over_a_set(MVRLU_HASH(3));
    walks_over_a_set(MVRLU_TREE(3));
    sets_that_are_none();
    a_full_domain();
    blocks_of_commands();
    counts_of_a_log();
    misuse_of_a_handle();
    each_status_has_a_text();
    printf("sets: %lu answers as the header says\n", asked);
    return 0;
}
