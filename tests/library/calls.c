/* Each call of mvrlu.h with each status that it answers. Prints how many answers were asked for, and ends with 1 at the first
 * that is another than the header says. */
#include "wanted.h"

#include <string.h>

enum { OBJECTS = 16, SLOTS = 64, WRITE_MAX = 4 };

static mvrlu_options options_of(uint32_t objects, uint32_t slots, uint32_t write_max) {
    mvrlu_options options = MVRLU_OPTIONS_INIT;
    options.objects = objects;
    options.slots = slots;
    options.write_max = write_max;
    return options;
}

static void open_two(mvrlu_seat seats[2]) {
    mvrlu_options options = options_of(OBJECTS, SLOTS, WRITE_MAX);
    memset(seats, 0, 2 * sizeof *seats);
    WANT(mvrlu_open(&options, seats, 2), MVRLU_OK);
}

static void close_two(mvrlu_seat seats[2]) {
    WANT(mvrlu_close(&seats[0]), MVRLU_OK);
    WANT(mvrlu_close(&seats[1]), MVRLU_OK);
}

static void options_out_of_range(void) {
    static mvrlu_seat seats[MVRLU_SEATS_MAX + 1];
    static const struct { uint32_t objects, slots, write_max; } wrong[] = {
        {0, 64, 4}, {16777217, 64, 4}, {16, 63, 4}, {16, 4097, 4}, {16, 64, 0}, {16, 64, 65}, {16, 64, 64},
    };
    mvrlu_options options = options_of(OBJECTS, SLOTS, WRITE_MAX);
    for (size_t i = 0; i < sizeof wrong / sizeof *wrong; i++) {
        mvrlu_options other = options_of(wrong[i].objects, wrong[i].slots, wrong[i].write_max);
        WANT(mvrlu_open(&other, seats, 1), MVRLU_BAD_NUMBER);
        WANT(seats[0].raw.is_open, 0);
    }
    WANT_NO_OPENING(mvrlu_open, options, seats);
}

static void all_seats_of_a_domain(void) {
    static mvrlu_seat seats[MVRLU_SEATS_MAX];
    mvrlu_options options = options_of(1, MVRLU_SLOTS_MAX, MVRLU_WRITE_MAX);
    WANT(mvrlu_open(&options, seats, MVRLU_SEATS_MAX), MVRLU_OK);
    WANT(mvrlu_open(&options, seats, MVRLU_SEATS_MAX), MVRLU_IN_USE);
    for (size_t i = 0; i < MVRLU_SEATS_MAX; i++) WANT(mvrlu_close(&seats[i]), MVRLU_OK);
    WANT(mvrlu_close(&seats[0]), MVRLU_CLOSED);
}

static void calls_on_a_closed_seat(void) {
    mvrlu_seat seat = {{0, NULL}, NULL, 0, {0}};
    uint64_t words[MVRLU_WORDS] = {7}, pair[2] = {7, 8}, time = 7, by = 7;
    uint32_t live = 7, hint = 7, object = 7;
    mvrlu_counts counts = {7, 7, 7, 7, 7, 7};
    WANT(mvrlu_prepare(&seat), MVRLU_CLOSED);
    WANT(mvrlu_tidy(&seat, &live), MVRLU_CLOSED);
    WANT(mvrlu_grace(&seat, &time), MVRLU_CLOSED);
    WANT(mvrlu_count(&seat, &counts), MVRLU_CLOSED);
    WANT(mvrlu_enter(&seat), MVRLU_CLOSED);
    WANT(mvrlu_read(&seat, 0, words), MVRLU_CLOSED);
    WANT(mvrlu_read_pair(&seat, 0, 0, pair), MVRLU_CLOSED);
    WANT(mvrlu_lock(&seat, 0, &by), MVRLU_CLOSED);
    WANT(mvrlu_vacant(&seat, &hint, &object), MVRLU_CLOSED);
    WANT(mvrlu_write(&seat, 0, words), MVRLU_CLOSED);
    WANT(mvrlu_time(&seat, &time), MVRLU_CLOSED);
    WANT(mvrlu_commit(&seat, NULL, &time), MVRLU_CLOSED);
    WANT(mvrlu_abort(&seat), MVRLU_CLOSED);
    WANT(mvrlu_leave(&seat), MVRLU_CLOSED);
    WANT(mvrlu_close(&seat), MVRLU_CLOSED);
    WANT(words[0] == 7 && pair[0] == 7 && pair[1] == 8 && time == 7 && by == 7 && live == 7 && hint == 7 && object == 7 &&
             counts.commits == 7 && counts.live == 7,
         1);
}

static void calls_outside_and_inside(void) {
    mvrlu_seat seats[2];
    uint64_t words[MVRLU_WORDS] = {0}, pair[2], time;
    uint32_t live, hint = 0, object = 0;
    mvrlu_counts counts;
    open_two(seats);
    WANT(mvrlu_read(&seats[0], 0, words), MVRLU_OUTSIDE);
    WANT(mvrlu_read_pair(&seats[0], 0, 0, pair), MVRLU_OUTSIDE);
    WANT(mvrlu_lock(&seats[0], 0, NULL), MVRLU_OUTSIDE);
    WANT(mvrlu_vacant(&seats[0], &hint, &object), MVRLU_OUTSIDE);
    WANT(mvrlu_write(&seats[0], 0, words), MVRLU_OUTSIDE);
    WANT(mvrlu_time(&seats[0], &time), MVRLU_OUTSIDE);
    WANT(mvrlu_commit(&seats[0], NULL, NULL), MVRLU_OUTSIDE);
    WANT(mvrlu_abort(&seats[0]), MVRLU_OUTSIDE);
    WANT(mvrlu_leave(&seats[0]), MVRLU_OUTSIDE);
    WANT(mvrlu_enter(&seats[0]), MVRLU_OK);
    WANT(mvrlu_enter(&seats[0]), MVRLU_INSIDE);
    WANT(mvrlu_prepare(&seats[0]), MVRLU_INSIDE);
    WANT(mvrlu_tidy(&seats[0], &live), MVRLU_INSIDE);
    WANT(mvrlu_grace(&seats[0], &time), MVRLU_INSIDE);
    WANT(mvrlu_count(&seats[0], &counts), MVRLU_INSIDE);
    WANT(mvrlu_leave(&seats[0]), MVRLU_OK);
    close_two(seats);
}

static void objects_and_places_out_of_range(void) {
    mvrlu_seat seats[2];
    uint64_t words[MVRLU_WORDS], pair[2];
    open_two(seats);
    WANT(mvrlu_enter(&seats[0]), MVRLU_OK);
    WANT(mvrlu_read(&seats[0], OBJECTS - 1, words), MVRLU_OK);
    WANT(mvrlu_read(&seats[0], OBJECTS, words), MVRLU_BAD_OBJECT);
    WANT(mvrlu_read(&seats[0], UINT32_MAX, words), MVRLU_BAD_OBJECT);
    WANT(mvrlu_read_pair(&seats[0], OBJECTS, 5, pair), MVRLU_BAD_OBJECT);
    WANT(mvrlu_read_pair(&seats[0], 0, 4, pair), MVRLU_OK);
    WANT(mvrlu_read_pair(&seats[0], 0, 5, pair), MVRLU_BAD_PLACE);
    WANT(mvrlu_lock(&seats[0], OBJECTS, NULL), MVRLU_BAD_OBJECT);
    WANT(mvrlu_write(&seats[0], OBJECTS, words), MVRLU_NOT_LOCKED);
    WANT(mvrlu_leave(&seats[0]), MVRLU_OK);
    close_two(seats);
}

static void what_a_section_holds(void) {
    mvrlu_seat seats[2];
    uint64_t words[MVRLU_WORDS] = {1, 2, 3, 4, 5, 6}, read[MVRLU_WORDS], pair[2];
    open_two(seats);
    WANT(mvrlu_enter(&seats[0]), MVRLU_OK);
    WANT(mvrlu_commit(&seats[0], NULL, NULL), MVRLU_EMPTY);
    WANT(mvrlu_write(&seats[0], 0, words), MVRLU_NOT_LOCKED);
    for (uint32_t object = 0; object < WRITE_MAX; object++) WANT(mvrlu_lock(&seats[0], object, NULL), MVRLU_OK);
    WANT(mvrlu_lock(&seats[0], 0, NULL), MVRLU_OK);
    WANT(mvrlu_lock(&seats[0], WRITE_MAX, NULL), MVRLU_SET_FULL);
    WANT(mvrlu_leave(&seats[0]), MVRLU_HOLDING);
    WANT(mvrlu_write(&seats[0], 0, words), MVRLU_OK);
    WANT(mvrlu_read(&seats[0], 0, read), MVRLU_OK);
    WANT(memcmp(read, words, sizeof words), 0);
    WANT(mvrlu_read_pair(&seats[0], 0, 4, pair), MVRLU_OK);
    WANT(pair[0] == 5 && pair[1] == 6, 1);
    WANT(mvrlu_abort(&seats[0]), MVRLU_OK);
    WANT(mvrlu_enter(&seats[0]), MVRLU_OK);
    WANT(mvrlu_read(&seats[0], 0, read), MVRLU_OK);
    WANT(read[0] == 0 && read[5] == 0, 1);
    WANT(mvrlu_leave(&seats[0]), MVRLU_OK);
    close_two(seats);
}

/* Seat 0 commits an object at time 1 while seat 1 reads the state of time 0. */
static void busy_then_stale_then_held(void) {
    mvrlu_seat seats[2];
    uint64_t words[MVRLU_WORDS] = {9}, read[MVRLU_WORDS], time = 7, by = 7;
    open_two(seats);
    WANT(mvrlu_enter(&seats[0]), MVRLU_OK);
    WANT(mvrlu_enter(&seats[1]), MVRLU_OK);
    WANT(mvrlu_lock(&seats[0], 3, NULL), MVRLU_OK);
    WANT(mvrlu_write(&seats[0], 3, words), MVRLU_OK);
    WANT(mvrlu_lock(&seats[1], 3, &by), MVRLU_BUSY);
    WANT(by, 0);
    WANT(mvrlu_commit(&seats[0], NULL, &time), MVRLU_OK);
    WANT(time, 1);
    WANT(mvrlu_lock(&seats[1], 3, &by), MVRLU_STALE);
    WANT(by, 1);
    WANT(mvrlu_read(&seats[1], 3, read), MVRLU_OK);
    WANT(read[0], 0);
    WANT(mvrlu_time(&seats[1], &time), MVRLU_OK);
    WANT(time, 0);
    WANT(mvrlu_leave(&seats[1]), MVRLU_OK);
    WANT(mvrlu_enter(&seats[1]), MVRLU_OK);
    WANT(mvrlu_time(&seats[1], &time), MVRLU_OK);
    WANT(time, 1);
    WANT(mvrlu_read(&seats[1], 3, read), MVRLU_OK);
    WANT(read[0], 9);
    WANT(mvrlu_lock(&seats[1], 3, NULL), MVRLU_OK);
    WANT(mvrlu_abort(&seats[1]), MVRLU_OK);
    close_two(seats);
}

/* Two sections that hold different objects both commit: the second finds that the first one's entry came first. */
static void commits_of_two_seats(void) {
    mvrlu_seat seats[2];
    uint64_t time = 7;
    open_two(seats);
    WANT(mvrlu_enter(&seats[0]), MVRLU_OK);
    WANT(mvrlu_enter(&seats[1]), MVRLU_OK);
    WANT(mvrlu_lock(&seats[0], 0, NULL), MVRLU_OK);
    WANT(mvrlu_lock(&seats[1], 1, NULL), MVRLU_OK);
    WANT(mvrlu_commit(&seats[0], NULL, &time), MVRLU_OK);
    WANT(time, 1);
    WANT(mvrlu_commit(&seats[1], NULL, &time), MVRLU_OK);
    WANT(time, 2);
    close_two(seats);
}

/* A section of seat 1 keeps seat 0's log from being emptied, until it is left. */
static void a_full_log(void) {
    mvrlu_seat seats[2];
    uint32_t live = 0;
    open_two(seats);
    WANT(mvrlu_enter(&seats[1]), MVRLU_OK);
    for (int i = 0; i < SLOTS; i++) {
        WANT(mvrlu_enter(&seats[0]), MVRLU_OK);
        WANT(mvrlu_lock(&seats[0], 0, NULL), MVRLU_OK);
        WANT(mvrlu_commit(&seats[0], NULL, NULL), MVRLU_OK);
    }
    WANT(mvrlu_prepare(&seats[0]), MVRLU_SHORT);
    WANT(mvrlu_enter(&seats[0]), MVRLU_OK);
    WANT(mvrlu_lock(&seats[0], 0, NULL), MVRLU_LOG_FULL);
    WANT(mvrlu_leave(&seats[0]), MVRLU_OK);
    WANT(mvrlu_tidy(&seats[0], &live), MVRLU_OK);
    WANT(live > 0, 1);
    WANT(mvrlu_leave(&seats[1]), MVRLU_OK);
    WANT(mvrlu_prepare(&seats[0]), MVRLU_OK);
    WANT(mvrlu_tidy(&seats[0], &live), MVRLU_OK);
    WANT(live, 0);
    close_two(seats);
}

/* The time that a seat tells. */
static uint64_t grace_of(mvrlu_seat *seat) {
    uint64_t time = 77;
    WANT(mvrlu_grace(seat, &time), MVRLU_OK);
    return time;
}

static void commit_one(mvrlu_seat *seat, uint64_t wanted) {
    uint64_t time = 0;
    WANT(mvrlu_enter(seat), MVRLU_OK);
    WANT(mvrlu_lock(seat, 3, NULL), MVRLU_OK);
    WANT(mvrlu_commit(seat, NULL, &time), MVRLU_OK);
    WANT(time, wanted);
}

/* A section of seat 1 holds the time back, at its own time; once it is left or aborted it holds nothing. */
static void grace_is_held_back_by_sections(void) {
    mvrlu_seat seats[2];
    open_two(seats);
    WANT(grace_of(&seats[0]), 0);
    WANT(mvrlu_enter(&seats[1]), MVRLU_OK);
    commit_one(&seats[0], 1);
    WANT(grace_of(&seats[0]), 0);
    WANT(mvrlu_leave(&seats[1]), MVRLU_OK);
    WANT(grace_of(&seats[0]), 1);
    WANT(mvrlu_enter(&seats[1]), MVRLU_OK);
    WANT(mvrlu_lock(&seats[1], 5, NULL), MVRLU_OK);
    commit_one(&seats[0], 2);
    commit_one(&seats[0], 3);
    WANT(grace_of(&seats[0]), 1);
    WANT(mvrlu_abort(&seats[1]), MVRLU_OK);
    WANT(grace_of(&seats[0]), 3);
    WANT(grace_of(&seats[1]), 3);
    WANT(mvrlu_enter(&seats[1]), MVRLU_OK);
    commit_one(&seats[0], 4);
    WANT(mvrlu_close(&seats[1]), MVRLU_OK);
    WANT(grace_of(&seats[0]), 4);
    WANT(mvrlu_close(&seats[0]), MVRLU_OK);
}

static void give(mvrlu_seat *seat, uint32_t object, uint64_t word) {
    uint64_t words[MVRLU_WORDS] = {0, 0, 0, 0, 0, word};
    WANT(mvrlu_prepare(seat), MVRLU_OK);
    WANT(mvrlu_enter(seat), MVRLU_OK);
    WANT(mvrlu_lock(seat, object, NULL), MVRLU_OK);
    WANT(mvrlu_write(seat, object, words), MVRLU_OK);
    WANT(mvrlu_commit(seat, NULL, NULL), MVRLU_OK);
}

/* Two commits of two objects and of one, a section that held one and was aborted, and one that held nothing. */
static void counts_of_a_log(void) {
    mvrlu_seat seats[2];
    mvrlu_counts counts;
    uint32_t live = 7;
    open_two(seats);
    WANT(mvrlu_enter(&seats[0]), MVRLU_OK);
    WANT(mvrlu_lock(&seats[0], 1, NULL), MVRLU_OK);
    WANT(mvrlu_lock(&seats[0], 2, NULL), MVRLU_OK);
    WANT(mvrlu_commit(&seats[0], NULL, NULL), MVRLU_OK);
    commit_one(&seats[0], 2);
    WANT(mvrlu_enter(&seats[0]), MVRLU_OK);
    WANT(mvrlu_lock(&seats[0], 5, NULL), MVRLU_OK);
    WANT(mvrlu_abort(&seats[0]), MVRLU_OK);
    WANT(mvrlu_enter(&seats[0]), MVRLU_OK);
    WANT(mvrlu_abort(&seats[0]), MVRLU_OK);
    WANT(mvrlu_count(&seats[0], &counts), MVRLU_OK);
    WANT(counts.commits == 2 && counts.aborts == 1 && counts.live == 4, 1);
    WANT(counts.back == 0 && counts.freed == 0 && counts.rests == 0, 1);
    WANT(mvrlu_tidy(&seats[0], &live), MVRLU_OK);
    WANT(mvrlu_count(&seats[0], &counts), MVRLU_OK);
    WANT(counts.live == live && counts.live + counts.freed == 4, 1);
    WANT(mvrlu_count(&seats[1], &counts), MVRLU_OK);
    WANT(counts.commits == 0 && counts.live == 0, 1);
    close_two(seats);
}

/* All objects but 4 and 9 have a word that isn't 0, which is their last one. */
static void vacant_objects(void) {
    mvrlu_seat seats[2];
    uint32_t hint = 5, object = 77, same = 0;
    uint64_t words[MVRLU_WORDS] = {0, 0, 0, 0, 0, 1};
    open_two(seats);
    for (uint32_t i = 0; i < OBJECTS; i++) give(&seats[0], i, 1);
    WANT(mvrlu_enter(&seats[1]), MVRLU_OK);
    WANT(mvrlu_vacant(&seats[1], &hint, &object), MVRLU_FULL);
    WANT(hint == 5 && object == 77, 1);
    give(&seats[0], 4, 0);
    give(&seats[0], 9, 0);
    WANT(mvrlu_vacant(&seats[1], &hint, &object), MVRLU_FULL);
    WANT(mvrlu_leave(&seats[1]), MVRLU_OK);
    WANT(mvrlu_enter(&seats[0]), MVRLU_OK);
    WANT(mvrlu_enter(&seats[1]), MVRLU_OK);
    WANT(mvrlu_vacant(&seats[0], &hint, &object), MVRLU_OK);
    WANT(hint == 10 && object == 9, 1);
    WANT(mvrlu_vacant(&seats[0], &hint, &object), MVRLU_OK);
    WANT(hint == 5 && object == 4, 1);
    WANT(mvrlu_vacant(&seats[0], &hint, &object), MVRLU_FULL);
    WANT(hint == 5 && object == 4, 1);
    hint = UINT32_MAX;
    WANT(mvrlu_vacant(&seats[1], &hint, &object), MVRLU_BUSY);
    WANT(hint == 5 && object == 4, 1);
    WANT(mvrlu_write(&seats[0], 9, words), MVRLU_OK);
    WANT(mvrlu_commit(&seats[0], NULL, NULL), MVRLU_OK);
    WANT(mvrlu_vacant(&seats[1], &hint, &object), MVRLU_STALE);
    WANT(hint == 10 && object == 9, 1);
    WANT(mvrlu_leave(&seats[1]), MVRLU_OK);
    WANT(mvrlu_enter(&seats[1]), MVRLU_OK);
    same = 8;
    WANT(mvrlu_vacant(&seats[1], &same, &same), MVRLU_OK);
    WANT(same, 4);
    WANT(mvrlu_write(&seats[1], 4, words), MVRLU_OK);
    WANT(mvrlu_abort(&seats[1]), MVRLU_OK);
    WANT(mvrlu_enter(&seats[1]), MVRLU_OK);
    WANT(mvrlu_vacant(&seats[1], &hint, &object), MVRLU_OK);
    WANT(hint == 5 && object == 4, 1);
    WANT(mvrlu_abort(&seats[1]), MVRLU_OK);
    close_two(seats);
}

/* A vacant object is found, and the section or the log has no room for it. */
static void vacant_objects_without_room(void) {
    mvrlu_seat seats[2];
    uint32_t hint = 0, object = 77;
    open_two(seats);
    WANT(mvrlu_enter(&seats[0]), MVRLU_OK);
    for (uint32_t i = 0; i < WRITE_MAX; i++) WANT(mvrlu_vacant(&seats[0], &hint, &object), MVRLU_OK);
    WANT(mvrlu_vacant(&seats[0], &hint, &object), MVRLU_SET_FULL);
    WANT(hint == WRITE_MAX + 1 && object == WRITE_MAX, 1);
    WANT(mvrlu_abort(&seats[0]), MVRLU_OK);
    WANT(mvrlu_enter(&seats[1]), MVRLU_OK);
    for (int i = 0; i < SLOTS - WRITE_MAX; i++) {
        WANT(mvrlu_enter(&seats[0]), MVRLU_OK);
        WANT(mvrlu_lock(&seats[0], 0, NULL), MVRLU_OK);
        WANT(mvrlu_commit(&seats[0], NULL, NULL), MVRLU_OK);
    }
    WANT(mvrlu_enter(&seats[0]), MVRLU_OK);
    WANT(mvrlu_vacant(&seats[0], &hint, &object), MVRLU_LOG_FULL);
    WANT(mvrlu_abort(&seats[0]), MVRLU_OK);
    close_two(seats);
}

static void closing_in_a_section_gives_up_its_locks(void) {
    mvrlu_seat seats[2];
    open_two(seats);
    WANT(mvrlu_enter(&seats[0]), MVRLU_OK);
    WANT(mvrlu_lock(&seats[0], 5, NULL), MVRLU_OK);
    WANT(mvrlu_close(&seats[0]), MVRLU_OK);
    WANT(mvrlu_enter(&seats[1]), MVRLU_OK);
    WANT(mvrlu_lock(&seats[1], 5, NULL), MVRLU_OK);
    WANT(mvrlu_abort(&seats[1]), MVRLU_OK);
    WANT(mvrlu_close(&seats[1]), MVRLU_OK);
}

static void misuse_of_a_handle(void) {
    mvrlu_seat seats[2], copy;
    uint32_t object = 0;
    open_two(seats);
    copy = seats[0];
    WANT(mvrlu_enter(&copy), MVRLU_MOVED);
    WANT(mvrlu_close(&copy), MVRLU_MOVED);
    seats[0].in_call = 1;
    WANT(mvrlu_enter(&seats[0]), MVRLU_IN_USE);
    WANT(mvrlu_close(&seats[0]), MVRLU_IN_USE);
    WANT(mvrlu_vacant(&seats[0], &object, &object), MVRLU_IN_USE);
    seats[0].in_call = 0;
    WANT(mvrlu_enter(NULL), MVRLU_NULL);
    WANT(mvrlu_vacant(NULL, &object, &object), MVRLU_NULL);
    WANT(mvrlu_read(&seats[0], 0, NULL), MVRLU_NULL);
    WANT(mvrlu_read_pair(&seats[0], 0, 0, NULL), MVRLU_NULL);
    WANT(mvrlu_write(&seats[0], 0, NULL), MVRLU_NULL);
    WANT(mvrlu_vacant(&seats[0], NULL, &object), MVRLU_NULL);
    WANT(mvrlu_vacant(&seats[0], &object, NULL), MVRLU_NULL);
    WANT(mvrlu_time(&seats[0], NULL), MVRLU_NULL);
    WANT(mvrlu_tidy(&seats[0], NULL), MVRLU_NULL);
    WANT(mvrlu_grace(&seats[0], NULL), MVRLU_NULL);
    WANT(mvrlu_count(&seats[0], NULL), MVRLU_NULL);
    close_two(seats);
}

static void each_status_has_a_text(void) {
    for (int32_t status = MVRLU_BAD_PLACE; status <= MVRLU_LOG_FULL; status++) WANT(strlen(mvrlu_strerror(status)) > 3, 1);
    WANT(strcmp(mvrlu_strerror(99), "not a status of mvrlu"), 0);
}

int main(void) {
    options_out_of_range();
    all_seats_of_a_domain();
    calls_on_a_closed_seat();
    calls_outside_and_inside();
    objects_and_places_out_of_range();
    what_a_section_holds();
    busy_then_stale_then_held();
    commits_of_two_seats();
    a_full_log();
    grace_is_held_back_by_sections();
    counts_of_a_log();
    vacant_objects();
    vacant_objects_without_room();
    closing_in_a_section_gives_up_its_locks();
    misuse_of_a_handle();
    each_status_has_a_text();
    printf("calls: %lu answers as the header says\n", asked);
    return 0;
}
