/* What closing the seats of a domain tells, in each order, from several threads, and at the last time. Prints how many domains were closed, and ends
 * with 1 at the first answer that is another than the header says. */
#include "wanted.h"

#include <pthread.h>
#include <string.h>

#ifndef ROUNDS
#define ROUNDS 1000
#endif
enum { SEATS = 3, THREADS = 8, COMMITS = 20, OPENING = 70 };

static unsigned long closed;

static void open_objects(mvrlu_seat seats[], size_t count, uint64_t opening_time) {
    mvrlu_options options = MVRLU_OPTIONS_INIT;
    options.opening_time = opening_time;
    memset(seats, 0, count * sizeof *seats);
    WANT(mvrlu_open(&options, seats, count), MVRLU_OK);
}

static int32_t commit_one(mvrlu_seat *seat, uint32_t object) {
    WANT(mvrlu_prepare(seat), MVRLU_OK);
    WANT(mvrlu_enter(seat), MVRLU_OK);
    int32_t status = mvrlu_lock(seat, object, NULL);
    if (status == MVRLU_OK) {
        while ((status = mvrlu_commit(seat, NULL, NULL)) == MVRLU_AGAIN) { }
    }
    if (status != MVRLU_OK) WANT(mvrlu_abort(seat), MVRLU_OK);
    return status;
}

/* Closes a seat of three. Only the last one tells the time, which is this one. */
static void close_seat(mvrlu_seat *seat, int is_last, uint64_t time) {
    uint64_t last = 7;
    WANT(mvrlu_close_last(seat, &last), is_last ? MVRLU_OK : MVRLU_NO);
    WANT(last, is_last ? time : 7);
    WANT(seat->raw.is_open, 0);
    WANT(mvrlu_close_last(seat, &last), MVRLU_CLOSED);
    closed += is_last;
}

static const int orders[6][SEATS] = {{0, 1, 2}, {0, 2, 1}, {1, 0, 2}, {1, 2, 0}, {2, 0, 1}, {2, 1, 0}};

/* Each order, where every seat has committed once, and all of these are in a section that holds an object (a bit for each). */
static void every_order(void) {
    for (int order = 0; order < 6; order++) {
        for (unsigned inside = 0; inside < 1u << SEATS; inside++) {
            mvrlu_seat seats[SEATS];
            open_objects(seats, SEATS, OPENING);
            for (uint32_t i = 0; i < SEATS; i++) WANT(commit_one(&seats[i], 3), MVRLU_OK);
            for (uint32_t i = 0; i < SEATS; i++) {
                if (!(inside >> i & 1)) continue;
                WANT(mvrlu_enter(&seats[i]), MVRLU_OK);
                WANT(mvrlu_lock(&seats[i], i, NULL), MVRLU_OK);
            }
            for (int k = 0; k < SEATS; k++) close_seat(&seats[orders[order][k]], k == SEATS - 1, OPENING + SEATS);
        }
    }
}

/* A domain in which nothing was done, one seat alone, and seats that are closed by the call that tells nothing. */
static void few_seats(void) {
    mvrlu_seat seats[MVRLU_SEATS_MAX];
    open_objects(seats, 1, 0);
    close_seat(&seats[0], 1, 0);
    open_objects(seats, MVRLU_SEATS_MAX, OPENING);
    for (size_t i = 1; i < MVRLU_SEATS_MAX; i++) WANT(mvrlu_close(&seats[i]), MVRLU_OK);
    close_seat(&seats[0], 1, OPENING);
    open_objects(seats, 2, OPENING);
    WANT(mvrlu_close_last(&seats[0], NULL), MVRLU_NO);
    WANT(mvrlu_close_last(&seats[1], NULL), MVRLU_OK);
    WANT(mvrlu_close_last(NULL, NULL), MVRLU_NULL);
    closed++;
}

/* Two domains at once: each meets with its own last seat. */
static void two_domains(void) {
    mvrlu_seat first[2], second[2];
    open_objects(first, 2, 0);
    open_objects(second, 2, OPENING);
    WANT(commit_one(&first[0], 5), MVRLU_OK);
    close_seat(&first[1], 0, 0);
    close_seat(&second[0], 0, 0);
    close_seat(&second[1], 1, OPENING);
    WANT(commit_one(&first[0], 5), MVRLU_OK);
    close_seat(&first[0], 1, 2);
}

/* At the last time no commit is possible any more; a section reads still, and the seats meet. */
static void the_last_time(void) {
    uint64_t words[MVRLU_WORDS], time = 0;
    mvrlu_seat seats[2];
    mvrlu_options options = MVRLU_OPTIONS_INIT;
    options.opening_time = MVRLU_TIME_MAX + 1;
    memset(seats, 0, sizeof seats);
    WANT(mvrlu_open(&options, seats, 2), MVRLU_BAD_NUMBER);
    open_objects(seats, 2, MVRLU_TIME_MAX - 2);
    WANT(commit_one(&seats[0], 3), MVRLU_OK);
    WANT(commit_one(&seats[1], 3), MVRLU_OK);
    for (int i = 0; i < 2; i++) {
        WANT(commit_one(&seats[i], 3), MVRLU_WORN);
        WANT(mvrlu_enter(&seats[i]), MVRLU_OK);
        WANT(mvrlu_time(&seats[i], &time), MVRLU_OK);
        WANT(time, MVRLU_TIME_MAX);
        WANT(mvrlu_read(&seats[i], 3, words), MVRLU_OK);
        WANT(mvrlu_leave(&seats[i]), MVRLU_OK);
    }
    close_seat(&seats[0], 0, 0);
    close_seat(&seats[1], 1, MVRLU_TIME_MAX);
    open_objects(seats, 1, MVRLU_TIME_MAX);
    WANT(commit_one(&seats[0], 3), MVRLU_WORN);
    close_seat(&seats[0], 1, MVRLU_TIME_MAX);
}

/* The same of a domain of the sets. */
static void seats_of_the_sets(void) {
    mvrlu_sets_options options = MVRLU_SETS_OPTIONS_INIT;
    options.opening_time = MVRLU_TIME_MAX - SEATS;
    for (int order = 0; order < 6; order++) {
        mvrlu_sets sets[SEATS];
        mvrlu_reply reply;
        memset(sets, 0, sizeof sets);
        WANT(mvrlu_sets_open(&options, sets, SEATS), MVRLU_OK);
        for (uint32_t i = 0; i < SEATS; i++) WANT(mvrlu_sets_add(&sets[i], MVRLU_LIST(2), i, &reply), MVRLU_OK);
        WANT(reply.time, MVRLU_TIME_MAX);
        WANT(mvrlu_sets_add(&sets[0], MVRLU_LIST(2), SEATS, &reply), MVRLU_WORN);
        for (int k = 0; k < SEATS; k++) {
            uint64_t last = 7;
            int is_last = k == SEATS - 1;
            WANT(mvrlu_sets_close_last(&sets[orders[order][k]], &last), is_last ? MVRLU_OK : MVRLU_NO);
            WANT(last, is_last ? (long long)MVRLU_TIME_MAX : 7);
            WANT(mvrlu_sets_close(&sets[orders[order][k]]), MVRLU_CLOSED);
        }
        closed++;
    }
}

typedef struct worker {
    mvrlu_seat *seat;
    uint32_t number;
    int32_t status;
    uint64_t last;
} worker;

static void *work_and_close(void *given) {
    worker *own = given;
    for (int i = 0; i < COMMITS; i++) WANT(commit_one(own->seat, own->number), MVRLU_OK);
    own->status = mvrlu_close_last(own->seat, &own->last);
    return NULL;
}

/* Threads that each commit to an object of their own and close their seat: one of them is the last, and tells the number of all commits. */
static void from_threads(void) {
    for (int round = 0; round < ROUNDS; round++) {
        mvrlu_seat seats[THREADS];
        worker workers[THREADS];
        pthread_t threads[THREADS];
        int told = 0;
        open_objects(seats, THREADS, 0);
        for (uint32_t i = 0; i < THREADS; i++) {
            workers[i] = (worker){&seats[i], i, -1, 7};
            if (pthread_create(&threads[i], NULL, work_and_close, &workers[i]) != 0) exit(1);
        }
        for (int i = 0; i < THREADS; i++) {
            pthread_join(threads[i], NULL);
            if (workers[i].status == MVRLU_NO) {
                WANT(workers[i].last, 7);
                continue;
            }
            WANT(workers[i].status, MVRLU_OK);
            WANT(workers[i].last, THREADS * COMMITS);
            told++;
        }
        WANT(told, 1);
        closed++;
    }
}

int main(void) {
    every_order();
    few_seats();
    two_domains();
    the_last_time();
    seats_of_the_sets();
    from_threads();
    printf("closed %lu domains, each with its last time\n", closed);
    return 0;
}
