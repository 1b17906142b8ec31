/* What the tests of mvrlu.h share: answers that are wanted, replies that are wanted, and how a test ends at the first other one. */
#ifndef WANTED_H
#define WANTED_H

#include <mvrlu.h>
#include <stdio.h>
#include <stdlib.h>

static unsigned long asked; /* how many answers were asked for, by any thread */

/* Ends the program: what was wrong, and what was found in its place. */
static inline void fail(const char *what, long long got) {
    printf("%s: %s: %lld\n", __BASE_FILE__, what, got);
    exit(1);
}

static inline void want(int line, const char *call, long long got, long long wanted) {
    __atomic_fetch_add(&asked, 1, __ATOMIC_RELAXED);
    if (got == wanted) return;
    printf("%s:%d: %s is %lld, not %lld\n", __BASE_FILE__, line, call, got, wanted);
    exit(1);
}
#define WANT(call, wanted) want(__LINE__, #call, (long long)(call), (long long)(wanted))

/* A reply that no call tells. */
#define UNTOLD ((mvrlu_reply){7, 7, 7, 7, 7})

/* Whether a reply is as it was. */
static inline int is_untold(const mvrlu_reply *r) {
    return r->value == 7 && r->time == 7 && r->committed == 7 && r->second == 7 && r->status == 7;
}

/* A call that tells `reply`. */
#define WANT_REPLY(call, status_, value_, time_, committed_) \
    do { \
        reply = UNTOLD; \
        WANT(call, status_); \
        WANT(reply.status, status_); \
        WANT(reply.value, value_); \
        WANT(reply.time, time_); \
        WANT(reply.committed, committed_); \
    } while (0)

/* Openings with options that are fit, and with a number of seats, a size or a pointer that is not. */
#define WANT_NO_OPENING(open, options, seats) \
    do { \
        WANT(open(&(options), seats, 0), MVRLU_BAD_NUMBER); \
        WANT(open(&(options), seats, MVRLU_SEATS_MAX + 1), MVRLU_BAD_NUMBER); \
        WANT(open(NULL, seats, 1), MVRLU_NULL); \
        WANT(open(&(options), NULL, 1), MVRLU_NULL); \
        (options).size -= 8; \
        WANT(open(&(options), seats, 1), MVRLU_BAD_NUMBER); \
    } while (0)

#endif
