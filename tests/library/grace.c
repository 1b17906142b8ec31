/* Read-copy-update of memory of the caller's own: one thread replaces the record that object 0 names, and frees an old one once the time
 * of its replacement is told by mvrlu_grace; three threads read the record that their section names. A record that is freed is
 * overwritten, and its memory isn't used again before the end, so one that is read after it shows. Prints how many were replaced and freed, and
 * ends with 1 where one was read that was freed. */
#include <mvrlu.h>
#include <pthread.h>
#include <sched.h>
#include <stdio.h>
#include <stdlib.h>

enum { READERS = 3, SEATS = READERS + 1 };
#ifndef ROUNDS
#define ROUNDS 20000u
#endif

typedef struct record {
    uint64_t number, check; /* the check is the complement of the number */
    uint64_t time;          /* that of its replacement */
    struct record *next;    /* the one that was replaced after it */
} record;

static mvrlu_seat seats[SEATS];
static unsigned long reads[READERS];
static int begun, done, wrong;
static record *freed;

static void must(int32_t status, const char *call) {
    if (status == MVRLU_OK) return;
    printf("grace.c: %s: %s\n", call, mvrlu_strerror(status));
    exit(1);
}

static record *record_of(uint64_t number) {
    record *made = malloc(sizeof *made);
    if (made == NULL) exit(1);
    *made = (record){number, ~number, 0, NULL};
    return made;
}

/* Makes object 0 name the record, and tells the time. */
static uint64_t name(mvrlu_seat *seat, const record *it) {
    uint64_t words[MVRLU_WORDS] = {(uint64_t)(uintptr_t)it}, time = 0;
    int32_t status;
    while ((status = mvrlu_prepare(seat)) == MVRLU_SHORT) sched_yield();
    must(status, "prepare");
    must(mvrlu_enter(seat), "enter");
    must(mvrlu_lock(seat, 0, NULL), "lock");
    must(mvrlu_write(seat, 0, words), "write");
    while ((status = mvrlu_commit(seat, NULL, &time)) == MVRLU_AGAIN) { }
    must(status, "commit");
    return time;
}

/* Frees the records that were replaced at this time or before, in the order of their replacements, and tells how many: each is
 * overwritten, and kept in `freed` until the end. */
static unsigned long free_up_to(record **oldest, uint64_t time) {
    unsigned long count = 0;
    for (record *it = *oldest; it != NULL && it->time <= time; it = *oldest, count++) {
        *oldest = it->next;
        *it = (record){0, 0, 0, freed};
        freed = it;
    }
    return count;
}

static void *reader(void *own) {
    size_t i = (size_t)(uintptr_t)own;
    while (!__atomic_load_n(&done, __ATOMIC_ACQUIRE)) {
        uint64_t words[MVRLU_WORDS];
        const record *it;
        must(mvrlu_enter(&seats[i + 1]), "enter");
        must(mvrlu_read(&seats[i + 1], 0, words), "read");
        it = (const record *)(uintptr_t)words[0];
        if (reads[i] % 4 == 0) sched_yield();
        if (it->check != ~it->number) __atomic_store_n(&wrong, 1, __ATOMIC_RELAXED);
        must(mvrlu_leave(&seats[i + 1]), "leave");
        if (reads[i]++ == 0) __atomic_fetch_add(&begun, 1, __ATOMIC_RELEASE);
    }
    return NULL;
}

int main(void) {
    mvrlu_options options = MVRLU_OPTIONS_INIT;
    pthread_t threads[READERS];
    record *named = record_of(0), *oldest = NULL, **newest = &oldest;
    unsigned long count = 0;
    uint64_t time = 0;
    options.objects = 1;
    must(mvrlu_open(&options, seats, SEATS), "open");
    name(&seats[0], named);
    for (size_t i = 0; i < READERS; i++)
        if (pthread_create(&threads[i], NULL, reader, (void *)(uintptr_t)i) != 0) return 1;
    while (__atomic_load_n(&begun, __ATOMIC_ACQUIRE) < READERS) sched_yield();
    for (uint64_t number = 1; number <= ROUNDS; number++) {
        record *old = named;
        named = record_of(number);
        old->time = name(&seats[0], named);
        if (oldest == NULL) newest = &oldest;
        *newest = old;
        newest = &old->next;
        must(mvrlu_grace(&seats[0], &time), "grace");
        count += free_up_to(&oldest, time);
    }
    __atomic_store_n(&done, 1, __ATOMIC_RELEASE);
    for (size_t i = 0; i < READERS; i++) pthread_join(threads[i], NULL);
    must(mvrlu_grace(&seats[0], &time), "grace");
    count += free_up_to(&oldest, time);
    for (record *it = freed; it != NULL; it = freed) freed = it->next, free(it);
    free(named);
    for (size_t i = 0; i < SEATS; i++) must(mvrlu_close(&seats[i]), "close");
    printf("replaced %u, freed %lu, read %s\n", ROUNDS, count, wrong ? "a freed one" : "none that was freed");
    return wrong || count != ROUNDS;
}
