/* A bank: threads move money between accounts while others add all accounts up. Each sum is that of one state, so each is the
 * whole. docs/C.md says how the library is installed; then, at the top of the repository:
 *     cc -O2 examples/c/bank.c $(pkg-config --cflags --libs mvrlu) -o bank */
#include <mvrlu.h>
#include <pthread.h>
#include <stdatomic.h>
#include <stdio.h>
#include <stdlib.h>

enum { ACCOUNTS = 64, OPENING = 1000, TRANSFERS = 50000, TELLERS = 2, AUDITORS = 2, SEATS = TELLERS + AUDITORS };
enum { BALANCE }; /* the word of an account that is its balance */

typedef struct teller { mvrlu_seat *seat; unsigned random; unsigned long refused; } teller;
typedef struct auditor { mvrlu_seat *seat; unsigned long sums; } auditor;

static atomic_int working = TELLERS;

static void fail(const char *what, int32_t status) {
    fprintf(stderr, "%s: %s\n", what, mvrlu_strerror(status));
    exit(1);
}

static void must(const char *what, int32_t status) {
    if (status != MVRLU_OK) fail(what, status);
}

/* Tries once to move an amount. Refused: nothing was done, and it may be tried again. */
static int32_t transfer(mvrlu_seat *seat, uint32_t from, uint32_t to, uint64_t amount) {
    uint64_t giver[MVRLU_WORDS], taker[MVRLU_WORDS];
    int32_t status = mvrlu_prepare(seat);
    if (status != MVRLU_OK) return status;
    must("enter", mvrlu_enter(seat));
    if ((status = mvrlu_lock(seat, from, NULL)) == MVRLU_OK && (status = mvrlu_lock(seat, to, NULL)) == MVRLU_OK) {
        must("read", mvrlu_read(seat, from, giver));
        must("read", mvrlu_read(seat, to, taker));
        if (giver[BALANCE] >= amount) {
            giver[BALANCE] -= amount;
            taker[BALANCE] += amount;
        }
        must("write", mvrlu_write(seat, from, giver));
        must("write", mvrlu_write(seat, to, taker));
        while ((status = mvrlu_commit(seat, NULL, NULL)) == MVRLU_AGAIN) { }
        if (status == MVRLU_OK) return MVRLU_OK;
    }
    must("abort", mvrlu_abort(seat));
    return status;
}

/* Adds all accounts up, in one section. */
static uint64_t sum(mvrlu_seat *seat) {
    uint64_t words[MVRLU_WORDS], all = 0;
    must("enter", mvrlu_enter(seat));
    for (uint32_t account = 0; account < ACCOUNTS; account++) {
        must("read", mvrlu_read(seat, account, words));
        all += words[BALANCE];
    }
    must("leave", mvrlu_leave(seat));
    return all;
}

static unsigned draw(unsigned *random) { return *random = *random * 1664525u + 1013904223u; }

static void *tell(void *given) {
    teller *me = given;
    for (int done = 0; done < TRANSFERS;) {
        unsigned drawn = draw(&me->random);
        uint32_t from = (drawn >> 8) % ACCOUNTS, to = (from + 1 + (drawn >> 20) % (ACCOUNTS - 1)) % ACCOUNTS;
        int32_t status = transfer(me->seat, from, to, drawn >> 28);
        if (status == MVRLU_OK) done++;
        else if (status > 0) me->refused++;
        else fail("transfer", status);
    }
    atomic_fetch_sub(&working, 1);
    return NULL;
}

static void *audit(void *given) {
    auditor *me = given;
    do {
        uint64_t all = sum(me->seat);
        if (all != (uint64_t)ACCOUNTS * OPENING) {
            fprintf(stderr, "a sum of %llu\n", (unsigned long long)all);
            exit(1);
        }
        me->sums++;
    } while (atomic_load(&working) > 0);
    return NULL;
}

static void deposit(mvrlu_seat *seat, uint32_t account, uint64_t amount) {
    uint64_t words[MVRLU_WORDS] = {[BALANCE] = amount};
    must("prepare", mvrlu_prepare(seat));
    must("enter", mvrlu_enter(seat));
    must("lock", mvrlu_lock(seat, account, NULL));
    must("write", mvrlu_write(seat, account, words));
    must("commit", mvrlu_commit(seat, NULL, NULL));
}

int main(void) {
    static mvrlu_seat seats[SEATS];
    mvrlu_options options = MVRLU_OPTIONS_INIT;
    teller tellers[TELLERS] = {{0}};
    auditor auditors[AUDITORS] = {{0}};
    pthread_t threads[SEATS];
    options.objects = ACCOUNTS;
    must("open", mvrlu_open(&options, seats, SEATS));
    for (uint32_t account = 0; account < ACCOUNTS; account++) deposit(&seats[0], account, OPENING);
    for (int i = 0; i < TELLERS; i++) {
        tellers[i] = (teller){.seat = &seats[i], .random = 99u + (unsigned)i};
        pthread_create(&threads[i], NULL, tell, &tellers[i]);
    }
    for (int i = 0; i < AUDITORS; i++) {
        auditors[i].seat = &seats[TELLERS + i];
        pthread_create(&threads[TELLERS + i], NULL, audit, &auditors[i]);
    }
    for (int i = 0; i < SEATS; i++) pthread_join(threads[i], NULL);
    printf("transfers %d, each sum %d\n", TELLERS * TRANSFERS, ACCOUNTS * OPENING);
    for (int i = 0; i < SEATS; i++) must("close", mvrlu_close(&seats[i]));
    return 0;
}
