/* What a domain of many objects takes: the time of its opening, and of the calls on it.
 *     opening open OBJECTS    opens a domain of one seat and so many objects, and prints the milliseconds; the rest is for who runs it
 *     opening calls SMALL LARGE    times calls on two domains, which touch the same objects in both, and prints a table in Markdown
 * It ends with status 1 where a call is refused, or where one of the calls takes more than 1.3 times as long on the larger domain. */
#define _POSIX_C_SOURCE 199309L
#include <mvrlu.h>

#include <stdio.h>
#include <stdlib.h>
#include <string.h>
#include <time.h>

enum { TOUCHED = 16, APART = 61, SECTIONS = 400, ROUNDS = 60, WAYS = 6 };

static const char *const names[WAYS] = {"enter and leave", "read", "lock", "write", "commit of 16 objects", "tidy of 16 versions"};

/* The nanoseconds of a call of each way, the least of all rounds. */
struct times {
    double of[WAYS];
};

static double now(void) {
    struct timespec t;
    clock_gettime(CLOCK_MONOTONIC, &t);
    return (double)t.tv_sec * 1e9 + (double)t.tv_nsec;
}

static void must(int32_t status, const char *what) {
    if (status == MVRLU_OK) return;
    fprintf(stderr, "bench/opening: %s: %s\n", what, mvrlu_strerror(status));
    exit(1);
}

static void open_one(mvrlu_seat *seat, unsigned long objects) {
    mvrlu_options options = MVRLU_OPTIONS_INIT;
    memset(seat, 0, sizeof *seat);
    options.objects = (uint32_t)objects;
    must(mvrlu_open(&options, seat, 1), "open");
}

static void keep_least(double *least, double nanos, double calls) {
    if (*least == 0 || nanos / calls < *least) *least = nanos / calls;
}

/* Enters and leaves, and reads each touched object in each section. */
static void read_all(mvrlu_seat *seat, struct times *times) {
    uint64_t words[MVRLU_WORDS], sum = 0;
    double spent = 0, from = now();
    int section, at;
    for (section = 0; section < SECTIONS; section++) {
        must(mvrlu_enter(seat), "enter");
        must(mvrlu_leave(seat), "leave");
    }
    keep_least(&times->of[0], now() - from, SECTIONS);
    for (section = 0; section < SECTIONS; section++) {
        must(mvrlu_enter(seat), "enter");
        from = now();
        for (at = 0; at < TOUCHED; at++) {
            must(mvrlu_read(seat, (uint32_t)(at * APART), words), "read");
            sum += words[0];
        }
        spent += now() - from;
        must(mvrlu_leave(seat), "leave");
    }
    keep_least(&times->of[1], spent, (double)SECTIONS * TOUCHED);
    if (sum == 1) puts("");
}

/* Commits all touched objects in each section, and tidies behind it. */
static void commit_all(mvrlu_seat *seat, struct times *times) {
    static const uint64_t tag[4] = {0, 0, 0, 0};
    uint64_t words[MVRLU_WORDS] = {2, 3, 4, 5, 6, 7}, time;
    double spent[WAYS] = {0}, from, then;
    uint32_t live;
    int section, at;
    for (section = 0; section < SECTIONS; section++) {
        must(mvrlu_prepare(seat), "prepare");
        must(mvrlu_enter(seat), "enter");
        from = now();
        for (at = 0; at < TOUCHED; at++) must(mvrlu_lock(seat, (uint32_t)(at * APART), NULL), "lock");
        then = now(), spent[2] += then - from, from = then;
        for (at = 0; at < TOUCHED; at++) must(mvrlu_write(seat, (uint32_t)(at * APART), words), "write");
        then = now(), spent[3] += then - from, from = then;
        must(mvrlu_commit(seat, tag, &time), "commit");
        then = now(), spent[4] += then - from, from = then;
        must(mvrlu_tidy(seat, &live), "tidy");
        spent[5] += now() - from;
    }
    keep_least(&times->of[2], spent[2], (double)SECTIONS * TOUCHED);
    keep_least(&times->of[3], spent[3], (double)SECTIONS * TOUCHED);
    keep_least(&times->of[4], spent[4], SECTIONS);
    keep_least(&times->of[5], spent[5], SECTIONS);
}

static int time_calls(unsigned long small, unsigned long large) {
    mvrlu_seat seats[2];
    struct times times[2];
    int round, which, way, slow = 0;
    memset(times, 0, sizeof times);
    open_one(&seats[0], small);
    open_one(&seats[1], large);
    for (round = 0; round < ROUNDS; round++)
        for (which = 0; which < 2; which++) {
            read_all(&seats[which], &times[which]);
            commit_all(&seats[which], &times[which]);
        }
    printf("| nanoseconds a call | %lu objects | %lu objects | ratio |\n|---|---|---|---|\n", small, large);
    for (way = 0; way < WAYS; way++) {
        double ratio = times[1].of[way] / times[0].of[way];
        printf("| %s | %.1f | %.1f | %.2f |\n", names[way], times[0].of[way], times[1].of[way], ratio);
        slow |= ratio > 1.3;
    }
    must(mvrlu_close(&seats[0]), "close");
    must(mvrlu_close(&seats[1]), "close");
    return slow;
}

int main(int count, char *words[]) {
    if (count == 3 && strcmp(words[1], "open") == 0) {
        mvrlu_seat seat;
        double from = now();
        open_one(&seat, strtoul(words[2], NULL, 10));
        printf("%.1f\n", (now() - from) / 1e6);
        must(mvrlu_close(&seat), "close");
        return 0;
    }
    if (count == 4 && strcmp(words[1], "calls") == 0) return time_calls(strtoul(words[2], NULL, 10), strtoul(words[3], NULL, 10));
    fputs("usage: opening open OBJECTS | calls SMALL LARGE, each with 916 objects at least\n", stderr);
    return 2;
}
