/* Each allocation refused in turn: an open that is refused leaves all seats closed and nothing taken, and a block or a walk that is
 * refused does nothing. Linked with -Wl,--wrap=malloc,--wrap=realloc,--wrap=free. Ends with 1 at a fault. */
#include <mvrlu.h>
#include <stdio.h>
#include <stdlib.h>
#include <string.h>

enum { SEATS = 3 };

void *__real_malloc(size_t size);
void *__real_realloc(void *block, size_t size);
void __real_free(void *block);

static unsigned long asked, refused_at;
static long taken;

/* Whether this request is the one to be refused. */
static int is_refused(void) { return ++asked == refused_at; }

void *__wrap_malloc(size_t size) {
    void *block = is_refused() ? NULL : __real_malloc(size);
    taken += block != NULL;
    return block;
}

void *__wrap_realloc(void *block, size_t size) {
    void *other = is_refused() ? NULL : __real_realloc(block, size);
    taken += block == NULL && other != NULL;
    return other;
}

void __wrap_free(void *block) {
    taken -= block != NULL;
    __real_free(block);
}

static void fail(const char *what, long long got) {
    printf("refused: %s: %lld (request %lu)\n", what, got, refused_at);
    exit(1);
}

/* Looks at what closing a seat came to, behind an opening of this status: it was opened where the opening wasn't refused. */
static void want_closed(int32_t opened, int32_t closed) {
    if (closed != (opened == MVRLU_OK ? MVRLU_OK : MVRLU_CLOSED)) fail("a seat of an open that was refused", closed);
}

static int32_t open_objects(void) {
    mvrlu_seat seats[SEATS];
    mvrlu_options options = MVRLU_OPTIONS_INIT;
    memset(seats, 0, sizeof seats);
    int32_t status = mvrlu_open(&options, seats, SEATS);
    for (int i = 0; i < SEATS; i++) want_closed(status, mvrlu_close(&seats[i]));
    return status;
}

static int32_t open_sets(void) {
    mvrlu_sets sets[SEATS];
    mvrlu_sets_options options = MVRLU_SETS_OPTIONS_INIT;
    memset(sets, 0, sizeof sets);
    int32_t status = mvrlu_sets_open(&options, sets, SEATS);
    for (int i = 0; i < SEATS; i++) want_closed(status, mvrlu_sets_close(&sets[i]));
    return status;
}

static int32_t open_table(void) {
    mvrlu_table table[SEATS];
    mvrlu_table_options options = MVRLU_TABLE_OPTIONS_INIT;
    options.objects = MVRLU_TABLE_OBJECTS_MIN;
    memset(table, 0, sizeof table);
    int32_t status = mvrlu_table_open(&options, table, SEATS);
    for (int i = 0; i < SEATS; i++) want_closed(status, mvrlu_table_close(&table[i]));
    return status;
}

/* A block of three on a new domain, in which only requests behind the opening are refused. */
static int32_t do_block(void) {
    static const mvrlu_command commands[] = {{MVRLU_ADD, 0, 0, 1, 0}, {MVRLU_PUT, 20, 0, 2, 3}, {MVRLU_HAS, 0, 0, 1, 0}};
    unsigned long wanted = refused_at;
    mvrlu_sets sets[1];
    mvrlu_sets_options options = MVRLU_SETS_OPTIONS_INIT;
    mvrlu_reply replies[3], size;
    memset(sets, 0, sizeof sets);
    refused_at = 0;
    if (mvrlu_sets_open(&options, sets, 1) != MVRLU_OK) fail("open", 0);
    asked = 0;
    refused_at = wanted;
    int32_t status = mvrlu_sets_block(sets, commands, 3, replies);
    if (mvrlu_sets_size(sets, 0, &size) != MVRLU_OK || size.value != (status == MVRLU_OK)) fail("a size", (long long)size.value);
    if (mvrlu_sets_close(&sets[0]) != MVRLU_OK) fail("close", 0);
    return status;
}

/* A walk over a set of two keys, in which only requests behind the opening are refused. */
static int32_t do_walk(void) {
    unsigned long wanted = refused_at;
    mvrlu_sets sets[1];
    mvrlu_sets_options options = MVRLU_SETS_OPTIONS_INIT;
    mvrlu_entry entries[3] = {{7, 7}, {7, 7}, {7, 7}};
    mvrlu_walk walk = {7, 7, 7, 7};
    memset(sets, 0, sizeof sets);
    refused_at = 0;
    if (mvrlu_sets_open(&options, sets, 1) != MVRLU_OK) fail("open", 0);
    if (mvrlu_sets_add(sets, 0, 1, NULL) != MVRLU_OK || mvrlu_sets_add(sets, 0, 2, NULL) != MVRLU_OK) fail("an add", 0);
    asked = 0;
    refused_at = wanted;
    int32_t status = mvrlu_sets_walk(sets, 0, 0, entries, 3, &walk);
    if (status == MVRLU_OK ? walk.count != 2 : walk.count != 7 || entries[0].key != 7) fail("what a walk wrote", (long long)walk.count);
    if (mvrlu_sets_close(&sets[0]) != MVRLU_OK) fail("close", 0);
    return status;
}

/* Refuses one request after another until none is left to refuse. */
static unsigned long refuse_each(const char *what, int32_t (*made)(void)) {
    for (refused_at = 1;; refused_at++) {
        asked = 0;
        int32_t status = made();
        if (taken != 0) fail("blocks that are left", taken);
        if (status == MVRLU_OK && asked >= refused_at) fail(what, status);
        if (status == MVRLU_OK) return refused_at - 1;
        if (status != MVRLU_NO_MEMORY) fail(what, status);
    }
}

int main(void) {
    unsigned long objects = refuse_each("open of objects", open_objects);
    unsigned long sets = refuse_each("open of sets", open_sets);
    unsigned long tables = refuse_each("open of a table", open_table);
    unsigned long blocks = refuse_each("a block", do_block);
    unsigned long walks = refuse_each("a walk", do_walk);
    printf("refused requests: %lu of objects, %lu of sets, %lu of a table, %lu of a block, %lu of a walk\n", objects, sets, tables, blocks, walks);
    return objects == 0 || sets == 0 || tables == 0 || blocks == 0 || walks == 0;
}
