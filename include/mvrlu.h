/* mvrlu.h: data in memory that threads share, read and written in multi-version sections. It has three parts:
 *
 * - objects of six 64-bit words, of which a program builds structures of its own (mvrlu_seat);
 * - thirty sets of 32-bit keys with 64-bit values: ten lists, ten hash tables, ten trees (mvrlu_sets), further below;
 * - a hash table of 32-bit keys that grows up to 1,048,576 buckets (mvrlu_table), at the end.
 *
 * Objects. A domain has up to 16,777,216 objects, all words 0 at first, and up to 64 seats. A thread uses a seat: it enters a section,
 * and all its reads see the one state of that moment, whatever others commit meanwhile. Readers and writers never wait for
 * each other. To write, a section locks each object, gives it new words, and commits: the commit takes place whole, at one
 * time of the one commit history, or not at all. No call blocks or sleeps, and none tries again by itself, but a lock
 * once where its object's chain was cut meanwhile.
 *
 *     static mvrlu_seat seats[4];                        // zeroed memory is a closed seat
 *     mvrlu_options options = MVRLU_OPTIONS_INIT;
 *     options.objects = 1024;
 *     if (mvrlu_open(&options, seats, 4) != MVRLU_OK) ...
 *     ... hand &seats[i] to thread i ...
 *     do {                                               // moves 1 from object 3 to object 7
 *         if ((status = mvrlu_prepare(seat)) != MVRLU_OK) continue;
 *         mvrlu_enter(seat);
 *         if ((status = mvrlu_lock(seat, 3, NULL)) == MVRLU_OK && (status = mvrlu_lock(seat, 7, NULL)) == MVRLU_OK) {
 *             mvrlu_read(seat, 3, a), mvrlu_read(seat, 7, b);
 *             a[0]--, b[0]++;
 *             mvrlu_write(seat, 3, a), mvrlu_write(seat, 7, b);
 *             while ((status = mvrlu_commit(seat, tag, &time)) == MVRLU_AGAIN) { }
 *             if (status == MVRLU_OK) break;
 *         }
 *         mvrlu_abort(seat);                             // another seat came first: begin again
 *     } while (mvrlu_may_retry(status));                 // else status tells why
 *
 * What is proved of the library: its memory is safe whatever the order of these calls and the numbers given to them, and
 * what each call of a section promises below holds under every interleaving of the seats' atomic steps (docs/CONTRACTS.md).
 *
 * Isolation. It is snapshot isolation: two sections that lock different objects may both commit though each read what the
 * other wrote (write skew). Lock what a commit depends on; a locked object that is not written keeps its words.
 *
 * Threads. A seat, of objects, of the sets or of a table, is used by one thread at a time, and different seats of a domain by
 * different threads at once. A seat may go to another thread where what the one did happens before what the other does (a mutex,
 * the start or end of a thread, a release store that an acquire load reads). A second call on a seat that is in a call answers
 * MVRLU_IN_USE and does nothing, unless MVRLU_UNCHECKED is defined before this header is included.
 *
 * Ownership. The caller owns the 128 bytes of a seat and neither copies nor changes them while it is open; a copy answers
 * MVRLU_MOVED. Every call writes the first of them, so they are so many that no two seats of an array share a line of memory.
 *
 * What no call can see: memory of an open seat that is freed or overwritten, the child of a fork, signal handlers. Don't.
 */
#ifndef MVRLU_H
#define MVRLU_H
#include <stddef.h>
#include <stdint.h>
#ifdef __cplusplus
extern "C" {
#endif

#define MVRLU_VERSION 0x00010000u /* MAJOR * 65536 + MINOR */

/* ---- limits ---- */
#define MVRLU_WORDS 6
#define MVRLU_SEATS_MAX 64u
#define MVRLU_OBJECTS_MAX 16777216u
#define MVRLU_SLOTS_MIN 64u
#define MVRLU_SLOTS_MAX 4096u
#define MVRLU_WRITE_MAX 64u /* and less than the slots */
#define MVRLU_TIME_MAX 35184372088831u /* the last time, 2^45 - 1 */

/* ---- status: 0 and 1: the call was made; 2 to 6: not now, and each says what to do; below 0: nothing was done, and why ---- */
typedef enum mvrlu_status {
    MVRLU_OK = 0,
    MVRLU_NO = 1,           /* sets, table: there is nothing to change, or nothing of what was asked for; close_last: it wasn't the last seat */
    MVRLU_AGAIN = 2,        /* another entry came first. Commit again at once; of the sets nothing was done: make the call again */
    MVRLU_BUSY = 3,         /* another seat holds an object. Abort, and begin again later; of the sets nothing was done */
    MVRLU_STALE = 4,        /* an object was written after the section began. Abort, and enter anew; of the sets nothing was done */
    MVRLU_SHORT = 5,        /* the log has too little room for a full write set, as its oldest one is still needed */
    MVRLU_LOG_FULL = 6,     /* lock: the log has no free slot. Abort, and prepare */
    MVRLU_FULL = -1,        /* vacant: no object is vacant; sets: there is no room for what is to be added */
    MVRLU_WORN = -2,        /* the last time, 2^45 - 1, was reached: no commit is possible any more. Abort */
    MVRLU_BAD_SET = -3,     /* sets: there is no set of this number: it isn't 0 to 29 */
    MVRLU_SAME_SET = -4,    /* sets: a move from a set into itself */
    MVRLU_CLOSED = -5,      /* the seat is closed */
    MVRLU_IN_USE = -6,      /* the seat is in a call of another thread, or, for open, a seat is open already */
    MVRLU_BAD_NUMBER = -7,  /* open: an option or the count of seats is out of its range */
    MVRLU_NO_MEMORY = -8,   /* open, and block and walk of the sets: there is too little memory */
    MVRLU_NULL = -9,        /* a null pointer where one may not be */
    MVRLU_MOVED = -11,      /* the seat's bytes were copied elsewhere */
    MVRLU_OUTSIDE = -12,    /* the call is for a section, and the seat is outside */
    MVRLU_INSIDE = -13,     /* the call is for a seat outside, and it is in a section */
    MVRLU_BAD_OBJECT = -14, /* the domain has no object of this number */
    MVRLU_NOT_LOCKED = -15, /* write: the section does not hold the object */
    MVRLU_EMPTY = -16,      /* commit: the section holds nothing. Leave */
    MVRLU_HOLDING = -17,    /* leave: the section holds something. Commit or abort */
    MVRLU_SET_FULL = -18,   /* lock: the section holds write_max objects */
    MVRLU_BAD_PLACE = -19,  /* read_pair: the place is not 0 to 4 */
    MVRLU_BAD_COMMAND = -20, /* sets_block: there is no command of this number */
    MVRLU_BAD_BLOCK = -21   /* sets_block: no command or more than 8, or a size or a next among several */
} mvrlu_status;

/* What a status means, in one line. Never NULL. */
static inline const char *mvrlu_strerror(int32_t status);

/* ---- open and close ---- */

typedef struct mvrlu_options {
    uint32_t size;      /* sizeof(mvrlu_options) */
    uint32_t objects;   /* 1 to MVRLU_OBJECTS_MAX */
    uint32_t slots;     /* versions in the log of each seat, MVRLU_SLOTS_MIN to MVRLU_SLOTS_MAX */
    uint32_t write_max; /* objects that one section may lock, 1 to MVRLU_WRITE_MAX */
    uint64_t opening_time; /* the time of the opening state, 0 to MVRLU_TIME_MAX: 0, or where an earlier domain ended */
} mvrlu_options;
#define MVRLU_OPTIONS_INIT { sizeof(mvrlu_options), 1024u, 1024u, 16u, 0u }

/* What the library owns of a seat. */
typedef struct mvrlu_raw { uint8_t is_open; void *at; } mvrlu_raw;
typedef struct mvrlu_seat { mvrlu_raw raw; const void *self; uint32_t in_call; uint8_t apart[100]; } mvrlu_seat;

/* The calls of the library itself, which test neither null pointers nor a second thread: use the calls below. */
int32_t mvrlu_raw_open(const mvrlu_options *options, mvrlu_raw seats[], size_t count);
int32_t mvrlu_raw_close(mvrlu_raw *seat, uint64_t *last);
int32_t mvrlu_raw_prepare(mvrlu_raw *seat);
int32_t mvrlu_raw_tidy(mvrlu_raw *seat, uint32_t *live);
int32_t mvrlu_raw_grace(mvrlu_raw *seat, uint64_t *time);
struct mvrlu_counts;
int32_t mvrlu_raw_count(mvrlu_raw *seat, struct mvrlu_counts *counts);
int32_t mvrlu_raw_enter(mvrlu_raw *seat);
int32_t mvrlu_raw_read(mvrlu_raw *seat, uint32_t object, uint64_t words[MVRLU_WORDS]);
int32_t mvrlu_raw_read_pair(mvrlu_raw *seat, uint32_t object, uint32_t place, uint64_t words[2]);
int32_t mvrlu_raw_lock(mvrlu_raw *seat, uint32_t object, uint64_t *by);
int32_t mvrlu_raw_vacant(mvrlu_raw *seat, uint32_t *hint, uint32_t *object);
int32_t mvrlu_raw_write(mvrlu_raw *seat, uint32_t object, const uint64_t words[MVRLU_WORDS]);
int32_t mvrlu_raw_time(mvrlu_raw *seat, uint64_t *time);
int32_t mvrlu_raw_commit(mvrlu_raw *seat, const uint64_t tag[4], uint64_t *time);
int32_t mvrlu_raw_abort(mvrlu_raw *seat);
int32_t mvrlu_raw_leave(mvrlu_raw *seat);

/* Begins a call on a seat, of objects, of the sets or of a table: 0, or why it may not be made. */
static inline int32_t mvrlu_begin_call(const void *seat, uint32_t *in_call, const uint8_t *is_open, const void *const *self) {
#ifndef MVRLU_UNCHECKED
    if (__atomic_exchange_n(in_call, 1u, __ATOMIC_ACQUIRE) != 0) return MVRLU_IN_USE;
    if (*is_open && *self != seat) {
        __atomic_store_n(in_call, 0u, __ATOMIC_RELEASE);
        return MVRLU_MOVED;
    }
#else
    (void)seat, (void)in_call, (void)is_open, (void)self;
#endif
    return MVRLU_OK;
}

static inline int32_t mvrlu_end_call(uint32_t *in_call, int32_t status) {
#ifndef MVRLU_UNCHECKED
    __atomic_store_n(in_call, 0u, __ATOMIC_RELEASE);
#else
    (void)in_call;
#endif
    return status;
}

/* Makes a call of the library on a seat. */
#define MVRLU_ON(seat, call) \
    do { \
        int32_t status_; \
        if ((seat) == NULL) return MVRLU_NULL; \
        status_ = mvrlu_begin_call(seat, &(seat)->in_call, &(seat)->raw.is_open, &(seat)->self); \
        return status_ != MVRLU_OK ? status_ : mvrlu_end_call(&(seat)->in_call, call); \
    } while (0)

/* Opens seats by a call of the library: all of them or none. */
#define MVRLU_OPEN(raw_type, call, options, seats, count) \
    do { \
        raw_type raw_[MVRLU_SEATS_MAX]; \
        size_t i_; \
        int32_t status_; \
        if ((options) == NULL || (seats) == NULL) return MVRLU_NULL; \
        if ((options)->size != sizeof *(options) || (count) < 1 || (count) > MVRLU_SEATS_MAX) return MVRLU_BAD_NUMBER; \
        for (i_ = 0; i_ < (count); i_++) { \
            if ((seats)[i_].raw.is_open) return MVRLU_IN_USE; \
            raw_[i_].is_open = 0; \
            raw_[i_].at = NULL; \
        } \
        status_ = call(options, raw_, count); \
        if (status_ != MVRLU_OK) return status_; \
        for (i_ = 0; i_ < (count); i_++) { \
            (seats)[i_].raw = raw_[i_]; \
            (seats)[i_].self = &(seats)[i_]; \
            (seats)[i_].in_call = 0; \
        } \
        return MVRLU_OK; \
    } while (0)

/* Opens a domain of objects that are all 0, with a seat for each of `seats`: all of them or none. Seat i has number i. Every
 * seat must be closed (zeroed memory). MVRLU_BAD_NUMBER, MVRLU_IN_USE, MVRLU_NO_MEMORY, MVRLU_NULL. */
static inline int32_t mvrlu_open(const mvrlu_options *options, mvrlu_seat seats[], size_t count) {
    MVRLU_OPEN(mvrlu_raw, mvrlu_raw_open, options, seats, count);
}

/* Closes a seat, and tells whether it was the last one of its domain. What its section holds is given up first. MVRLU_OK: it was. All seats of the
 * domain have met: there is one history of all that they did, and `last`, which may be NULL, is the time of its last entry, or the opening time
 * where there is none. The domain's memory is given back. MVRLU_NO: other seats of the domain are open still, and `last` stays. */
static inline int32_t mvrlu_close_last(mvrlu_seat *seat, uint64_t *last) {
    uint64_t unused = 0;
    MVRLU_ON(seat, mvrlu_raw_close(&seat->raw, last == NULL ? &unused : last));
}

/* Closes a seat, as mvrlu_close_last does, and tells only that it is closed: MVRLU_OK. */
static inline int32_t mvrlu_close(mvrlu_seat *seat) {
    int32_t status = mvrlu_close_last(seat, NULL);
    return status == MVRLU_NO ? MVRLU_OK : status;
}

/* ---- outside a section ---- */

/* Makes room in the seat's log for one section that locks write_max objects. MVRLU_SHORT: the oldest write set of
 * the log is still needed, as by a section that reads it; a section that only reads needs no room. */
static inline int32_t mvrlu_prepare(mvrlu_seat *seat) { MVRLU_ON(seat, mvrlu_raw_prepare(&seat->raw)); }

/* Reclaims what nobody reads any more of the seat's log. `live`: how many slots are live afterwards. */
static inline int32_t mvrlu_tidy(mvrlu_seat *seat, uint32_t *live) {
    if (live == NULL) return MVRLU_NULL;
    MVRLU_ON(seat, mvrlu_raw_tidy(&seat->raw, live));
}

/* Tells the counts of the seat's log, as mvrlu_counts below says. */
static inline int32_t mvrlu_count(mvrlu_seat *seat, struct mvrlu_counts *counts) {
    if (counts == NULL) return MVRLU_NULL;
    MVRLU_ON(seat, mvrlu_raw_count(&seat->raw, counts));
}

/* Tells a time that no section of the domain is below, now or ever: what a commit of that time or an earlier one took out of the objects
 * is read by no section any more. So memory of the caller's own that such words named, and nothing else does, may be freed. Each seat
 * in a section holds the time back, at most to that of its section; where no other seat is in one during the call, the time is no earlier
 * than that of the last entry before the call. */
static inline int32_t mvrlu_grace(mvrlu_seat *seat, uint64_t *time) {
    if (time == NULL) return MVRLU_NULL;
    MVRLU_ON(seat, mvrlu_raw_grace(&seat->raw, time));
}

/* Begins a section. Its snapshot is the whole history at one moment of this call. */
static inline int32_t mvrlu_enter(mvrlu_seat *seat) { MVRLU_ON(seat, mvrlu_raw_enter(&seat->raw)); }

/* ---- in a section ---- */

/* Reads the words of an object in the state of the snapshot, or the section's own words where it wrote the object. */
static inline int32_t mvrlu_read(mvrlu_seat *seat, uint32_t object, uint64_t words[MVRLU_WORDS]) {
    if (words == NULL) return MVRLU_NULL;
    MVRLU_ON(seat, mvrlu_raw_read(&seat->raw, object, words));
}

/* Reads two words of an object, that of `place`, 0 to 4, and the one behind it. */
static inline int32_t mvrlu_read_pair(mvrlu_seat *seat, uint32_t object, uint32_t place, uint64_t words[2]) {
    if (words == NULL) return MVRLU_NULL;
    MVRLU_ON(seat, mvrlu_raw_read_pair(&seat->raw, object, place, words));
}

/* Locks an object, so that it takes part in the commit with the words that it has. MVRLU_OK also where the section holds it
 * already. `by`, which may be NULL: at MVRLU_BUSY the number of the seat that holds it, at MVRLU_STALE the time of the write. */
static inline int32_t mvrlu_lock(mvrlu_seat *seat, uint32_t object, uint64_t *by) {
    uint64_t unused = 0;
    MVRLU_ON(seat, mvrlu_raw_lock(&seat->raw, object, by == NULL ? &unused : by));
}

/* Finds the first vacant object, from `*hint` on and behind the last one from 0 on, and locks it: one whose six words are 0 in the state of
 * the snapshot, and which the section has not locked. `*object` is its number then, and `*hint` the number behind it, where the next look may
 * begin; any hint may be given. Writing zeros to an object makes it vacant again. MVRLU_FULL: no object of the domain is vacant, and both stay.
 * MVRLU_BUSY, MVRLU_STALE, MVRLU_LOG_FULL, MVRLU_SET_FULL: it was found, and not locked, as mvrlu_lock says; after the first two the call may
 * be made again in the same section, for the next vacant one. It reads each object once at most. */
static inline int32_t mvrlu_vacant(mvrlu_seat *seat, uint32_t *hint, uint32_t *object) {
    uint32_t next, found;
    int32_t status;
    if (seat == NULL || hint == NULL || object == NULL) return MVRLU_NULL;
    next = *hint, found = UINT32_MAX; /* the two may be one, and no object has this number */
    status = mvrlu_begin_call(seat, &seat->in_call, &seat->raw.is_open, &seat->self);
    if (status != MVRLU_OK) return status;
    status = mvrlu_raw_vacant(&seat->raw, &next, &found);
    *hint = next;
    if (found != UINT32_MAX) *object = found;
    return mvrlu_end_call(&seat->in_call, status);
}

/* Gives a locked object new words. Nobody else sees them before the commit. */
static inline int32_t mvrlu_write(mvrlu_seat *seat, uint32_t object, const uint64_t words[MVRLU_WORDS]) {
    if (words == NULL) return MVRLU_NULL;
    MVRLU_ON(seat, mvrlu_raw_write(&seat->raw, object, words));
}

/* Tells the time of the section's snapshot: the opening time, and one for each entry of the history that it sees. */
static inline int32_t mvrlu_time(mvrlu_seat *seat, uint64_t *time) {
    if (time == NULL) return MVRLU_NULL;
    MVRLU_ON(seat, mvrlu_raw_time(&seat->raw, time));
}

/* Commits all that is locked, as one entry of the history. MVRLU_OK: the seat is outside again, and `time` is that of the entry.
 * MVRLU_AGAIN: `time` is that of the entry that came first. `tag` is the caller's own, and may be NULL for zeros. */
static inline int32_t mvrlu_commit(mvrlu_seat *seat, const uint64_t tag[4], uint64_t *time) {
    static const uint64_t no_tag[4] = {0, 0, 0, 0};
    uint64_t unused = 0;
    MVRLU_ON(seat, mvrlu_raw_commit(&seat->raw, tag == NULL ? no_tag : tag, time == NULL ? &unused : time));
}

/* Gives up all that is locked, and leaves the section. The history has no entry of it. */
static inline int32_t mvrlu_abort(mvrlu_seat *seat) { MVRLU_ON(seat, mvrlu_raw_abort(&seat->raw)); }

/* Leaves a section that holds nothing. */
static inline int32_t mvrlu_leave(mvrlu_seat *seat) { MVRLU_ON(seat, mvrlu_raw_leave(&seat->raw)); }

/* ================================================================ sets ================================================================
 *
 * A domain of the sets has thirty of them, each with 32-bit keys, each key with a 64-bit value. Sets 0 to 9 are linked lists, 10 to
 * 19 hash tables of sixteen lists, 20 to 29 search trees. Each call is one section: it reads one state, and changes what it changes
 * by one commit, at the time that it tells. A block of 1 to 8 commands is one section too.
 *
 *     static mvrlu_sets sets[4];                                                         // zeroed memory is a closed seat
 *     mvrlu_sets_options options = MVRLU_SETS_OPTIONS_INIT;
 *     if (mvrlu_sets_open(&options, sets, 4) != MVRLU_OK) ...
 *     ... hand &sets[i] to thread i ...
 *     do status = mvrlu_sets_move(own, MVRLU_LIST(0), MVRLU_TREE(3), key, &reply);      // at no time in both sets, nor in none
 *     while (mvrlu_may_retry(status));
 *
 * No call tries again by itself: at MVRLU_AGAIN, MVRLU_BUSY, MVRLU_STALE and MVRLU_SHORT nothing was done, and the same call may be
 * made again (mvrlu_may_retry).
 *
 * What is proved of each call (docs/CONTRACTS.md): its status and its reply are those of a sequential catalogue of thirty maps in the
 * state just before the commit of the time that is told, which is one entry of the one history, or in the state of the time that it
 * read, where it changes nothing; a status that says that nothing was done made no entry.
 */

#define MVRLU_SETS_COUNT 30u
#define MVRLU_LIST(i) (0u + (i))  /* list 0 to 9 */
#define MVRLU_HASH(i) (10u + (i)) /* hash table 0 to 9 */
#define MVRLU_TREE(i) (20u + (i)) /* tree 0 to 9 */
#define MVRLU_SETS_OBJECTS_MIN 181u
#define MVRLU_SETS_OBJECTS_MAX 16777216u
#define MVRLU_BLOCK_MAX 8u

/* Of the objects 180 are the heads of the sets, and the others nodes: a key takes one, and in a tree one more for each key but the first. */
typedef struct mvrlu_sets_options {
    uint32_t size;    /* sizeof(mvrlu_sets_options) */
    uint32_t objects; /* MVRLU_SETS_OBJECTS_MIN to MVRLU_SETS_OBJECTS_MAX */
    uint32_t slots;   /* versions in the log of each seat, MVRLU_SLOTS_MIN to MVRLU_SLOTS_MAX */
    uint64_t opening_time; /* the time of the opening state, 0 to MVRLU_TIME_MAX */
} mvrlu_sets_options;
#define MVRLU_SETS_OPTIONS_INIT { sizeof(mvrlu_sets_options), 4096u, 1024u, 0u }

/* What a command came to, beside its status. A call that is refused below MVRLU_WORN, or at a closed seat, leaves it as it was. */
typedef struct mvrlu_reply {
    uint64_t value;     /* get: the value; next: the key; size: how many; pair: 1 where the first set has the key. At MVRLU_BUSY the
                           number of the seat that holds an object, at MVRLU_STALE and MVRLU_AGAIN the time of the entry that came
                           first. Else 0 */
    uint64_t time;      /* that of the commit, or of the state that was read; 0 where nothing was done */
    uint32_t committed; /* 1: the command is the commit of this time; 0: it read */
    uint32_t second;    /* pair: 1 where the second set has the key. Else 0 */
    int32_t status;     /* the command's status */
} mvrlu_reply;

/* A command of a block. */
typedef enum mvrlu_op { MVRLU_ADD = 1, MVRLU_DEL, MVRLU_MOVE, MVRLU_PUT, MVRLU_HAS, MVRLU_GET, MVRLU_PAIR, MVRLU_SIZE, MVRLU_NEXT } mvrlu_op;
typedef struct mvrlu_command {
    uint32_t op;    /* one of mvrlu_op */
    uint32_t set;   /* of a move the set that the key is taken out of */
    uint32_t other; /* of a move the set that it is put into, of a pair the second set; else it isn't read */
    uint32_t key;
    uint64_t value; /* of a put; else it isn't read */
} mvrlu_command;

/* A key of a set, with its value. */
typedef struct mvrlu_entry {
    uint32_t key;
    uint64_t value;
} mvrlu_entry;

/* What a walk over a set came to. */
typedef struct mvrlu_walk {
    uint64_t time;  /* that of the state of which all its entries are */
    uint64_t count; /* how many entries were written */
    uint32_t next;  /* the least key for which there was no room, from which a further walk goes on; 0 where there is none */
    uint32_t more;  /* 1 where there is such a key, else 0 */
} mvrlu_walk;

/* The counts of a seat's log. */
typedef struct mvrlu_counts {
    uint64_t commits; /* commits of the seat */
    uint64_t aborts;  /* sections that were given up while they held something */
    uint64_t back;    /* versions that were written back into their objects */
    uint64_t freed;   /* slots that were freed, in all */
    uint64_t rests;   /* entries of the seat that change nothing, made for room */
    uint64_t live;    /* slots that are live now */
} mvrlu_counts;

/* What the library owns of a seat of the sets. */
typedef struct mvrlu_sets_raw { uint8_t is_open; void *at; } mvrlu_sets_raw;
typedef struct mvrlu_sets { mvrlu_sets_raw raw; const void *self; uint32_t in_call; uint8_t apart[100]; } mvrlu_sets;

/* The calls of the library itself, which test neither null pointers nor a second thread: use the calls below. */
int32_t mvrlu_raw_sets_open(const mvrlu_sets_options *options, mvrlu_sets_raw sets[], size_t count);
int32_t mvrlu_raw_sets_close(mvrlu_sets_raw *sets, uint64_t *last);
int32_t mvrlu_raw_sets_tidy(mvrlu_sets_raw *sets, uint32_t *live);
int32_t mvrlu_raw_sets_counts(mvrlu_sets_raw *sets, mvrlu_counts *counts);
int32_t mvrlu_raw_sets_add(mvrlu_sets_raw *sets, uint32_t set, uint32_t key, mvrlu_reply *reply);
int32_t mvrlu_raw_sets_put(mvrlu_sets_raw *sets, uint32_t set, uint32_t key, uint64_t value, mvrlu_reply *reply);
int32_t mvrlu_raw_sets_del(mvrlu_sets_raw *sets, uint32_t set, uint32_t key, mvrlu_reply *reply);
int32_t mvrlu_raw_sets_has(mvrlu_sets_raw *sets, uint32_t set, uint32_t key, mvrlu_reply *reply);
int32_t mvrlu_raw_sets_get(mvrlu_sets_raw *sets, uint32_t set, uint32_t key, mvrlu_reply *reply);
int32_t mvrlu_raw_sets_next(mvrlu_sets_raw *sets, uint32_t set, uint32_t key, mvrlu_reply *reply);
int32_t mvrlu_raw_sets_size(mvrlu_sets_raw *sets, uint32_t set, mvrlu_reply *reply);
int32_t mvrlu_raw_sets_move(mvrlu_sets_raw *sets, uint32_t source, uint32_t target, uint32_t key, mvrlu_reply *reply);
int32_t mvrlu_raw_sets_pair(mvrlu_sets_raw *sets, uint32_t first, uint32_t second, uint32_t key, mvrlu_reply *reply);
int32_t mvrlu_raw_sets_block(mvrlu_sets_raw *sets, const mvrlu_command commands[], size_t count, mvrlu_reply replies[], size_t room);
int32_t mvrlu_raw_sets_walk(mvrlu_sets_raw *sets, uint32_t set, uint32_t from, mvrlu_entry entries[], size_t room, mvrlu_walk *walk);

/* Whether nothing was done, and the same call may go through when it is made again. */
static inline int mvrlu_may_retry(int32_t status) {
    return status == MVRLU_AGAIN || status == MVRLU_BUSY || status == MVRLU_STALE || status == MVRLU_SHORT;
}

/* Opens a domain of the thirty sets, all empty, with a seat for each of `sets`: all of them or none. Seat i has number i. Every seat
 * must be closed (zeroed memory). MVRLU_BAD_NUMBER, MVRLU_IN_USE, MVRLU_NO_MEMORY, MVRLU_NULL. */
static inline int32_t mvrlu_sets_open(const mvrlu_sets_options *options, mvrlu_sets sets[], size_t count) {
    MVRLU_OPEN(mvrlu_sets_raw, mvrlu_raw_sets_open, options, sets, count);
}

/* Closes a seat, and tells whether it was the last one of its domain, with the time of the last entry, as mvrlu_close_last does. */
static inline int32_t mvrlu_sets_close_last(mvrlu_sets *sets, uint64_t *last) {
    uint64_t unused = 0;
    MVRLU_ON(sets, mvrlu_raw_sets_close(&sets->raw, last == NULL ? &unused : last));
}

/* Closes a seat, and tells only that it is closed: MVRLU_OK. */
static inline int32_t mvrlu_sets_close(mvrlu_sets *sets) {
    int32_t status = mvrlu_sets_close_last(sets, NULL);
    return status == MVRLU_NO ? MVRLU_OK : status;
}

/* Reclaims what nobody reads any more of the seat's log. `live`: how many slots are live afterwards. */
static inline int32_t mvrlu_sets_tidy(mvrlu_sets *sets, uint32_t *live) {
    if (live == NULL) return MVRLU_NULL;
    MVRLU_ON(sets, mvrlu_raw_sets_tidy(&sets->raw, live));
}

/* Tells the counts of the seat's log. */
static inline int32_t mvrlu_sets_counts(mvrlu_sets *sets, mvrlu_counts *counts) {
    if (counts == NULL) return MVRLU_NULL;
    MVRLU_ON(sets, mvrlu_raw_sets_counts(&sets->raw, counts));
}

/* Makes a call that tells a reply, which may be NULL. */
#define MVRLU_REPLIES(sets, reply, call) \
    do { \
        mvrlu_reply unused_ = {0, 0, 0, 0, 0}; \
        mvrlu_reply *told_ = (reply) == NULL ? &unused_ : (reply); \
        MVRLU_ON(sets, call); \
    } while (0)

/* Puts the key into the set, with value 0. MVRLU_NO: the set has it already, with whatever value. MVRLU_FULL. */
static inline int32_t mvrlu_sets_add(mvrlu_sets *sets, uint32_t set, uint32_t key, mvrlu_reply *reply) {
    MVRLU_REPLIES(sets, reply, mvrlu_raw_sets_add(&sets->raw, set, key, told_));
}

/* Gives the key this value in the set, whether or not it is there. MVRLU_NO: it has this value already. MVRLU_FULL. */
static inline int32_t mvrlu_sets_put(mvrlu_sets *sets, uint32_t set, uint32_t key, uint64_t value, mvrlu_reply *reply) {
    MVRLU_REPLIES(sets, reply, mvrlu_raw_sets_put(&sets->raw, set, key, value, told_));
}

/* Takes the key out of the set. MVRLU_NO: it isn't there. */
static inline int32_t mvrlu_sets_del(mvrlu_sets *sets, uint32_t set, uint32_t key, mvrlu_reply *reply) {
    MVRLU_REPLIES(sets, reply, mvrlu_raw_sets_del(&sets->raw, set, key, told_));
}

/* Asks whether the set has the key: MVRLU_OK, or MVRLU_NO. */
static inline int32_t mvrlu_sets_has(mvrlu_sets *sets, uint32_t set, uint32_t key, mvrlu_reply *reply) {
    MVRLU_REPLIES(sets, reply, mvrlu_raw_sets_has(&sets->raw, set, key, told_));
}

/* Asks for the value of the key in the set. MVRLU_NO: it isn't there. */
static inline int32_t mvrlu_sets_get(mvrlu_sets *sets, uint32_t set, uint32_t key, mvrlu_reply *reply) {
    MVRLU_REPLIES(sets, reply, mvrlu_raw_sets_get(&sets->raw, set, key, told_));
}

/* Asks for the least key of the set that is not below `key`. MVRLU_NO: there is none. */
static inline int32_t mvrlu_sets_next(mvrlu_sets *sets, uint32_t set, uint32_t key, mvrlu_reply *reply) {
    MVRLU_REPLIES(sets, reply, mvrlu_raw_sets_next(&sets->raw, set, key, told_));
}

/* Asks how many keys the set has. */
static inline int32_t mvrlu_sets_size(mvrlu_sets *sets, uint32_t set, mvrlu_reply *reply) {
    MVRLU_REPLIES(sets, reply, mvrlu_raw_sets_size(&sets->raw, set, told_));
}

/* Takes the key out of `source` and puts it into `target`, with its value, by one commit. MVRLU_NO: the one lacks it, or the other has
 * it. MVRLU_FULL, MVRLU_SAME_SET. */
static inline int32_t mvrlu_sets_move(mvrlu_sets *sets, uint32_t source, uint32_t target, uint32_t key, mvrlu_reply *reply) {
    MVRLU_REPLIES(sets, reply, mvrlu_raw_sets_move(&sets->raw, source, target, key, told_));
}

/* Asks of each of two sets whether it has the key, in one state: `value` and `second` of the reply. */
static inline int32_t mvrlu_sets_pair(mvrlu_sets *sets, uint32_t first, uint32_t second, uint32_t key, mvrlu_reply *reply) {
    MVRLU_REPLIES(sets, reply, mvrlu_raw_sets_pair(&sets->raw, first, second, key, told_));
}

/* Does 1 to MVRLU_BLOCK_MAX commands as one, in their order: one commit, or one read where none of them changes anything. A size and
 * a next are alone. Each command has its reply, in `replies`, all with one time. MVRLU_FULL: one of them has no room, and nothing was
 * done; MVRLU_WORN likewise. It takes memory for the commands until it returns (MVRLU_NO_MEMORY). MVRLU_BAD_COMMAND, MVRLU_BAD_BLOCK. */
static inline int32_t mvrlu_sets_block(mvrlu_sets *sets, const mvrlu_command commands[], size_t count, mvrlu_reply replies[]) {
    if (commands == NULL || replies == NULL) return MVRLU_NULL;
    MVRLU_ON(sets, mvrlu_raw_sets_block(&sets->raw, commands, count, replies, count));
}

/* Walks over the set in one state: writes its entries whose key is not below `from`, in rising order, as many as there are or as there is
 * `room` for, and leaves the rest of the room as it was. `walk` tells their number, the time of the state, and the key for which there was
 * no room; a further walk from it is of a later state. No set has more than MVRLU_SETS_OBJECTS_MAX entries. It takes memory for `room`
 * entries until it returns. A status below MVRLU_OK leaves `entries` and `walk` as they were. MVRLU_BAD_SET, MVRLU_NO_MEMORY. */
static inline int32_t mvrlu_sets_walk(mvrlu_sets *sets, uint32_t set, uint32_t from, mvrlu_entry entries[], size_t room, mvrlu_walk *walk) {
    if (entries == NULL || walk == NULL) return MVRLU_NULL;
    MVRLU_ON(sets, mvrlu_raw_sets_walk(&sets->raw, set, from, entries, room, walk));
}

/* ============================================================ a growing table ============================================================
 *
 * A domain of a table has one set of 32-bit keys, a hash table that grows by one bucket at a time from 16 up to MVRLU_TABLE_BUCKETS_MAX of
 * them. Each call is one section, as with the sets, and tells the same reply. A key has no value.
 *
 *     static mvrlu_table table[4];                                                       // zeroed memory is a closed seat
 *     mvrlu_table_options options = MVRLU_TABLE_OPTIONS_INIT;
 *     if (mvrlu_table_open(&options, table, 4) != MVRLU_OK) ...
 *     ... hand &table[i] to thread i ...
 *     do status = mvrlu_table_add(own, key, &reply); while (mvrlu_may_retry(status));
 *     if (status == MVRLU_OK && ++added % 2 == 0) mvrlu_table_split(own, NULL);          // as many buckets as half the keys
 *
 * It grows where the caller splits: behind each second key that was added, as here, a bucket has two keys in the mean. A split that was given
 * up may be left to the next one.
 *
 * What is proved of each call (docs/CONTRACTS.md): its status and its reply are those of a sequential set in the state just before the commit of
 * the time that is told, or in the state of the time that it read; a split is one commit, which leaves the keys as they are and makes one bucket
 * more; a status that says that nothing was done made no entry.
 */

#define MVRLU_TABLE_BUCKETS_MAX 1048576u
#define MVRLU_TABLE_OBJECTS_MIN 1048578u
#define MVRLU_TABLE_OBJECTS_MAX 16777216u
#define MVRLU_TABLE_SLOTS_MIN 65u

/* Of the objects 1,048,577 are the table itself and the heads of its buckets, and the others nodes: a key takes one. */
typedef struct mvrlu_table_options {
    uint32_t size;    /* sizeof(mvrlu_table_options) */
    uint32_t objects; /* MVRLU_TABLE_OBJECTS_MIN to MVRLU_TABLE_OBJECTS_MAX */
    uint32_t slots;   /* versions in the log of each seat, MVRLU_TABLE_SLOTS_MIN to MVRLU_SLOTS_MAX; a split takes up to 64 */
    uint64_t opening_time; /* the time of the opening state, 0 to MVRLU_TIME_MAX */
} mvrlu_table_options;
#define MVRLU_TABLE_OPTIONS_INIT { sizeof(mvrlu_table_options), 2097152u, 1024u, 0u }

/* What the library owns of a seat of a table. */
typedef struct mvrlu_table_raw { uint8_t is_open; void *at; } mvrlu_table_raw;
typedef struct mvrlu_table { mvrlu_table_raw raw; const void *self; uint32_t in_call; uint8_t apart[100]; } mvrlu_table;

/* The calls of the library itself, which test neither null pointers nor a second thread: use the calls below. */
int32_t mvrlu_raw_table_open(const mvrlu_table_options *options, mvrlu_table_raw table[], size_t count);
int32_t mvrlu_raw_table_close(mvrlu_table_raw *table, uint64_t *last);
int32_t mvrlu_raw_table_tidy(mvrlu_table_raw *table, uint32_t *live);
int32_t mvrlu_raw_table_counts(mvrlu_table_raw *table, mvrlu_counts *counts);
int32_t mvrlu_raw_table_add(mvrlu_table_raw *table, uint32_t key, mvrlu_reply *reply);
int32_t mvrlu_raw_table_del(mvrlu_table_raw *table, uint32_t key, mvrlu_reply *reply);
int32_t mvrlu_raw_table_has(mvrlu_table_raw *table, uint32_t key, mvrlu_reply *reply);
int32_t mvrlu_raw_table_next(mvrlu_table_raw *table, uint32_t key, mvrlu_reply *reply);
int32_t mvrlu_raw_table_size(mvrlu_table_raw *table, mvrlu_reply *reply);
int32_t mvrlu_raw_table_split(mvrlu_table_raw *table, mvrlu_reply *reply);

/* Opens a domain of an empty table of 16 buckets, with a seat for each of `table`: all of them or none. Seat i has number i. Every seat
 * must be closed (zeroed memory). MVRLU_BAD_NUMBER, MVRLU_IN_USE, MVRLU_NO_MEMORY, MVRLU_NULL. */
static inline int32_t mvrlu_table_open(const mvrlu_table_options *options, mvrlu_table table[], size_t count) {
    MVRLU_OPEN(mvrlu_table_raw, mvrlu_raw_table_open, options, table, count);
}

/* Closes a seat, and tells whether it was the last one of its domain, with the time of the last entry, as mvrlu_close_last does. */
static inline int32_t mvrlu_table_close_last(mvrlu_table *table, uint64_t *last) {
    uint64_t unused = 0;
    MVRLU_ON(table, mvrlu_raw_table_close(&table->raw, last == NULL ? &unused : last));
}

/* Closes a seat, and tells only that it is closed: MVRLU_OK. */
static inline int32_t mvrlu_table_close(mvrlu_table *table) {
    int32_t status = mvrlu_table_close_last(table, NULL);
    return status == MVRLU_NO ? MVRLU_OK : status;
}

/* Reclaims what nobody reads any more of the seat's log. `live`: how many slots are live afterwards. */
static inline int32_t mvrlu_table_tidy(mvrlu_table *table, uint32_t *live) {
    if (live == NULL) return MVRLU_NULL;
    MVRLU_ON(table, mvrlu_raw_table_tidy(&table->raw, live));
}

/* Tells the counts of the seat's log. */
static inline int32_t mvrlu_table_counts(mvrlu_table *table, mvrlu_counts *counts) {
    if (counts == NULL) return MVRLU_NULL;
    MVRLU_ON(table, mvrlu_raw_table_counts(&table->raw, counts));
}

/* Puts the key into the table. MVRLU_NO: it has it already. MVRLU_FULL: no node is left. */
static inline int32_t mvrlu_table_add(mvrlu_table *table, uint32_t key, mvrlu_reply *reply) {
    MVRLU_REPLIES(table, reply, mvrlu_raw_table_add(&table->raw, key, told_));
}

/* Takes the key out of the table. MVRLU_NO: it isn't there. */
static inline int32_t mvrlu_table_del(mvrlu_table *table, uint32_t key, mvrlu_reply *reply) {
    MVRLU_REPLIES(table, reply, mvrlu_raw_table_del(&table->raw, key, told_));
}

/* Asks whether the table has the key: MVRLU_OK, or MVRLU_NO. */
static inline int32_t mvrlu_table_has(mvrlu_table *table, uint32_t key, mvrlu_reply *reply) {
    MVRLU_REPLIES(table, reply, mvrlu_raw_table_has(&table->raw, key, told_));
}

/* Asks for the least key of the table that is not below `key`. MVRLU_NO: there is none. It searches every bucket. */
static inline int32_t mvrlu_table_next(mvrlu_table *table, uint32_t key, mvrlu_reply *reply) {
    MVRLU_REPLIES(table, reply, mvrlu_raw_table_next(&table->raw, key, told_));
}

/* Asks how many keys the table has. It reads every one of them. */
static inline int32_t mvrlu_table_size(mvrlu_table *table, mvrlu_reply *reply) {
    MVRLU_REPLIES(table, reply, mvrlu_raw_table_size(&table->raw, told_));
}

/* Tries to split the bucket that is next, by one commit, which leaves the keys as they are: there is one bucket more then. MVRLU_NO, with no time
 * told: there are MVRLU_TABLE_BUCKETS_MAX buckets, and `value` is 0; or the bucket has more than 61 keys, which one commit can't write, and
 * `value` is their number. It can be split once keys of it were taken out. */
static inline int32_t mvrlu_table_split(mvrlu_table *table, mvrlu_reply *reply) {
    MVRLU_REPLIES(table, reply, mvrlu_raw_table_split(&table->raw, told_));
}

static inline const char *mvrlu_strerror(int32_t status) {
    switch (status) {
        case MVRLU_OK: return "done";
        case MVRLU_NO: return "nothing to change, or nothing of what was asked for";
        case MVRLU_AGAIN: return "another entry came first: make the call again";
        case MVRLU_BUSY: return "another seat holds an object";
        case MVRLU_STALE: return "an object was written after the section began";
        case MVRLU_SHORT: return "too little room in the seat's log";
        case MVRLU_LOG_FULL: return "the seat's log has no free slot";
        case MVRLU_FULL: return "no room for what is to be added";
        case MVRLU_BAD_SET: return "no such set";
        case MVRLU_SAME_SET: return "a move from a set into itself";
        case MVRLU_WORN: return "the last time was reached";
        case MVRLU_CLOSED: return "the seat is closed";
        case MVRLU_IN_USE: return "the seat is in use";
        case MVRLU_BAD_NUMBER: return "a number is out of its range";
        case MVRLU_NO_MEMORY: return "too little memory";
        case MVRLU_NULL: return "a null pointer";
        case MVRLU_MOVED: return "the seat was copied elsewhere";
        case MVRLU_OUTSIDE: return "the seat is not in a section";
        case MVRLU_INSIDE: return "the seat is in a section";
        case MVRLU_BAD_OBJECT: return "no such object";
        case MVRLU_NOT_LOCKED: return "the section does not hold the object";
        case MVRLU_EMPTY: return "the section holds nothing";
        case MVRLU_HOLDING: return "the section holds something";
        case MVRLU_SET_FULL: return "the section holds write_max objects";
        case MVRLU_BAD_PLACE: return "no pair begins at this place";
        case MVRLU_BAD_COMMAND: return "no such command";
        case MVRLU_BAD_BLOCK: return "not 1 to 8 commands, or a size or a next among several";
        default: return "not a status of mvrlu";
    }
}

#undef MVRLU_ON
#undef MVRLU_OPEN
#undef MVRLU_REPLIES
#ifdef __cplusplus
}
#endif
#endif
