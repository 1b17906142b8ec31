/* What is measured: rows, each of so many operations on objects or on sets, and stores, each of which runs those rows that fit it. */
#pragma once
#include <cstdint>
#include <string>

namespace bench {

enum class kind { objects, list, tree, table };

/* One row. Of objects: `size` objects are read in one section, or, where it is 0, an amount is moved between two. Of sets: there are
 * two of `size` keys each out of twice as many; of a hundred operations so many add or take out a key of the first, so many move one
 * from one to the other, and all others ask whether one is in the first. */
struct row {
    bench::kind kind;
    unsigned size, changes, moves;
};

/* How many objects there are. */
constexpr std::uint32_t object_count = 1024;

/* Whether the sets of a row have no more keys than all stores hold. */
inline bool is_small(const row &row) { return row.size <= 1000; }

/* Millions of operations a second, of all threads together; the share of those that were answered yes; and how many there were. */
struct outcome {
    double rate, yes, count;
};

/* A way to keep objects and sets that threads share. */
struct store {
    const char *name;
    bool (*fits)(const row &);
    outcome (*run)(const row &, unsigned threads, double seconds);
};

/* The library, by its header as it is, and with MVRLU_UNCHECKED. */
extern const store mvrlu_store, mvrlu_unchecked_store;
/* Its table that grows, for the rows of many keys with no move. */
extern const store grown_store;
/* An array and std::map under one pthread_rwlock_t. */
extern const store locked_store;
/* std::unordered_map under one pthread_rwlock_t, for the rows of many keys. */
extern const store hashed_store;
/* Lists, trees and tables in GCC's transactional memory. */
extern const store itm_store;
/* Userspace RCU with a mutex for writers: objects by pointers, rculists, and the library's own hash table. */
extern const store urcu_store;
/* LMDB, never flushed, for read transactions. */
extern const store lmdb_store;

} // namespace bench
