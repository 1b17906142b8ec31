/* mvrlu_table.hpp: the growing table of mvrlu.h for C++17, with seats that close themselves and tries that are bounded.
 *
 *     std::vector<mvrlu::growing_table> seats = mvrlu::open_table({2097152, 1024}, 4);   // one for each thread
 *     if (seats[0].add(17) == mvrlu::reply::yes && ++added % 2 == 0) seats[0].split();    // as many buckets as half the keys
 *     if (seats[1].has(17)) ...                                                           // in the state of seats[1].last().at
 *     std::optional<std::uint32_t> least = seats[1].next(0);
 *
 * It grows where the caller splits: behind each second key that was added, as here, a bucket has two keys in the mean. What a call may come to
 * is a value. A call that may not be made so, or can't be, did nothing, and its status is thrown as mvrlu::error. What mvrlu.h says of threads
 * holds here too.
 */
#ifndef MVRLU_TABLE_HPP
#define MVRLU_TABLE_HPP
#include <mvrlu_replies.hpp>

namespace mvrlu {

/* What a split came to. reply::yes: there is one bucket more. reply::no: the bucket that is next has so many keys, more than 61, which one
 * commit can't write; it can be split once keys of it were taken out. Without their number: there are MVRLU_TABLE_BUCKETS_MAX buckets. */
struct split {
    mvrlu::reply reply = reply::no;
    std::optional<std::uint64_t> keys;
};

namespace detail {

inline constexpr part<mvrlu_table, mvrlu_table_options> of_table = {
    {"mvrlu_table_open", mvrlu_table_open}, {"mvrlu_table_close_last", mvrlu_table_close_last},
    {"mvrlu_table_tidy", mvrlu_table_tidy}, {"mvrlu_table_counts", mvrlu_table_counts}};

} // namespace detail

/* A seat of a domain of one hash table that grows, for one thread at a time, which closes itself, moves, and is not copied. Each call
 * throws errc::closed where it is closed. A key has no value. */
class growing_table : public detail::replying<mvrlu_table, mvrlu_table_options, detail::of_table> {
public:
    /* Whether a key is there. */
    [[nodiscard]] bool has(std::uint32_t key) { return read("mvrlu_table_has", mvrlu_table_has, key); }

    /* The least key that isn't below this one. It searches every bucket. */
    [[nodiscard]] std::optional<std::uint32_t> next(std::uint32_t key) {
        if (!read("mvrlu_table_next", mvrlu_table_next, key)) return {};
        return static_cast<std::uint32_t>(told_.value);
    }

    /* How many keys there are. It reads every one of them. */
    [[nodiscard]] std::uint64_t size() {
        read("mvrlu_table_size", mvrlu_table_size);
        return told_.value;
    }

    /* Adds a key. It is tried at most `limit` times, and the thread yields between two; reply::no: the key is there. */
    [[nodiscard]] mvrlu::reply add(std::uint32_t key, unsigned limit = tries) { return change(limit, "mvrlu_table_add", mvrlu_table_add, key); }

    /* Takes a key out, tried likewise. reply::no: it isn't there. */
    [[nodiscard]] mvrlu::reply del(std::uint32_t key, unsigned limit = tries) { return change(limit, "mvrlu_table_del", mvrlu_table_del, key); }

    /* Splits the bucket that is next, by one commit, which leaves the keys as they are. It is tried at most `limit` times; once where
     * nothing else is said, as one that was given up may be left to the next. One that made no commit has no place that `last` tells. */
    mvrlu::split split(unsigned limit = 1) {
        mvrlu_reply told{};
        mvrlu::split came;
        came.reply = attempt(limit, told, "mvrlu_table_split", mvrlu_table_split);
        if (came.reply == mvrlu::reply::yes) told_ = told;
        if (came.reply == mvrlu::reply::no && told.value != 0) came.keys = told.value;
        return came;
    }

private:
    friend std::vector<growing_table> open_table(const struct table_options &options, std::size_t count);
};

/* What a domain of a table is opened with. */
struct table_options {
    std::uint32_t objects = 2097152; /* MVRLU_TABLE_OBJECTS_MIN to MVRLU_TABLE_OBJECTS_MAX: 1,048,577 for the table, and a node for each key */
    std::uint32_t slots = 1024;      /* versions in the log of each seat, MVRLU_TABLE_SLOTS_MIN to MVRLU_SLOTS_MAX */
    time opening_time = 0;           /* the time of the opening state, 0 to MVRLU_TIME_MAX */
};

/* Opens a domain of an empty table of 16 buckets, with 1 to MVRLU_SEATS_MAX seats. Throws errc::bad_number, errc::no_memory and
 * std::bad_alloc, and then nothing is open. */
[[nodiscard]] inline std::vector<growing_table> open_table(const table_options &options, std::size_t count) {
    return growing_table::open<growing_table>(options, count);
}

} // namespace mvrlu
#endif
