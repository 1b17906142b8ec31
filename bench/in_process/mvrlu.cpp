/* The library: built once as the header is, and once with MVRLU_UNCHECKED. */
#include "measure.hpp"

#include <cstdio>
#include <cstdlib>
#include <mvrlu.h>

namespace {

void must(std::int32_t status, const char *call) {
    if (status == MVRLU_OK) return;
    std::fprintf(stderr, "bench/library: %s: %s\n", call, mvrlu_strerror(status));
    std::exit(1);
}

/* Whether a call on a set had something to do. */
bool answer(std::int32_t status, const char *call) {
    if (status != MVRLU_NO) must(status, call);
    return status == MVRLU_OK;
}

/* The same of a change, which is made again as long as others come first. */
template <class Call>
bool retry(const Call &call, const char *name) {
    std::int32_t status;
    while (mvrlu_may_retry(status = call())) std::this_thread::yield();
    return answer(status, name);
}

struct objects {
    explicit objects(unsigned threads) : seats(threads) {
        mvrlu_options options = MVRLU_OPTIONS_INIT;
        options.objects = bench::object_count;
        must(mvrlu_open(&options, seats.data(), threads), "mvrlu_open");
    }
    ~objects() {
        for (mvrlu_seat &one : seats) must(mvrlu_close(&one), "mvrlu_close");
    }

    struct user {
        user(objects &store, unsigned thread) : seat(&store.seats[thread]) {}
        std::uint64_t sum(const std::uint32_t which[], unsigned count) {
            std::uint64_t all = 0, words[MVRLU_WORDS];
            must(mvrlu_enter(seat), "mvrlu_enter");
            for (unsigned i = 0; i < count; i++) {
                must(mvrlu_read(seat, which[i], words), "mvrlu_read");
                for (std::uint64_t word : words) all += word;
            }
            must(mvrlu_leave(seat), "mvrlu_leave");
            return all;
        }
        void transfer(std::uint32_t from, std::uint32_t to) {
            while (!tried(from, to)) std::this_thread::yield();
        }
        bool tried(std::uint32_t from, std::uint32_t to) {
            std::uint64_t giver[MVRLU_WORDS], taker[MVRLU_WORDS];
            if (mvrlu_prepare(seat) != MVRLU_OK) return false;
            must(mvrlu_enter(seat), "mvrlu_enter");
            if (mvrlu_lock(seat, from, nullptr) == MVRLU_OK && mvrlu_lock(seat, to, nullptr) == MVRLU_OK) {
                must(mvrlu_read(seat, from, giver), "mvrlu_read");
                must(mvrlu_read(seat, to, taker), "mvrlu_read");
                giver[0]--, taker[0]++;
                must(mvrlu_write(seat, from, giver), "mvrlu_write");
                must(mvrlu_write(seat, to, taker), "mvrlu_write");
                std::int32_t status;
                while ((status = mvrlu_commit(seat, nullptr, nullptr)) == MVRLU_AGAIN) { }
                if (status == MVRLU_OK) return true;
            }
            must(mvrlu_abort(seat), "mvrlu_abort");
            return false;
        }
        mvrlu_seat *seat;
    };

    std::vector<mvrlu_seat> seats;
};

struct sets {
    sets(const bench::row &row, unsigned threads) : seats(threads) {
        mvrlu_sets_options options = MVRLU_SETS_OPTIONS_INIT;
        options.objects = 8192 + (bench::is_small(row) ? 0 : 4 * row.size);
        must(mvrlu_sets_open(&options, seats.data(), threads), "mvrlu_sets_open");
        for (unsigned i = 0; i < 2; i++) {
            if (row.kind == bench::kind::list) both[i] = MVRLU_LIST(i);
            else both[i] = row.kind == bench::kind::tree ? MVRLU_TREE(i) : MVRLU_HASH(i);
        }
    }
    ~sets() {
        for (mvrlu_sets &one : seats) must(mvrlu_sets_close(&one), "mvrlu_sets_close");
    }

    struct user {
        user(sets &store, unsigned thread) : seat(&store.seats[thread]), both(store.both) {}
        bool has(std::uint32_t key) { return answer(mvrlu_sets_has(seat, both[0], key, &reply), "mvrlu_sets_has"); }
        bool add(std::uint32_t key) {
            return retry([&] { return mvrlu_sets_add(seat, both[0], key, &reply); }, "mvrlu_sets_add");
        }
        bool del(std::uint32_t key) {
            return retry([&] { return mvrlu_sets_del(seat, both[0], key, &reply); }, "mvrlu_sets_del");
        }
        bool move(std::uint32_t key, bool first) {
            return retry([&] { return mvrlu_sets_move(seat, both[first ? 0 : 1], both[first ? 1 : 0], key, &reply); }, "mvrlu_sets_move");
        }
        mvrlu_sets *seat;
        const std::uint32_t *both;
        mvrlu_reply reply;
    };

    std::vector<mvrlu_sets> seats;
    std::uint32_t both[2];
};

#ifndef MVRLU_UNCHECKED
/* One table that grows, for rows with no move: what is put into the second set is taken out. */
struct table {
    table(const bench::row &row, unsigned threads) : seats(threads) {
        mvrlu_table_options options = MVRLU_TABLE_OPTIONS_INIT;
        options.objects = MVRLU_TABLE_BUCKETS_MAX + 1 + 4 * row.size;
        must(mvrlu_table_open(&options, seats.data(), threads), "mvrlu_table_open");
    }
    ~table() {
        for (mvrlu_table &one : seats) must(mvrlu_table_close(&one), "mvrlu_table_close");
    }

    struct user {
        user(table &store, unsigned thread) : seat(&store.seats[thread]) {}
        bool has(std::uint32_t key) { return answer(mvrlu_table_has(seat, key, &reply), "mvrlu_table_has"); }
        bool add(std::uint32_t key) {
            bool added = retry([&] { return mvrlu_table_add(seat, key, &reply); }, "mvrlu_table_add");
            if (added && ++adds % 2 == 0) mvrlu_table_split(seat, nullptr);
            return added;
        }
        bool del(std::uint32_t key) {
            return retry([&] { return mvrlu_table_del(seat, key, &reply); }, "mvrlu_table_del");
        }
        bool move(std::uint32_t key, bool) { return del(key); }
        mvrlu_table *seat;
        std::uint64_t adds = 0;
        mvrlu_reply reply;
    };

    std::vector<mvrlu_table> seats;
};
#endif

} // namespace

#ifdef MVRLU_UNCHECKED
const bench::store bench::mvrlu_unchecked_store = {"mvrlu, unchecked", [](const row &) { return true; }, run<objects, sets>};
#else
const bench::store bench::mvrlu_store = {"mvrlu", [](const row &) { return true; }, run<objects, sets>};
const bench::store bench::grown_store = {"mvrlu, growing", [](const row &row) { return !is_small(row) && row.moves == 0; },
                                         run<objects, table>};
#endif
