/* Runs one row on one store: threads that begin together, do operations until they are stopped, and use each reply. */
#pragma once
#include "stores.hpp"

#include <algorithm>
#include <atomic>
#include <chrono>
#include <numeric>
#include <random>
#include <thread>
#include <vector>

namespace bench {

/* A xorshift generator, the same for all stores. */
class draws {
public:
    explicit draws(unsigned thread) : state_(0x9e3779b97f4a7c15ull * (thread + 1)) {}

    std::uint32_t below(std::uint32_t limit) {
        state_ ^= state_ << 13;
        state_ ^= state_ >> 7;
        state_ ^= state_ << 17;
        return static_cast<std::uint32_t>((state_ >> 32) * limit >> 32);
    }

private:
    std::uint64_t state_;
};

/* What a thread did, on lines of its own. `replies` is the sum of what reads found, so that none is dropped. */
struct alignas(128) tally {
    std::uint64_t done = 0, yes = 0, replies = 0;
};

/* The keys of both sets, in an order of their own: the first half is for the first set. */
inline std::vector<std::uint32_t> keys_of(const row &row) {
    std::vector<std::uint32_t> keys(2 * row.size);
    std::iota(keys.begin(), keys.end(), 0);
    std::shuffle(keys.begin(), keys.end(), std::mt19937(7));
    return keys;
}

/* One operation on objects. */
template <class User>
void step_objects(User &user, const row &row, draws &random, tally &tally) {
    if (row.size == 0) {
        std::uint32_t from = random.below(object_count), to = (from + 1 + random.below(object_count - 1)) % object_count;
        user.transfer(from, to);
        tally.yes++;
        return;
    }
    std::uint32_t which[100];
    for (unsigned i = 0; i < row.size; i++) which[i] = random.below(object_count);
    tally.replies += user.sum(which, row.size);
    tally.yes++;
}

/* One operation on sets. */
template <class User>
void step_sets(User &user, const row &row, draws &random, tally &tally) {
    std::uint32_t key = random.below(2 * row.size), chance = random.below(100);
    bool first = random.below(2) == 0, yes;
    if (chance < row.moves) yes = user.move(key, first);
    else if (chance < row.moves + row.changes) yes = first ? user.add(key) : user.del(key);
    else yes = user.has(key);
    tally.yes += yes;
}

/* Runs a step in so many threads, each of which has a user of the store, for so many seconds. */
template <class Store, class Step>
outcome measure(Store &store, unsigned threads, double seconds, const Step &step) {
    using clock = std::chrono::steady_clock;
    std::vector<tally> tallies(threads);
    std::vector<std::thread> workers;
    std::atomic<unsigned> ready{0};
    std::atomic<bool> go{false}, stop{false};
    for (unsigned thread = 0; thread < threads; thread++)
        workers.emplace_back([&, thread] {
            typename Store::user user(store, thread);
            draws random(thread);
            tally own;
            ready++;
            while (!go.load(std::memory_order_acquire)) std::this_thread::yield();
            for (; !stop.load(std::memory_order_relaxed); own.done++) step(user, random, own);
            tallies[thread] = own;
        });
    while (ready < threads) std::this_thread::yield();
    clock::time_point begin = clock::now();
    go = true;
    std::this_thread::sleep_for(std::chrono::duration<double>(seconds));
    stop = true;
    double took = std::chrono::duration<double>(clock::now() - begin).count();
    for (std::thread &worker : workers) worker.join();
    tally all;
    for (const tally &own : tallies) all.done += own.done, all.yes += own.yes, all.replies += own.replies;
    static std::atomic<std::uint64_t> used;
    used += all.replies;
    double count = static_cast<double>(all.done);
    return {count / took / 1e6, all.done == 0 ? 0 : static_cast<double>(all.yes) / count, count};
}

/* Runs a row on a store of objects and a store of sets. Both are filled by a thread that ends, since some stores go on otherwise once
 * more than one thread has used them. */
template <class Objects, class Sets>
outcome run(const row &row, unsigned threads, double seconds) {
    if (row.kind == kind::objects) {
        Objects store(threads);
        return measure(store, threads, seconds, [&](auto &user, draws &random, tally &own) { step_objects(user, row, random, own); });
    }
    Sets store(row, threads);
    std::thread([&] {
        typename Sets::user user(store, 0);
        std::vector<std::uint32_t> keys = keys_of(row);
        for (std::uint32_t key : keys) user.add(key);
        for (unsigned i = row.size; i < keys.size(); i++) user.move(keys[i], true);
    }).join();
    return measure(store, threads, seconds, [&](auto &user, draws &random, tally &own) { step_sets(user, row, random, own); });
}

} // namespace bench
