/* What mvrlu_table.hpp adds to the calls of mvrlu.h. Prints how many answers were asked for, and ends with 1 at the first wrong one. */
#include <mvrlu_table.hpp>

#include "want.hpp"

#include <algorithm>
#include <atomic>
#include <cstdio>
#include <thread>
#include <type_traits>
#include <utility>
#include <vector>

namespace {

using mvrlu::reply;

constexpr std::uint32_t HEADS = MVRLU_TABLE_OBJECTS_MIN - 1, KEY_MAX = 0xffffffffu;

static_assert(!std::is_copy_constructible_v<mvrlu::growing_table> && !std::is_copy_assignable_v<mvrlu::growing_table>);
static_assert(std::is_nothrow_move_constructible_v<mvrlu::growing_table> && std::is_nothrow_move_assignable_v<mvrlu::growing_table>);

/* A domain with so many nodes. */
std::vector<mvrlu::growing_table> open_nodes(std::uint32_t nodes, std::size_t count = 1) {
    return mvrlu::open_table({HEADS + nodes, 1024}, count);
}

/* Whether the last call is at this time, and a commit or not. */
bool is_at(const mvrlu::growing_table &seat, mvrlu::time at, bool committed) {
    return seat.last().at == at && seat.last().committed == committed;
}

/* That each call but `close` throws this. */
void all_throw(mvrlu::growing_table &seat, mvrlu::errc why) {
    WANT_THROWN(seat.has(1), why);
    WANT_THROWN(seat.next(1), why);
    WANT_THROWN(seat.size(), why);
    WANT_THROWN(seat.add(1), why);
    WANT_THROWN(seat.del(1), why);
    WANT_THROWN(seat.split(), why);
    WANT_THROWN(seat.tidy(), why);
    WANT_THROWN(seat.count(), why);
}

void numbers_out_of_range() {
    const auto bad = mvrlu::errc::bad_number;
    WANT_THROWN(mvrlu::open_table({}, 0), bad);
    WANT_THROWN(mvrlu::open_table({}, MVRLU_SEATS_MAX + 1), bad);
    WANT_THROWN(mvrlu::open_table({0}, 1), bad);
    WANT_THROWN(open_nodes(0), bad);
    WANT_THROWN(mvrlu::open_table({MVRLU_TABLE_OBJECTS_MAX + 1}, 1), bad);
    WANT_THROWN(mvrlu::open_table({MVRLU_TABLE_OBJECTS_MIN, MVRLU_TABLE_SLOTS_MIN - 1}, 1), bad);
    WANT_THROWN(mvrlu::open_table({MVRLU_TABLE_OBJECTS_MIN, MVRLU_SLOTS_MAX + 1}, 1), bad);
    WANT_THROWN(mvrlu::open_table({MVRLU_TABLE_OBJECTS_MIN, 1024, MVRLU_TIME_MAX + 1}, 1), bad);
    auto seats = mvrlu::open_table({MVRLU_TABLE_OBJECTS_MIN, MVRLU_TABLE_SLOTS_MIN}, MVRLU_SEATS_MAX);
    WANT(seats.size() == MVRLU_SEATS_MAX);
    for (auto &seat : seats) WANT(reinterpret_cast<std::uintptr_t>(seat.handle()) % 128 == 0);
}

void seats_move_and_close() {
    auto seats = open_nodes(8, 2);
    WANT(seats[0].add(5) == reply::yes);
    mvrlu::growing_table other = std::move(seats[0]);
    WANT(other.is_open() && !seats[0].is_open() && seats[0].handle() == nullptr);
    WANT(is_at(other, 1, true) && other.has(5) && is_at(other, 1, false));
    all_throw(seats[0], mvrlu::errc::closed);
    WANT(!seats[0].close());
    mvrlu::growing_table never;
    all_throw(never, mvrlu::errc::closed);
    other = std::move(seats[1]);
    WANT(other.is_open() && other.has(5));
    WANT(other.close() == mvrlu::time{1}); /* the other one was closed when it was assigned to */
    WANT(!other.close() && !other.is_open());
    all_throw(other, mvrlu::errc::closed);
}

void a_seat_in_a_call() {
    auto seats = open_nodes(8);
    seats[0].handle()->in_call = 1;
    all_throw(seats[0], mvrlu::errc::in_use);
    seats[0].handle()->in_call = 0;
    WANT(seats[0].size() == 0 && is_at(seats[0], 0, false));
}

/* Each call, with its reply and its place. */
void calls() {
    auto seats = mvrlu::open_table({MVRLU_TABLE_OBJECTS_MIN + 8, 1024, 100}, 2);
    mvrlu::growing_table &first = seats[0], &second = seats[1];
    WANT(!first.has(5) && is_at(first, 100, false));
    WANT(first.del(5) == reply::no && is_at(first, 100, false));
    WANT(!first.next(0) && first.size() == 0 && is_at(first, 100, false));
    WANT(first.add(5) == reply::yes && is_at(first, 101, true));
    WANT(first.add(5) == reply::no && is_at(first, 101, false));
    WANT(second.add(KEY_MAX) == reply::yes && is_at(second, 102, true));
    WANT(first.add(0) == reply::yes && first.has(0) && first.has(KEY_MAX) && is_at(first, 103, false));
    WANT(first.next(0) == 0u && first.next(1) == 5u && first.next(6) == KEY_MAX && first.size() == 3);
    WANT(first.split().reply == reply::yes && is_at(first, 104, true));
    mvrlu::split made = second.split();
    WANT(made.reply == reply::yes && !made.keys && is_at(second, 105, true));
    WANT(first.size() == 3 && is_at(first, 105, false) && first.has(5) && first.has(KEY_MAX));
    WANT(first.del(KEY_MAX) == reply::yes && is_at(first, 106, true));
    WANT(first.del(KEY_MAX) == reply::no && !second.has(KEY_MAX) && !second.next(6));
    WANT(first.count().commits == 4 && second.count().commits == 2 && first.tidy() == 0);
    WANT(!first.close());
    std::optional<mvrlu::time> last = second.close();
    WANT(last && *last >= 106);
}

void tries_are_bounded() {
    auto seats = open_nodes(8);
    WANT(seats[0].add(1) == reply::yes);
    WANT(seats[0].add(2, 0) == reply::again && seats[0].del(1, 0) == reply::again && seats[0].split(0).reply == reply::again);
    WANT(is_at(seats[0], 1, true) && seats[0].size() == 1 && seats[0].has(1));
    WANT(seats[0].add(2, 1) == reply::yes && seats[0].del(1, 1) == reply::yes && seats[0].split(1).reply == reply::yes);
    WANT(is_at(seats[0], 4, true));
}

void a_full_table() {
    auto seats = open_nodes(1);
    WANT(seats[0].add(1) == reply::yes);
    WANT(seats[0].add(2) == reply::full && is_at(seats[0], 1, false));
    WANT(seats[0].del(1) == reply::yes && seats[0].add(2) == reply::yes && seats[0].has(2) && !seats[0].has(1));
}

void a_worn_domain() {
    auto seats = mvrlu::open_table({MVRLU_TABLE_OBJECTS_MIN + 1, 1024, MVRLU_TIME_MAX - 1}, 1);
    WANT(seats[0].add(1) == reply::yes && is_at(seats[0], MVRLU_TIME_MAX, true));
    WANT(seats[0].split().reply == reply::worn && is_at(seats[0], MVRLU_TIME_MAX, true)); /* the place is that of the add still */
    WANT(seats[0].del(1) == reply::worn && seats[0].add(2) == reply::worn && is_at(seats[0], MVRLU_TIME_MAX, false));
    WANT(seats[0].add(1) == reply::no && seats[0].has(1));
    WANT(seats[0].close() == mvrlu::time{MVRLU_TIME_MAX});
}

/* Without splits a bucket gets more keys than a split can write, until some are taken out. */
void a_long_bucket() {
    constexpr std::uint32_t KEYS = 1600;
    auto seats = open_nodes(KEYS);
    mvrlu::growing_table &seat = seats[0];
    for (std::uint32_t key = 0; key < KEYS; key++) WANT(seat.add(key) == reply::yes);
    mvrlu::place before = seat.last();
    mvrlu::split came = seat.split();
    WANT(came.reply == reply::no && came.keys > 61u && came.keys < KEYS && is_at(seat, before.at, true));
    std::uint64_t least = *came.keys;
    std::uint32_t key = 0;
    for (; came.reply == reply::no; key++) {
        WANT(seat.del(key) == reply::yes);
        came = seat.split(mvrlu::tries);
        if (came.keys) least = std::min(least, *came.keys);
    }
    WANT(came.reply == reply::yes && !came.keys && least == 62 && seat.size() == KEYS - key);
}

/* Behind its last bucket no bucket is left to be split, and no number of keys is told. */
void a_whole_table() {
    auto seats = open_nodes(1);
    WANT(seats[0].add(9) == reply::yes);
    mvrlu::split came = seats[0].split();
    std::uint64_t splits = 0;
    for (; came.reply != reply::no && splits < MVRLU_TABLE_BUCKETS_MAX; came = seats[0].split()) splits += came.reply == reply::yes;
    WANT(splits == MVRLU_TABLE_BUCKETS_MAX - 16 && !came.keys && seats[0].last().committed);
    WANT(seats[0].has(9) && seats[0].size() == 1);
}

enum : std::uint32_t { CHANGERS = 4, ASKERS = 2, KEYS = 3000, STAYING = 100 };

/* Adds keys of its own, splits behind each second one, and takes each third one out again. Counts what is other than it should. */
void change(mvrlu::growing_table &seat, std::uint32_t number, std::uint64_t &wrong, std::uint64_t &splits) {
    mvrlu::time last = 0;
    auto make = [&](reply came) {
        wrong += came != reply::yes || !seat.last().committed || seat.last().at <= last;
        last = seat.last().at;
    };
    for (std::uint32_t i = 0; i < KEYS; i++) {
        std::uint32_t key = STAYING + i * CHANGERS + number;
        make(seat.add(key, 1000000));
        if (i % 2 == 1 && seat.split().reply == reply::yes) {
            splits++;
            make(reply::yes);
        }
        if (i % 3 != 2) continue;
        wrong += !seat.has(key);
        make(seat.del(key, 1000000));
        wrong += seat.has(key);
    }
}

/* Looks for keys that stay, until the changers have ended: each is there, at a time that is none before an earlier one. */
void ask(mvrlu::growing_table &seat, const std::atomic<bool> &ended, std::uint64_t &wrong, std::uint64_t &asks) {
    mvrlu::time last = 0;
    do {
        wrong += !seat.has(static_cast<std::uint32_t>(asks % STAYING)) || seat.last().committed || seat.last().at < last;
        last = seat.last().at;
        asks++;
    } while (!ended);
}

void threads_share_a_table() {
    auto seats = open_nodes(2 * CHANGERS * KEYS, CHANGERS + ASKERS);
    for (std::uint32_t key = 0; key < STAYING; key++) WANT(seats[0].add(key) == reply::yes);
    std::uint64_t wrong[CHANGERS + ASKERS] = {}, counts[CHANGERS + ASKERS] = {};
    std::atomic<bool> ended{false};
    std::vector<std::thread> threads;
    for (std::uint32_t i = 0; i < CHANGERS + ASKERS; i++) {
        threads.emplace_back([&, i] {
            if (i < CHANGERS) change(seats[i], i, wrong[i], counts[i]);
            else ask(seats[i], ended, wrong[i], counts[i]);
        });
    }
    for (std::uint32_t i = 0; i < CHANGERS; i++) threads[i].join();
    ended = true;
    for (std::uint32_t i = CHANGERS; i < CHANGERS + ASKERS; i++) threads[i].join();
    std::uint64_t splits = 0, commits = 0, there = STAYING + CHANGERS * (KEYS - KEYS / 3);
    for (std::uint32_t i = 0; i < CHANGERS + ASKERS; i++) {
        WANT(wrong[i] == 0);
        if (i < CHANGERS) splits += counts[i];
        else WANT(counts[i] > 0);
        commits += seats[i].count().commits;
    }
    WANT(splits > 0 && seats[0].size() == there && seats[1].next(STAYING) == STAYING);
    WANT(commits == STAYING + CHANGERS * (KEYS + KEYS / 3) + splits);
}

} // namespace

#ifndef THREADS_ALONE
#define THREADS_ALONE false
#endif

int main() {
    if (!THREADS_ALONE) {
        numbers_out_of_range();
        seats_move_and_close();
        a_seat_in_a_call();
        calls();
        tries_are_bounded();
        a_full_table();
        a_worn_domain();
        a_long_bucket();
        a_whole_table();
    }
    threads_share_a_table();
    std::printf("table: %lu answers\n", asked);
}
