/* What mvrlu_sets.hpp adds to the calls of mvrlu.h. Prints how many answers were asked for, and ends with 1 at the first wrong one. */
#include <mvrlu_sets.hpp>

#include "want.hpp"

#include <cstdio>
#include <thread>
#include <type_traits>
#include <utility>
#include <vector>

namespace {

using mvrlu::reply;

const mvrlu::set l0 = mvrlu::list(0), h1 = mvrlu::table(1), t2 = mvrlu::tree(2);

static_assert(!std::is_copy_constructible_v<mvrlu::sets> && !std::is_copy_assignable_v<mvrlu::sets>);
static_assert(std::is_nothrow_move_constructible_v<mvrlu::sets> && std::is_nothrow_move_assignable_v<mvrlu::sets>);

void seats_move_and_close() {
    auto seats = mvrlu::open_sets({}, 2);
    WANT(reinterpret_cast<std::uintptr_t>(seats[0].handle()) % 128 == 0);
    WANT(seats[0].put(t2, 5, 50) == reply::yes);
    mvrlu::sets other = std::move(seats[0]);
    WANT(other.is_open() && !seats[0].is_open() && seats[0].handle() == nullptr);
    WANT(other.get(t2, 5) == 50u && other.last().at == 1 && !other.last().committed);
    WANT_THROWN(seats[0].has(t2, 5), mvrlu::errc::closed);
    WANT_THROWN(mvrlu::sets().add(t2, 5), mvrlu::errc::closed);
    WANT(!seats[0].close());
    other = std::move(seats[1]);
    WANT(other.is_open() && other.get(t2, 5) == 50u);
    WANT(other.close() == mvrlu::time{1});
    WANT(!other.close());
    WANT(!other.is_open());
    WANT_THROWN(mvrlu::open_sets({180, 64}, 1), mvrlu::errc::bad_number);
    WANT_THROWN(mvrlu::open_sets({}, 0), mvrlu::errc::bad_number);
    WANT_THROWN(mvrlu::open_sets({}, MVRLU_SEATS_MAX + 1), mvrlu::errc::bad_number);
    WANT(mvrlu::open_sets({}, MVRLU_SEATS_MAX).size() == MVRLU_SEATS_MAX);
}

/* Each command, with its reply and its place. */
void commands() {
    auto seats = mvrlu::open_sets({}, 1);
    mvrlu::sets &seat = seats[0];
    for (mvrlu::set it : {l0, h1, t2}) {
        mvrlu::time before = seat.last().at;
        WANT(seat.add(it, 7) == reply::yes && seat.last().at == before + 1 && seat.last().committed);
        WANT(seat.add(it, 7) == reply::no && seat.last().at == before + 1 && !seat.last().committed);
        WANT(seat.get(it, 7) == 0u && !seat.get(it, 8));
        WANT(seat.put(it, 7, ~0ull) == reply::yes && seat.put(it, 7, ~0ull) == reply::no && seat.put(it, 9, 1) == reply::yes);
        WANT(seat.get(it, 7) == ~0ull && seat.has(it, 9) && !seat.has(it, 8));
        WANT(seat.next(it, 0) == 7u && seat.next(it, 8) == 9u && !seat.next(it, 10) && seat.size(it) == 2);
        WANT(seat.del(it, 9) == reply::yes && seat.del(it, 9) == reply::no && seat.size(it) == 1);
    }
    WANT(seat.move(l0, mvrlu::list(9), 7) == reply::yes && seat.move(l0, mvrlu::list(9), 7) == reply::no);
    WANT(seat.pair(l0, mvrlu::list(9), 7) == std::pair(false, true) && seat.get(mvrlu::list(9), 7) == ~0ull);
    WANT(seat.add(t2, 0xffffffffu) == reply::yes && seat.next(t2, 0xffffffffu) == 0xffffffffu);
}

void counts_of_a_log() {
    auto seats = mvrlu::open_sets({}, 2);
    WANT(seats[0].add(l0, 5) == reply::yes && seats[0].count().commits == 1 && seats[1].count().commits == 0);
    WANT_THROWN(mvrlu::sets().count(), mvrlu::errc::closed);
}

/* Whether these are the entries of a walk, by their keys, each with its key and 1 as its value. */
bool has_keys(const mvrlu::walk &found, const std::vector<std::uint32_t> &keys) {
    if (found.entries.size() != keys.size()) return false;
    for (std::size_t i = 0; i < keys.size(); i++) {
        if (found.entries[i].key != keys[i] || found.entries[i].value != keys[i] + 1ull) return false;
    }
    return true;
}

void walks_are_of_one_state() {
    auto seats = mvrlu::open_sets({}, 1);
    mvrlu::sets &seat = seats[0];
    for (mvrlu::set it : {l0, h1, t2}) {
        for (std::uint32_t key : {0xffffffffu, 17u, 0u, 16u}) WANT(seat.put(it, key, key + 1ull) == reply::yes);
        mvrlu::time now = seat.last().at;
        mvrlu::walk all = seat.walk(it, 0, 100), some = seat.walk(it, 1, 2), none = seat.walk(it, 0, 0);
        WANT(has_keys(all, {0, 16, 17, 0xffffffffu}) && !all.next);
        WANT(has_keys(some, {16, 17}) && some.next == 0xffffffffu);
        WANT(has_keys(none, {}) && none.next == 0u);
        WANT(seat.last().at == now && !seat.last().committed);
    }
    WANT(has_keys(seat.walk(mvrlu::list(1), 0, 10), {}));
    WANT_THROWN(seat.walk(mvrlu::list(10), 0, 10), mvrlu::errc::bad_set);
    WANT_THROWN(mvrlu::sets().walk(l0, 0, 10), mvrlu::errc::closed);
}

void misuse_is_thrown() {
    auto seats = mvrlu::open_sets({}, 1);
    for (mvrlu::set bad : {mvrlu::list(10), mvrlu::table(10), mvrlu::tree(10), mvrlu::tree(~0u)}) {
        WANT_THROWN(seats[0].has(bad, 1), mvrlu::errc::bad_set);
        WANT_THROWN(seats[0].put(bad, 1, 1), mvrlu::errc::bad_set);
        WANT_THROWN(seats[0].move(l0, bad, 1), mvrlu::errc::bad_set);
        WANT_THROWN(seats[0].transact(1, mvrlu::block().has(l0, 1).has(bad, 1)), mvrlu::errc::bad_set);
    }
    WANT_THROWN(seats[0].move(l0, l0, 1), mvrlu::errc::same_set);
    WANT_THROWN(seats[0].transact(1, mvrlu::block()), mvrlu::errc::bad_block);
    mvrlu::block eight;
    for (unsigned i = 0; i < MVRLU_BLOCK_MAX; i++) eight.add(l0, i);
    WANT_THROWN(eight.add(l0, 8), mvrlu::errc::bad_block);
    WANT(seats[0].transact(1, eight)->size() == 8 && seats[0].size(l0) == 8);
}

void full_is_a_reply() {
    auto seats = mvrlu::open_sets({182, 64}, 1);
    WANT(seats[0].add(l0, 1) == reply::yes && seats[0].add(l0, 2) == reply::yes && seats[0].add(l0, 3) == reply::full);
    auto told = seats[0].transact(1, mvrlu::block().del(l0, 1).add(t2, 4).add(h1, 5));
    WANT(told && (*told)[0].reply == reply::full && (*told)[2].reply == reply::full);
    WANT(seats[0].size(l0) == 2 && !seats[0].last().committed);
}

void blocks() {
    auto seats = mvrlu::open_sets({}, 2);
    mvrlu::block amend;
    amend.put(t2, 5, 50).del(l0, 5).get(t2, 5).get(t2, 6).pair(t2, l0, 5).move(t2, h1, 5).has(t2, 5);
    WANT(amend.size() == 7 && !seats[0].transact(0, amend));
    auto told = seats[0].transact(1, amend);
    WANT(told && told->size() == 7 && seats[0].last().committed && seats[0].last().at == 1);
    const mvrlu::answers &all = *told;
    WANT(all[0].reply == reply::yes && all[1].reply == reply::no);
    WANT(all[2].value == 50u && !all[3].value && all[3].reply == reply::no);
    WANT(all[4].first && !all[4].second && all[5].reply == reply::yes && all[6].reply == reply::no);
    WANT(seats[1].get(h1, 5) == 50u);
    WANT(seats[1].transact(1, mvrlu::block().has(h1, 5))->begin()->reply == reply::yes && !seats[1].last().committed);
    unsigned yes = 0;
    for (const mvrlu::answer &one : all) yes += one.reply == reply::yes;
    WANT(yes == 4);
}

/* A thread moves a key to and fro by blocks, while another asks for it: it is in one of both sets. */
void a_block_is_seen_whole() {
    auto seats = mvrlu::open_sets({}, 2);
    WANT(seats[0].put(l0, 3, 30) == reply::yes);
    unsigned made = 0, whole = 0;
    std::thread mover([&] {
        for (int i = 0; i < 2000; i++) {
            mvrlu::set from = i % 2 ? t2 : l0, to = i % 2 ? l0 : t2;
            if (seats[0].transact(1000000, mvrlu::block().del(from, 3).put(to, 3, 30))) made++;
        }
    });
    for (int i = 0; i < 2000; i++) {
        auto [first, second] = seats[1].pair(l0, t2, 3);
        whole += first != second;
    }
    mover.join();
    WANT(made == 2000 && whole == 2000);
}

} // namespace

int main() {
    seats_move_and_close();
    commands();
    counts_of_a_log();
    walks_are_of_one_state();
    misuse_is_thrown();
    full_is_a_reply();
    blocks();
    a_block_is_seen_whole();
    std::printf("sets: %lu answers\n", asked);
}
