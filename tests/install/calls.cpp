/* What mvrlu.hpp adds to the calls of mvrlu.h. Prints how many answers were asked for, and ends with 1 at the first wrong one. */
#include <mvrlu.hpp>

#include "want.hpp"

#include <cstdio>
#include <stdexcept>
#include <string>
#include <type_traits>
#include <utility>

namespace {

static_assert(!std::is_copy_constructible_v<mvrlu::seat> && !std::is_copy_assignable_v<mvrlu::seat>);
static_assert(!std::is_copy_constructible_v<mvrlu::section> && !std::is_copy_assignable_v<mvrlu::section>);
static_assert(std::is_nothrow_move_constructible_v<mvrlu::seat> && std::is_nothrow_move_assignable_v<mvrlu::seat>);
static_assert(std::is_nothrow_move_constructible_v<mvrlu::section> && std::is_nothrow_move_assignable_v<mvrlu::section>);

mvrlu::seats open_two() { return mvrlu::open({16, 64, 4}, 2); }

/* Writes a first word. */
mvrlu::time put(mvrlu::seat &seat, std::uint32_t object, std::uint64_t word) {
    auto made = seat.transact(1, [=](mvrlu::section &section) -> std::error_code {
        if (auto refused = section.lock(object)) return refused;
        section.write(object, {word});
        return {};
    });
    WANT(made.has_value());
    return *made;
}

std::uint64_t get(mvrlu::seat &seat, std::uint32_t object) { return seat.enter().read(object)[0]; }

void errors() {
    std::error_code busy = mvrlu::errc::busy;
    WANT(busy.category() == mvrlu::category() && busy.value() == MVRLU_BUSY);
    WANT(busy.message() == mvrlu_strerror(MVRLU_BUSY));
    WANT(std::string(mvrlu::category().name()) == "mvrlu");
    WANT(busy == mvrlu::errc::busy && busy != mvrlu::errc::stale);
    WANT(std::string(mvrlu::error(MVRLU_NULL, "mvrlu_read").what()).find("mvrlu_read") == 0);
    WANT_THROWN(mvrlu::open({0, 64, 4}, 1), mvrlu::errc::bad_number);
    WANT_THROWN(mvrlu::open({16, 64, 4}, 0), mvrlu::errc::bad_number);
    WANT_THROWN(mvrlu::open({16, 64, 4}, MVRLU_SEATS_MAX + 1), mvrlu::errc::bad_number);
    WANT(mvrlu::open({}, MVRLU_SEATS_MAX).size() == MVRLU_SEATS_MAX);
}

void vacant_objects() {
    mvrlu::seats seats = mvrlu::open({3, 64, 4}, 2);
    put(seats[0], 1, 5);
    mvrlu::section section = seats[0].enter();
    std::uint32_t hint = 1, object = 9;
    WANT(!section.vacant(hint, object) && object == 2 && hint == 3 && section.holds());
    mvrlu::section second = seats[1].enter();
    std::uint32_t same = 2, other = 9;
    WANT(second.vacant(same, other) == mvrlu::errc::busy && other == 2 && same == 3);
    WANT(!section.vacant(hint, object) && object == 0 && hint == 1);
    WANT(section.vacant(hint, object) == mvrlu::errc::full && object == 0 && hint == 1);
    WANT(seats[0].is_open() && seats.size() == 2);
}

void grace_is_held_back() {
    mvrlu::seats seats = open_two();
    WANT(seats[0].grace() == 0);
    mvrlu::section reader = seats[1].enter();
    WANT(put(seats[0], 1, 5) == 1 && seats[0].grace() == 0);
    WANT(seats[0].count().commits == 1 && seats[0].count().live == 1);
    reader.leave();
    WANT(seats[0].grace() == 1);
}

void seats_move_and_close() {
    mvrlu::seats seats = open_two();
    WANT(reinterpret_cast<std::uintptr_t>(seats[0].get()) % 128 == 0);
    put(seats[0], 1, 5);
    mvrlu::seat other = std::move(seats[0]);
    WANT(other.is_open() && !seats[0].is_open() && seats[0].get() == nullptr);
    WANT(get(other, 1) == 5);
    WANT_THROWN(seats[0].enter(), mvrlu::errc::closed);
    WANT_THROWN(seats[0].prepare(), mvrlu::errc::closed);
    WANT_THROWN(mvrlu::seat().tidy(), mvrlu::errc::closed);
    WANT_THROWN(mvrlu::seat().grace(), mvrlu::errc::closed);
    WANT_THROWN(mvrlu::seat().count(), mvrlu::errc::closed);
    WANT(!seats[0].close());
    other = std::move(seats[1]);
    WANT(other.is_open() && get(other, 1) == 5);
    mvrlu::section section = other.enter();
    mvrlu::seat last = std::move(other);
    WANT(section.read(1)[0] == 5);
    mvrlu::section moved = std::move(section);
    WANT(last.close() == mvrlu::time{1}); /* the other one was closed when it was assigned to */
    WANT(!last.close());
    WANT(!last.is_open() && moved.is_over());
    WANT_THROWN(moved.read(1), mvrlu::errc::outside);
    WANT_THROWN(last.enter(), mvrlu::errc::closed);
}

void the_last_seat_tells_the_last_time() {
    mvrlu::options options;
    options.opening_time = MVRLU_TIME_MAX - 1;
    mvrlu::seats seats = mvrlu::open(options, 3);
    WANT(put(seats[1], 1, 5) == MVRLU_TIME_MAX);
    WANT(!seats[1].close());
    seats.pop_back();
    WANT(seats[0].close() == mvrlu::time{MVRLU_TIME_MAX});
    options.opening_time++;
    options.opening_time++;
    WANT_THROWN(mvrlu::open(options, 1), mvrlu::errc::bad_number);
}

void a_section_may_outlive_its_seat() {
    mvrlu::seats seats = open_two();
    mvrlu::section section = seats[0].enter();
    WANT(!section.lock(1));
    mvrlu::section assigned = seats[1].enter();
    seats[0] = std::move(seats[1]);
    WANT(section.is_over() && !assigned.is_over());
    WANT(!assigned.lock(1));
    seats.clear();
    WANT(assigned.is_over());
    WANT_THROWN(assigned.abort(), mvrlu::errc::outside);
}

void sections_end_by_themselves() {
    mvrlu::seats seats = open_two();
    {
        mvrlu::section section = seats[0].enter();
        WANT(!section.holds() && !section.lock(3) && section.holds());
        section.write(3, {9, 8});
        WANT(section.read(3)[0] == 9 && section.read_pair(3, 0)[1] == 8);
        WANT_THROWN(section.leave(), mvrlu::errc::holding);
        WANT_THROWN(seats[0].enter(), mvrlu::errc::inside);
        std::uint64_t by = 99;
        mvrlu::section second = seats[1].enter();
        WANT(second.lock(3, &by) == mvrlu::errc::busy && by == 0);
    }
    WANT(get(seats[1], 3) == 0);
    mvrlu::section old = seats[1].enter();
    WANT(old.at() == 0);
    mvrlu::section section = seats[0].enter();
    WANT(!section.lock(3));
    section.write(3, {7});
    mvrlu::section moved = std::move(section);
    WANT(section.is_over() && !section.holds() && moved.holds());
    WANT_THROWN(section.read(3), mvrlu::errc::outside);
    WANT(moved.commit({1, 2, 3, 4}) == mvrlu::time(1));
    WANT(moved.is_over());
    WANT_THROWN(moved.commit(), mvrlu::errc::outside);
    WANT_THROWN(moved.abort(), mvrlu::errc::outside);
    std::uint64_t by = 99;
    WANT(old.lock(3, &by) == mvrlu::errc::stale && by == 1);
    WANT(old.read(3)[0] == 0);
    moved = seats[0].enter();
    old = std::move(moved);
    WANT(old.at() == 1 && old.read(3)[0] == 7);
    old.leave();
    WANT(get(seats[1], 3) == 7);
}

void misuse_is_thrown() {
    mvrlu::seats seats = open_two();
    mvrlu::section section = seats[0].enter();
    WANT_THROWN(section.read(16), mvrlu::errc::bad_object);
    WANT_THROWN(section.read_pair(1, 5), mvrlu::errc::bad_place);
    WANT_THROWN(section.write(1, {}), mvrlu::errc::not_locked);
    WANT_THROWN(section.commit(), mvrlu::errc::empty);
    WANT_THROWN(seats[0].prepare(), mvrlu::errc::inside);
    for (std::uint32_t object = 0; object < 4; object++) WANT(!section.lock(object));
    WANT_THROWN(section.lock(4), mvrlu::errc::set_full);
    section.abort();
    WANT(seats[0].tidy() <= 64);
}

/* A body that is refused by a seat that holds the object, a number of times, is called as often as the limit says. */
void transactions_are_bounded() {
    mvrlu::seats seats = open_two();
    mvrlu::section holder = seats[1].enter();
    WANT(!holder.lock(2));
    unsigned calls = 0;
    auto body = [&](mvrlu::section &section) -> std::error_code {
        calls++;
        if (calls == 9) holder.abort();
        return section.lock(2);
    };
    WANT(!seats[0].transact(0, body) && calls == 0);
    WANT(!seats[0].transact(5, body) && calls == 5);
    WANT(seats[0].transact(5, body) == mvrlu::time(1) && calls == 9);
}

void transactions_end_otherwise() {
    mvrlu::seats seats = open_two();
    put(seats[0], 1, 5);
    unsigned calls = 0;
    WANT(seats[1].transact(3, [&](mvrlu::section &) { return calls++, std::error_code(); }) == mvrlu::time(1) && calls == 1);
    auto gives_up = [&](mvrlu::section &section) -> std::error_code {
        calls++;
        if (auto refused = section.lock(1)) return refused;
        section.write(1, {6});
        section.abort();
        return {};
    };
    WANT(!seats[0].transact(3, gives_up) && calls == 2);
    auto throws = [&](mvrlu::section &section) -> std::error_code {
        if (auto refused = section.lock(1)) return refused;
        throw std::runtime_error("no more");
    };
    bool came = false;
    try {
        (void)seats[0].transact(3, throws);
    } catch (const std::runtime_error &) {
        came = true;
    }
    WANT(came && get(seats[1], 1) == 5);
    WANT(put(seats[1], 1, 7) == 2 && get(seats[0], 1) == 7);
}

/* A reader that stays keeps versions in the log, until there is no room: each try is refused, and no body is called. */
void want_of_room_is_a_try() {
    mvrlu::seats seats = open_two();
    mvrlu::section reader = seats[1].enter();
    unsigned made = 0, calls = 0;
    while (made < 100 && !seats[0].prepare()) put(seats[0], 0, ++made);
    WANT(made > 0 && made < 100);
    WANT(seats[0].prepare() == mvrlu::errc::short_of_room);
    WANT(!seats[0].transact(3, [&](mvrlu::section &) { return calls++, std::error_code(); }) && calls == 0);
    reader.leave();
    WANT(put(seats[0], 0, 0) > made);
}

} // namespace

int main() {
    errors();
    vacant_objects();
    grace_is_held_back();
    seats_move_and_close();
    the_last_seat_tells_the_last_time();
    a_section_may_outlive_its_seat();
    sections_end_by_themselves();
    misuse_is_thrown();
    transactions_are_bounded();
    transactions_end_otherwise();
    want_of_room_is_a_try();
    std::printf("calls: %lu answers\n", asked);
}
