/* mvrlu.hpp: the calls of mvrlu.h for C++17, with seats that close themselves and sections that abort by themselves.
 *
 *     mvrlu::seats seats = mvrlu::open({1024, 1024, 16}, 4);          // a std::vector<mvrlu::seat>, one for each thread
 *     std::optional<mvrlu::time> time = seats[0].transact(1000, [](mvrlu::section &section) -> std::error_code {
 *         if (auto refused = section.lock(3)) return refused;         // another seat came first: tried again
 *         if (auto refused = section.lock(7)) return refused;
 *         mvrlu::words a = section.read(3), b = section.read(7);
 *         a[0]--, b[0]++;
 *         section.write(3, a), section.write(7, b);
 *         return {};                                                  // commit
 *     });
 *     mvrlu::section section = seats[1].enter();                      // a snapshot, until the end of the scope
 *     std::uint64_t balance = section.read(3)[0];
 *
 * A refusal, a status above 0, is a std::error_code of mvrlu::category(), to be compared with mvrlu::errc. A status below 0
 * is thrown as mvrlu::error: the call did nothing. What mvrlu.h says of isolation and of threads holds here too.
 */
#ifndef MVRLU_HPP
#define MVRLU_HPP
#include <mvrlu.h>

#include <array>
#include <cstddef>
#include <cstdint>
#include <memory>
#include <optional>
#include <string>
#include <system_error>
#include <thread>
#include <type_traits>
#include <utility>
#include <vector>

namespace mvrlu {

/* A time of the history: how many entries there are up to it. */
using time = std::uint64_t;
/* The words of an object. */
using words = std::array<std::uint64_t, MVRLU_WORDS>;
/* Two words of an object that stand one behind the other. */
using word_pair = std::array<std::uint64_t, 2>;
/* What a commit carries for its caller. */
using tag = std::array<std::uint64_t, 4>;

/* The statuses of mvrlu.h, other than MVRLU_OK, as values that a std::error_code is compared with. */
enum class errc : int {
    no = MVRLU_NO,
    again = MVRLU_AGAIN,
    busy = MVRLU_BUSY,
    stale = MVRLU_STALE,
    short_of_room = MVRLU_SHORT,
    log_full = MVRLU_LOG_FULL,
    full = MVRLU_FULL,
    worn = MVRLU_WORN,
    bad_set = MVRLU_BAD_SET,
    same_set = MVRLU_SAME_SET,
    closed = MVRLU_CLOSED,
    in_use = MVRLU_IN_USE,
    bad_number = MVRLU_BAD_NUMBER,
    no_memory = MVRLU_NO_MEMORY,
    null = MVRLU_NULL,
    moved = MVRLU_MOVED,
    outside = MVRLU_OUTSIDE,
    inside = MVRLU_INSIDE,
    bad_object = MVRLU_BAD_OBJECT,
    not_locked = MVRLU_NOT_LOCKED,
    empty = MVRLU_EMPTY,
    holding = MVRLU_HOLDING,
    set_full = MVRLU_SET_FULL,
    bad_place = MVRLU_BAD_PLACE,
    bad_command = MVRLU_BAD_COMMAND,
    bad_block = MVRLU_BAD_BLOCK
};

/* The category of the statuses, whose messages are those of mvrlu_strerror. */
inline const std::error_category &category() noexcept {
    struct statuses final : std::error_category {
        const char *name() const noexcept override { return "mvrlu"; }
        std::string message(int status) const override { return mvrlu_strerror(status); }
    };
    static const statuses only;
    return only;
}

/* A status as an error code. */
inline std::error_code make_error_code(errc status) noexcept { return {static_cast<int>(status), category()}; }

/* A call that may not be made so, or can't be: `code` has its status, which is below 0, and `what` names the call. */
class error : public std::system_error {
public:
    error(std::int32_t status, const char *call) : std::system_error(status, category(), call) {}
};

class section;

namespace detail {

/* Hands a refusal on, and throws what is below 0. */
inline std::error_code refusal(std::int32_t status, const char *call) {
    if (status < 0) throw error(status, call);
    return status == MVRLU_OK ? std::error_code() : std::error_code(status, category());
}

/* Throws all but MVRLU_OK, for a call that is never refused. */
inline void must(std::int32_t status, const char *call) {
    if (status != MVRLU_OK) throw error(status, call);
}

/* A seat on a cache line of its own, where it stays when its owner moves, and the section that it is in. */
struct alignas(128) place {
    mvrlu_seat seat{};
    section *entered = nullptr;
};

} // namespace detail

/* A section of a seat. At the end of its scope it is aborted, unless it was committed, aborted or left; it is over, too, where its
 * seat is closed or destroyed. It moves, is not copied, and is used by the thread that uses its seat. Each call on a section that is
 * over throws errc::outside. */
class section {
public:
    section(section &&other) noexcept : place_(other.place_), holds_(other.holds_) {
        other.place_ = nullptr;
        if (place_ != nullptr) place_->entered = this;
    }
    section &operator=(section &&other) noexcept {
        if (this != &other) {
            drop();
            place_ = std::exchange(other.place_, nullptr);
            holds_ = other.holds_;
            if (place_ != nullptr) place_->entered = this;
        }
        return *this;
    }
    ~section() { drop(); }

    /* Whether it was committed, aborted, left or moved from, or its seat is closed. */
    bool is_over() const noexcept { return place_ == nullptr; }

    /* The words of an object in the snapshot, or the section's own where it wrote the object. Throws errc::bad_object. */
    words read(std::uint32_t object) const {
        words found;
        detail::must(mvrlu_read(held("mvrlu_read"), object, found.data()), "mvrlu_read");
        return found;
    }

    /* The word of an object at `place`, 0 to 4, and the one behind it. Throws errc::bad_object and errc::bad_place. */
    word_pair read_pair(std::uint32_t object, std::uint32_t place) const {
        word_pair found;
        detail::must(mvrlu_read_pair(held("mvrlu_read_pair"), object, place, found.data()), "mvrlu_read_pair");
        return found;
    }

    /* The time of the snapshot. */
    time at() const {
        time found = 0;
        detail::must(mvrlu_time(held("mvrlu_time"), &found), "mvrlu_time");
        return found;
    }

    /* Locks an object, so that it takes part in the commit. Refused by errc::busy, stale and log_full; `by`, where it is given, then
     * has the number of the seat that holds it, or the time of the write. Throws errc::bad_object and errc::set_full. */
    [[nodiscard]] std::error_code lock(std::uint32_t object, std::uint64_t *by = nullptr) {
        std::error_code refused = detail::refusal(mvrlu_lock(held("mvrlu_lock"), object, by), "mvrlu_lock");
        if (!refused) holds_ = true;
        return refused;
    }

    /* Finds the first vacant object from `hint` on, and behind the last one from 0 on, and locks it: one whose words are all 0 in the
     * snapshot, and which the section has not locked. `object` is its number then, and `hint` the number behind it. Refused by
     * errc::full where no object is vacant, and else as `lock`. */
    [[nodiscard]] std::error_code vacant(std::uint32_t &hint, std::uint32_t &object) {
        std::int32_t status = mvrlu_vacant(held("mvrlu_vacant"), &hint, &object);
        if (status == MVRLU_FULL) return make_error_code(errc::full);
        std::error_code refused = detail::refusal(status, "mvrlu_vacant");
        if (!refused) holds_ = true;
        return refused;
    }

    /* Gives a locked object new words. Throws errc::bad_object and errc::not_locked. */
    void write(std::uint32_t object, const words &given) {
        detail::must(mvrlu_write(held("mvrlu_write"), object, given.data()), "mvrlu_write");
    }

    /* Commits all that is locked, as one entry of the history, and tells its time: the section is over. std::nullopt: another entry
     * came first; the section is as it was, and may commit again at once. Throws errc::empty and errc::worn. */
    [[nodiscard]] std::optional<time> commit(const tag &mark = {}) {
        time made = 0;
        if (detail::refusal(mvrlu_commit(held("mvrlu_commit"), mark.data(), &made), "mvrlu_commit")) return std::nullopt;
        end();
        return made;
    }

    /* Gives up all that is locked: the section is over, and the history has no entry of it. */
    void abort() {
        detail::must(mvrlu_abort(held("mvrlu_abort")), "mvrlu_abort");
        end();
    }

    /* Ends a section that holds nothing. Throws errc::holding. */
    void leave() {
        detail::must(mvrlu_leave(held("mvrlu_leave")), "mvrlu_leave");
        end();
    }

    /* Whether it has locked an object. */
    bool holds() const noexcept { return place_ != nullptr && holds_; }

private:
    friend class seat;
    explicit section(detail::place *place) noexcept : place_(place) { place->entered = this; }

    mvrlu_seat *held(const char *call) const {
        if (place_ == nullptr) throw error(MVRLU_OUTSIDE, call);
        return &place_->seat;
    }

    void end() noexcept { std::exchange(place_, nullptr)->entered = nullptr; }

    void drop() noexcept {
        if (place_ == nullptr) return;
        mvrlu_abort(&place_->seat);
        end();
    }

    detail::place *place_;
    bool holds_ = false;
};

/* A seat of a domain, for one thread at a time. It closes itself, moves, and is not copied. One that was made by no `open`, and one
 * that was moved from, is closed; each call on a closed seat but `close` throws errc::closed. */
class seat {
public:
    seat() noexcept = default;
    seat(seat &&) noexcept = default;
    seat &operator=(seat &&other) noexcept {
        if (this != &other) {
            close();
            place_ = std::move(other.place_);
        }
        return *this;
    }
    ~seat() { close(); }

    /* Whether it is open. */
    bool is_open() const noexcept { return place_ != nullptr; }

    /* Closes it. What its section holds is given up first, and the section is over. Where it was the last seat of the domain, all of them
     * have met, and the time of the last entry is told; std::nullopt: other seats are open still, or this one was closed already. */
    std::optional<time> close() noexcept {
        if (place_ == nullptr) return std::nullopt;
        if (place_->entered != nullptr) place_->entered->drop();
        time last = 0;
        std::int32_t status = mvrlu_close_last(&place_->seat, &last);
        place_.reset();
        return status == MVRLU_OK ? std::optional<time>(last) : std::nullopt;
    }

    /* Makes room in the log for one section that locks write_max objects. Refused by errc::short_of_room. Throws errc::inside. */
    [[nodiscard]] std::error_code prepare() { return detail::refusal(mvrlu_prepare(held("mvrlu_prepare")), "mvrlu_prepare"); }

    /* Reclaims what nobody reads any more of the log, and tells how many slots are live. Throws errc::inside. */
    std::uint32_t tidy() {
        std::uint32_t live = 0;
        detail::must(mvrlu_tidy(held("mvrlu_tidy"), &live), "mvrlu_tidy");
        return live;
    }

    /* The counts of the log. Throws errc::inside. */
    mvrlu_counts count() {
        mvrlu_counts found = {};
        detail::must(mvrlu_count(held("mvrlu_count"), &found), "mvrlu_count");
        return found;
    }

    /* A time that no section of the domain is below, now or ever: memory of the caller's own that only words named which a commit of that
     * time or an earlier one took out may be freed. Throws errc::inside. */
    time grace() {
        time found = 0;
        detail::must(mvrlu_grace(held("mvrlu_grace"), &found), "mvrlu_grace");
        return found;
    }

    /* Begins a section. Its snapshot is the whole history at one moment of this call. Throws errc::inside. */
    [[nodiscard]] section enter() {
        detail::must(mvrlu_enter(held("mvrlu_enter")), "mvrlu_enter");
        return section(place_.get());
    }

    /* Tries `body`, a callable that takes a section& and answers a std::error_code, until one of its sections is committed, and tells
     * the time of the commit. std::nullopt: none was, in `limit` tries.
     *
     * A try makes room and calls the body in a section of its own. Where the body answers an error code, the section is aborted, the
     * thread yields, and the next try begins; a want of room is such a try too. Where it answers none, the section is committed; a
     * commit that another entry came before is made again, as the next try, without the body. A body that locked nothing has only
     * read: the section is left, and the time is that of its snapshot. A body that ends the section itself, as by `abort` to give
     * up, isn't tried again, and std::nullopt is answered. What it throws is thrown on, and its section aborted. */
    template <class Body>
    std::optional<time> transact(unsigned limit, Body &&body, const tag &mark = {}) {
        static_assert(std::is_same_v<std::invoke_result_t<Body &, section &>, std::error_code>,
                      "the body of a transaction answers a std::error_code");
        while (limit > 0) {
            if (!prepare()) {
                section own = enter();
                std::error_code refused = body(own);
                if (own.is_over()) return std::nullopt;
                if (!refused) return finish(own, limit, mark);
            }
            limit--;
            std::this_thread::yield();
        }
        return std::nullopt;
    }

    /* The seat as mvrlu.h has it, for other calls than those that end a section, which stays where it is until it is closed; null where
     * it is closed. */
    mvrlu_seat *get() noexcept { return place_ == nullptr ? nullptr : &place_->seat; }

private:
    friend std::vector<seat> open(const struct options &options, std::size_t count);

    mvrlu_seat *held(const char *call) const {
        if (place_ == nullptr) throw error(MVRLU_CLOSED, call);
        return &place_->seat;
    }

    static std::optional<time> finish(section &own, unsigned limit, const tag &mark) {
        if (!own.holds()) {
            time read = own.at();
            own.leave();
            return read;
        }
        for (; limit > 0; limit--)
            if (std::optional<time> made = own.commit(mark)) return made;
        return std::nullopt;
    }

    std::unique_ptr<detail::place> place_;
};

/* The seats of a domain; seat i has number i. */
using seats = std::vector<seat>;

/* What a domain is opened with. */
struct options {
    std::uint32_t objects = 1024;  /* 1 to MVRLU_OBJECTS_MAX */
    std::uint32_t slots = 1024;    /* versions in the log of each seat, MVRLU_SLOTS_MIN to MVRLU_SLOTS_MAX */
    std::uint32_t write_max = 16;  /* objects that one section may lock, 1 to MVRLU_WRITE_MAX, and less than the slots */
    time opening_time = 0;         /* the time of the opening state, 0 to MVRLU_TIME_MAX */
};

/* Opens a domain of objects that are all 0, with 1 to MVRLU_SEATS_MAX seats. Throws errc::bad_number, errc::no_memory and
 * std::bad_alloc, and then nothing is open. */
[[nodiscard]] inline seats open(const options &options, std::size_t count) {
    mvrlu_options given = {sizeof(mvrlu_options), options.objects, options.slots, options.write_max, options.opening_time};
    mvrlu_seat opened[MVRLU_SEATS_MAX] = {};
    if (count < 1 || count > MVRLU_SEATS_MAX) throw error(MVRLU_BAD_NUMBER, "mvrlu_open");
    seats made(count);
    for (seat &one : made) one.place_ = std::make_unique<detail::place>();
    detail::must(mvrlu_open(&given, opened, count), "mvrlu_open");
    for (std::size_t i = 0; i < count; i++) {
        mvrlu_seat *own = made[i].get();
        own->raw = opened[i].raw;
        own->self = own;
    }
    return made;
}

} // namespace mvrlu

template <>
struct std::is_error_code_enum<mvrlu::errc> : std::true_type {};
#endif
