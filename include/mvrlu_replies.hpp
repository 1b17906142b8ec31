/* mvrlu_replies.hpp: what the seats of mvrlu_sets.hpp and of mvrlu_table.hpp have in common, which include it. Each call of theirs is a
 * section of its own, and tells a reply with its place in the history.
 */
#ifndef MVRLU_REPLIES_HPP
#define MVRLU_REPLIES_HPP
#include <mvrlu.hpp>

namespace mvrlu {

/* What a change came to. */
enum class reply {
    yes,   /* it was made */
    no,    /* there was nothing to change */
    full,  /* there are too few vacant objects for it */
    worn,  /* the last time, 2^45 - 1, was reached, so nothing can be changed any more */
    again  /* other seats came first at each of its tries, and nothing was done */
};

/* Where a call took place in the one history: it is the commit of a time, or it read the state of a time. */
struct place {
    time at = 0;
    bool committed = false;
};

/* How many times a change is tried where nothing else is said. */
constexpr unsigned tries = 1000;

namespace detail {

inline reply reply_of(std::int32_t status, const char *call) {
    switch (status) {
        case MVRLU_OK: return reply::yes;
        case MVRLU_NO: return reply::no;
        case MVRLU_FULL: return reply::full;
        case MVRLU_WORN: return reply::worn;
        default: throw error(status, call);
    }
}

/* A call of mvrlu.h with its name. */
template <class... Given>
struct named {
    const char *name;
    std::int32_t (*call)(Given...);
};

/* The calls of mvrlu.h on one of its kinds of seats that tell no reply. */
template <class Seat, class Options>
struct part {
    named<const Options *, Seat *, std::size_t> open;
    named<Seat *, std::uint64_t *> close_last;
    named<Seat *, std::uint32_t *> tidy;
    named<Seat *, mvrlu_counts *> counts;
};

/* A seat for one thread at a time, over one of mvrlu.h. It closes itself, moves, and is not copied. One that was made by no opening, and
 * one that was moved from, is closed; each call on a closed seat but `close` throws errc::closed. */
template <class Seat, class Options, const part<Seat, Options> &Calls>
class replying {
public:
    bool is_open() const noexcept { return lines_ != nullptr; }

    /* Closes it. Where it was the last seat of the domain, all of them have met, and the time of the last entry is told; std::nullopt: other
     * seats are open still, or this one was closed already. */
    std::optional<time> close() noexcept {
        if (lines_ == nullptr) return std::nullopt;
        time last = 0;
        std::int32_t status = Calls.close_last.call(&lines_->seat, &last);
        lines_.reset();
        return status == MVRLU_OK ? std::optional<time>(last) : std::nullopt;
    }

    /* Reclaims what nobody reads any more of the log, and tells how many slots are live. */
    std::uint32_t tidy() {
        std::uint32_t live = 0;
        must(Calls.tidy.call(held(Calls.tidy.name), &live), Calls.tidy.name);
        return live;
    }

    /* The counts of the log. */
    mvrlu_counts count() {
        mvrlu_counts found = {};
        must(Calls.counts.call(held(Calls.counts.name), &found), Calls.counts.name);
        return found;
    }

    /* Where the last call took place that was done. */
    mvrlu::place last() const noexcept { return {told_.time, told_.committed != 0}; }

    /* The seat as mvrlu.h has it, for other calls than those that close it; null where it is closed. */
    Seat *handle() noexcept { return lines_ == nullptr ? nullptr : &lines_->seat; }

protected:
    replying() noexcept = default;
    replying(replying &&) noexcept = default;
    replying &operator=(replying &&other) noexcept {
        if (this != &other) {
            close();
            lines_ = std::move(other.lines_);
            told_ = other.told_;
        }
        return *this;
    }
    ~replying() { close(); }

    /* Opens a domain with 1 to MVRLU_SEATS_MAX seats, each an `Owner`, or throws, and then nothing is open. */
    template <class Owner, class Numbers>
    static std::vector<Owner> open(const Numbers &numbers, std::size_t count) {
        Options given = {sizeof(Options), numbers.objects, numbers.slots, numbers.opening_time};
        Seat opened[MVRLU_SEATS_MAX] = {};
        if (count < 1 || count > MVRLU_SEATS_MAX) throw error(MVRLU_BAD_NUMBER, Calls.open.name);
        std::vector<Owner> made(count);
        for (replying &one : made) one.lines_ = std::make_unique<lines>();
        must(Calls.open.call(&given, opened, count), Calls.open.name);
        for (std::size_t i = 0; i < count; i++) {
            Seat *own = made[i].handle();
            own->raw = opened[i].raw;
            own->self = own;
        }
        return made;
    }

    Seat *held(const char *call) const {
        if (lines_ == nullptr) throw error(MVRLU_CLOSED, call);
        return &lines_->seat;
    }

    /* A call with what is given to it that only reads, which has an answer at once. */
    template <class Call, class... Given>
    bool read(const char *name, const Call &call, Given... given) {
        mvrlu_reply told{};
        reply came = reply_of(call(held(name), given..., &told), name);
        told_ = told;
        return came == reply::yes;
    }

    /* A call that may be given up, and is then made again, at most `limit` times in all. `told` is of the last one. */
    template <class Call, class... Given>
    reply attempt(unsigned limit, mvrlu_reply &told, const char *name, const Call &call, Given... given) {
        Seat *seat = held(name);
        for (; limit > 0; limit--) {
            told = {};
            std::int32_t status = call(seat, given..., &told);
            if (!mvrlu_may_retry(status)) return reply_of(status, name);
            std::this_thread::yield();
        }
        return reply::again;
    }

    /* The same of a call that tells its place wherever it was done. */
    template <class Call, class... Given>
    reply change(unsigned limit, const char *name, const Call &call, Given... given) {
        mvrlu_reply told{};
        reply came = attempt(limit, told, name, call, given...);
        if (came != reply::again) told_ = told;
        return came;
    }

    mvrlu_reply told_{}; /* by the last call that was done */

private:
    /* A seat on a cache line of its own, where it stays when its owner moves. */
    struct alignas(128) lines {
        Seat seat{};
    };

    std::unique_ptr<lines> lines_;
};

} // namespace detail
} // namespace mvrlu
#endif
