/* mvrlu_sets.hpp: the sets of mvrlu.h for C++17, with seats that close themselves and tries that are bounded.
 *
 *     std::vector<mvrlu::sets> seats = mvrlu::open_sets({4096, 1024}, 4);         // one for each thread
 *     if (seats[0].put(mvrlu::tree(3), 17, 500) == mvrlu::reply::yes) ...         // one commit
 *     std::optional<std::uint64_t> value = seats[1].get(mvrlu::tree(3), 17);      // of the state of seats[1].last().at
 *     mvrlu::block amend;                                                         // one commit, seen whole or not at all
 *     amend.del(mvrlu::tree(3), 17).put(mvrlu::list(0), 18, 500);
 *     std::optional<mvrlu::answers> done = seats[0].transact(1000, amend);
 *     if (done && (*done)[0].reply == mvrlu::reply::yes) ...
 *
 * What a call may come to is a value: a reply, a std::optional or a pair. A call that may not be made so, or can't be, did nothing, and
 * its status is thrown as mvrlu::error. What mvrlu.h says of threads holds here too.
 */
#ifndef MVRLU_SETS_HPP
#define MVRLU_SETS_HPP
#include <mvrlu_replies.hpp>

namespace mvrlu {

/* One of the thirty sets. A number above 9 gives one that isn't there, which each call refuses by errc::bad_set. */
enum class set : std::uint32_t {};
constexpr set list(unsigned number) noexcept { return static_cast<set>(number < 10 ? MVRLU_LIST(number) : MVRLU_SETS_COUNT); }
constexpr set table(unsigned number) noexcept { return static_cast<set>(number < 10 ? MVRLU_HASH(number) : MVRLU_SETS_COUNT); }
constexpr set tree(unsigned number) noexcept { return static_cast<set>(number < 10 ? MVRLU_TREE(number) : MVRLU_SETS_COUNT); }

/* What one command of a block came to. `value` is that of a `get` whose key was there; `first` and `second` are the answers of a `pair`. */
struct answer {
    mvrlu::reply reply = reply::no;
    std::optional<std::uint64_t> value;
    bool first = false, second = false;
};

/* 1 to MVRLU_BLOCK_MAX commands that are one commit, or one read. Each call adds one; a further one throws errc::bad_block. */
class block {
public:
    block &add(set in, std::uint32_t key) { return push(MVRLU_ADD, in, in, key); }
    block &put(set in, std::uint32_t key, std::uint64_t value) { return push(MVRLU_PUT, in, in, key, value); }
    block &del(set in, std::uint32_t key) { return push(MVRLU_DEL, in, in, key); }
    block &has(set in, std::uint32_t key) { return push(MVRLU_HAS, in, in, key); }
    block &get(set in, std::uint32_t key) { return push(MVRLU_GET, in, in, key); }
    block &move(set from, set to, std::uint32_t key) { return push(MVRLU_MOVE, from, to, key); }
    block &pair(set first, set second, std::uint32_t key) { return push(MVRLU_PAIR, first, second, key); }

    std::size_t size() const noexcept { return size_; }

private:
    friend class sets;

    block &push(mvrlu_op op, set in, set other, std::uint32_t key, std::uint64_t value = 0) {
        if (size_ == MVRLU_BLOCK_MAX) throw error(MVRLU_BAD_BLOCK, "mvrlu::block");
        commands_[size_++] = {static_cast<std::uint32_t>(op), static_cast<std::uint32_t>(in), static_cast<std::uint32_t>(other), key, value};
        return *this;
    }

    std::array<mvrlu_command, MVRLU_BLOCK_MAX> commands_{};
    std::size_t size_ = 0;
};

/* The answers of a block, in the order of its commands. */
class answers {
public:
    std::size_t size() const noexcept { return size_; }
    const answer &operator[](std::size_t at) const { return all_[at]; }
    const answer *begin() const noexcept { return all_.data(); }
    const answer *end() const noexcept { return all_.data() + size_; }

private:
    friend class sets;
    std::array<answer, MVRLU_BLOCK_MAX> all_{};
    std::size_t size_ = 0;
};

/* Some of the entries of a set, all of one state. */
struct walk {
    std::vector<mvrlu_entry> entries; /* each a key with its value, by rising keys */
    std::optional<std::uint32_t> next; /* the least key for which there was no room */
};

namespace detail {

inline constexpr part<mvrlu_sets, mvrlu_sets_options> of_sets = {
    {"mvrlu_sets_open", mvrlu_sets_open}, {"mvrlu_sets_close_last", mvrlu_sets_close_last},
    {"mvrlu_sets_tidy", mvrlu_sets_tidy}, {"mvrlu_sets_counts", mvrlu_sets_counts}};

} // namespace detail

/* A seat of a domain of sets, for one thread at a time, which closes itself, moves, and is not copied. Each call throws errc::closed where
 * it is closed, and errc::bad_set where a set isn't one of the thirty. */
class sets : public detail::replying<mvrlu_sets, mvrlu_sets_options, detail::of_sets> {
public:
    /* Whether a key is there. */
    [[nodiscard]] bool has(set in, std::uint32_t key) { return read("mvrlu_sets_has", mvrlu_sets_has, number(in), key); }

    /* The value of a key that is there. */
    [[nodiscard]] std::optional<std::uint64_t> get(set in, std::uint32_t key) {
        if (!read("mvrlu_sets_get", mvrlu_sets_get, number(in), key)) return {};
        return told_.value;
    }

    /* The least key that isn't below this one. */
    [[nodiscard]] std::optional<std::uint32_t> next(set in, std::uint32_t key) {
        if (!read("mvrlu_sets_next", mvrlu_sets_next, number(in), key)) return {};
        return static_cast<std::uint32_t>(told_.value);
    }

    /* How many keys there are. */
    [[nodiscard]] std::uint64_t size(set in) {
        read("mvrlu_sets_size", mvrlu_sets_size, number(in));
        return told_.value;
    }

    /* Whether a key is in the first set, and whether it is in the second, in one state. */
    [[nodiscard]] std::pair<bool, bool> pair(set first, set second, std::uint32_t key) {
        read("mvrlu_sets_pair", mvrlu_sets_pair, number(first), number(second), key);
        return {told_.value != 0, told_.second != 0};
    }

    /* The entries of a set whose key is not below `from`, by rising keys, at most so many of them and all of one state, which `last`
     * tells. A further walk, from its `next`, is of a later state. Throws errc::no_memory and std::bad_alloc. */
    [[nodiscard]] mvrlu::walk walk(set in, std::uint32_t from, std::size_t at_most) {
        mvrlu_sets *seat = held("mvrlu_sets_walk");
        mvrlu::walk found;
        mvrlu_walk told{};
        mvrlu_entry none{};
        found.entries.resize(at_most);
        mvrlu_entry *room = at_most == 0 ? &none : found.entries.data();
        detail::must(mvrlu_sets_walk(seat, number(in), from, room, at_most, &told), "mvrlu_sets_walk");
        found.entries.resize(static_cast<std::size_t>(told.count));
        if (told.more != 0) found.next = told.next;
        told_ = mvrlu_reply{};
        told_.time = told.time;
        return found;
    }

    /* Adds a key, with the value 0. Like the other three changes it is tried at most `limit` times, and the thread yields between two;
     * reply::no: the key is there. */
    [[nodiscard]] mvrlu::reply add(set in, std::uint32_t key, unsigned limit = tries) {
        return change(limit, "mvrlu_sets_add", mvrlu_sets_add, number(in), key);
    }

    /* Gives a key a value, and adds it where it isn't there. reply::no: it has this value. */
    [[nodiscard]] mvrlu::reply put(set in, std::uint32_t key, std::uint64_t value, unsigned limit = tries) {
        return change(limit, "mvrlu_sets_put", mvrlu_sets_put, number(in), key, value);
    }

    /* Takes a key out. reply::no: it isn't there. */
    [[nodiscard]] mvrlu::reply del(set in, std::uint32_t key, unsigned limit = tries) {
        return change(limit, "mvrlu_sets_del", mvrlu_sets_del, number(in), key);
    }

    /* Moves a key with its value to another set. reply::no: it isn't in the first set, or is in the second. Throws errc::same_set. */
    [[nodiscard]] mvrlu::reply move(set from, set to, std::uint32_t key, unsigned limit = tries) {
        return change(limit, "mvrlu_sets_move", mvrlu_sets_move, number(from), number(to), key);
    }

    /* Makes a block as one commit, or one read where none of its commands changes anything. It is tried at most `limit` times, and the
     * thread yields between two; std::nullopt: other seats came first at each, and nothing was done. Where one command is reply::full
     * all are, and so with reply::worn: then nothing was changed. Throws errc::bad_block for a block of no command, errc::same_set and
     * errc::no_memory. */
    [[nodiscard]] std::optional<answers> transact(unsigned limit, const block &commands) {
        mvrlu_reply told[MVRLU_BLOCK_MAX] = {};
        mvrlu::reply done = change(limit, "mvrlu_sets_block", [&](mvrlu_sets *seat, mvrlu_reply *to) {
            std::int32_t status = mvrlu_sets_block(seat, commands.commands_.data(), commands.size_, told);
            *to = told[0];
            return status;
        });
        if (done == mvrlu::reply::again) return std::nullopt;
        answers all;
        all.size_ = commands.size_;
        for (std::size_t i = 0; i < all.size_; i++) all.all_[i] = answer_of(commands.commands_[i].op, told[i]);
        return all;
    }

private:
    friend std::vector<sets> open_sets(const struct sets_options &options, std::size_t count);

    static std::uint32_t number(set it) noexcept { return static_cast<std::uint32_t>(it); }

    static answer answer_of(std::uint32_t op, const mvrlu_reply &told) {
        answer made;
        made.reply = detail::reply_of(told.status, "mvrlu_sets_block");
        if (op == MVRLU_GET && made.reply == mvrlu::reply::yes) made.value = told.value;
        if (op == MVRLU_PAIR) made.first = told.value != 0, made.second = told.second != 0;
        return made;
    }
};

/* What a domain of sets is opened with. */
struct sets_options {
    std::uint32_t objects = 4096; /* MVRLU_SETS_OBJECTS_MIN to MVRLU_SETS_OBJECTS_MAX: 180 heads, and the nodes of keys */
    std::uint32_t slots = 1024;   /* versions in the log of each seat, MVRLU_SLOTS_MIN to MVRLU_SLOTS_MAX */
    time opening_time = 0;        /* the time of the opening state, 0 to MVRLU_TIME_MAX */
};

/* Opens a domain of thirty empty sets, with 1 to MVRLU_SEATS_MAX seats. Throws errc::bad_number, errc::no_memory and std::bad_alloc, and
 * then nothing is open. */
[[nodiscard]] inline std::vector<sets> open_sets(const sets_options &options, std::size_t count) {
    return sets::open<sets>(options, count);
}

} // namespace mvrlu
#endif
