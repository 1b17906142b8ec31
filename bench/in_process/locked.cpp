/* One pthread_rwlock_t round an array of objects, round two std::map, and round two std::unordered_map. */
#include "measure.hpp"

#include <map>
#include <pthread.h>
#include <unordered_map>
#include <utility>

namespace {

class lock {
public:
    template <class Body>
    auto read(Body &&body) {
        pthread_rwlock_rdlock(&lock_);
        auto found = body();
        pthread_rwlock_unlock(&lock_);
        return found;
    }
    template <class Body>
    auto write(Body &&body) {
        pthread_rwlock_wrlock(&lock_);
        auto found = body();
        pthread_rwlock_unlock(&lock_);
        return found;
    }

private:
    pthread_rwlock_t lock_ = PTHREAD_RWLOCK_INITIALIZER;
};

struct objects {
    explicit objects(unsigned) {}

    struct user {
        user(objects &store, unsigned) : store(store) {}
        std::uint64_t sum(const std::uint32_t which[], unsigned count) {
            return store.lock.read([&] {
                std::uint64_t all = 0;
                for (unsigned i = 0; i < count; i++)
                    for (std::uint64_t word : store.words[which[i]]) all += word;
                return all;
            });
        }
        void transfer(std::uint32_t from, std::uint32_t to) {
            store.lock.write([&] { return store.words[from][0]--, store.words[to][0]++; });
        }
        objects &store;
    };

    std::uint64_t words[bench::object_count][6] = {};
    ::lock lock;
};

template <class Map>
struct sets {
    sets(const bench::row &, unsigned) {}

    struct user {
        user(sets &store, unsigned) : store(store) {}
        bool has(std::uint32_t key) {
            return store.lock.read([&] { return store.maps[0].count(key) != 0; });
        }
        bool add(std::uint32_t key) {
            return store.lock.write([&] { return store.maps[0].emplace(key, 0).second; });
        }
        bool del(std::uint32_t key) {
            return store.lock.write([&] { return store.maps[0].erase(key) != 0; });
        }
        bool move(std::uint32_t key, bool first) {
            return store.lock.write([&] {
                auto &from = store.maps[first ? 0 : 1], &to = store.maps[first ? 1 : 0];
                auto at = from.find(key);
                if (at == from.end() || to.count(key) != 0) return false;
                to.emplace(key, at->second);
                from.erase(at);
                return true;
            });
        }
        sets &store;
    };

    Map maps[2];
    ::lock lock;
};

} // namespace

const bench::store bench::locked_store = {"lock", [](const row &) { return true; }, run<objects, sets<std::map<std::uint32_t, std::uint64_t>>>};
const bench::store bench::hashed_store = {"lock, hashed", [](const row &row) { return !is_small(row); },
                                          run<objects, sets<std::unordered_map<std::uint32_t, std::uint64_t>>>};
