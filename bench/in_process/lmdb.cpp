/* LMDB: a copy-on-write tree of pages in a mapped file, whose readers have snapshots. The file is in memory where that can be, and is
 * never flushed. Each thread renews a read transaction of its own for each section. It runs the rows that only read. */
#include "measure.hpp"

#include <cerrno>
#include <cstdio>
#include <cstdlib>
#include <cstring>
#include <lmdb.h>
#include <memory>
#include <string>
#include <unistd.h>

namespace {

void must(int status) {
    if (status == MDB_SUCCESS) return;
    std::fprintf(stderr, "bench/library: lmdb: %s\n", mdb_strerror(status));
    std::exit(1);
}

MDB_val as_value(void *bytes, std::size_t size) { return {size, bytes}; }

/* A file of keys, which are 32-bit numbers. */
class file {
public:
    file() {
        std::string folder = access("/dev/shm", W_OK) == 0 ? "/dev/shm/mvrlu-XXXXXX" : "/tmp/mvrlu-XXXXXX";
        if (mkdtemp(folder.data()) == nullptr) must(errno);
        must(mdb_env_create(&env));
        must(mdb_env_set_mapsize(env, 512u << 20));
        must(mdb_env_open(env, folder.c_str(), MDB_NOSYNC | MDB_NOMETASYNC | MDB_WRITEMAP, 0600));
        for (const char *name : {"/data.mdb", "/lock.mdb"}) unlink((folder + name).c_str());
        rmdir(folder.c_str());
        must(mdb_txn_begin(env, nullptr, 0, &writer));
        must(mdb_dbi_open(writer, nullptr, MDB_INTEGERKEY, &keys));
        must(mdb_txn_commit(writer));
    }
    ~file() { mdb_env_close(env); }
    file(const file &) = delete;
    file &operator=(const file &) = delete;

    /* Does work in a write transaction. */
    template <class Work>
    void write(Work &&work) {
        must(mdb_txn_begin(env, nullptr, 0, &writer));
        work();
        must(mdb_txn_commit(writer));
    }
    void put(std::uint32_t key, void *bytes, std::size_t size) {
        MDB_val k = as_value(&key, sizeof key), v = as_value(bytes, size);
        must(mdb_put(writer, keys, &k, &v, 0));
    }
    void del(std::uint32_t key) {
        MDB_val k = as_value(&key, sizeof key);
        must(mdb_del(writer, keys, &k, nullptr));
    }

    MDB_env *env = nullptr;
    MDB_dbi keys = 0;

private:
    MDB_txn *writer = nullptr;
};

/* The read transaction of a thread. */
class reader {
public:
    explicit reader(file &in) : in_(in) {
        must(mdb_txn_begin(in.env, nullptr, MDB_RDONLY, &reading_));
        mdb_txn_reset(reading_);
    }
    ~reader() { mdb_txn_abort(reading_); }
    reader(const reader &) = delete;
    reader &operator=(const reader &) = delete;

    template <class Work>
    auto read(Work &&work) {
        must(mdb_txn_renew(reading_));
        auto found = work();
        mdb_txn_reset(reading_);
        return found;
    }
    bool find(std::uint32_t key, MDB_val &found) {
        MDB_val k = as_value(&key, sizeof key);
        int status = mdb_get(reading_, in_.keys, &k, &found);
        if (status != MDB_NOTFOUND) must(status);
        return status == MDB_SUCCESS;
    }

private:
    file &in_;
    MDB_txn *reading_ = nullptr;
};

struct objects {
    explicit objects(unsigned) {
        std::uint64_t words[6] = {};
        all.write([&] {
            for (std::uint32_t object = 0; object < bench::object_count; object++) all.put(object, words, sizeof words);
        });
    }

    struct user {
        user(objects &store, unsigned) : own(store.all) {}
        std::uint64_t sum(const std::uint32_t which[], unsigned count) {
            return own.read([&] {
                std::uint64_t all = 0, words[6];
                MDB_val found;
                for (unsigned i = 0; i < count; i++) {
                    if (!own.find(which[i], found)) std::abort();
                    std::memcpy(words, found.mv_data, sizeof words);
                    for (std::uint64_t word : words) all += word;
                }
                return all;
            });
        }
        void transfer(std::uint32_t, std::uint32_t) { std::abort(); }
        reader own;
    };

    file all;
};

struct sets {
    sets(const bench::row &, unsigned) {}

    struct user {
        user(sets &store, unsigned) : store(store), own(store.first) {}
        bool has(std::uint32_t key) {
            MDB_val found;
            return own.read([&] { return own.find(key, found); });
        }
        /* Only where the set is filled. */
        bool add(std::uint32_t key) {
            std::uint64_t value = 0;
            store.first.write([&] { store.first.put(key, &value, sizeof value); });
            return true;
        }
        bool del(std::uint32_t key) {
            store.first.write([&] { store.first.del(key); });
            return true;
        }
        bool move(std::uint32_t key, bool) { return del(key); }
        sets &store;
        reader own;
    };

    file first;
};

bool fits(const bench::row &row) { return row.kind == bench::kind::objects ? row.size != 0 : row.changes + row.moves == 0; }

} // namespace

const bench::store bench::lmdb_store = {"LMDB", fits, run<objects, sets>};
