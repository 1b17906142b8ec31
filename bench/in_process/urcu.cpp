/* Userspace RCU: readers take no lock, and writers a mutex. An object is a block that a pointer leads to; a list is an rculist, and a
 * table the lock-free hash table of liburcu. A read section finds each object whole, but no one state of several objects or sets, so
 * it runs no moves; nor has it a tree. */
#define _LGPL_SOURCE
#include "measure.hpp"

#include <cstdlib>
#include <cstring>
#include <pthread.h>
#include <urcu.h>
#include <urcu/rculfhash.h>
#include <urcu/rculist.h>

namespace {

class guard {
public:
    explicit guard(pthread_mutex_t &lock) : lock_(lock) { pthread_mutex_lock(&lock_); }
    ~guard() { pthread_mutex_unlock(&lock_); }
    guard(const guard &) = delete;
    guard &operator=(const guard &) = delete;

private:
    pthread_mutex_t &lock_;
};

/* A thread that reads. */
struct reader {
    reader() { rcu_register_thread(); }
    ~reader() { rcu_unregister_thread(); }
    reader(const reader &) = delete;
    reader &operator=(const reader &) = delete;
};

struct object {
    rcu_head head;
    std::uint64_t words[6];
};

template <class Node>
void free_later(Node *node) {
    call_rcu(&node->head, [](rcu_head *head) { delete reinterpret_cast<Node *>(head); });
}

struct objects {
    explicit objects(unsigned) {
        for (object *&one : all) one = new object{};
    }
    ~objects() {
        rcu_barrier();
        for (object *one : all) delete one;
    }

    struct user {
        user(objects &store, unsigned) : store(store) {}
        std::uint64_t sum(const std::uint32_t which[], unsigned count) {
            std::uint64_t all = 0;
            rcu_read_lock();
            for (unsigned i = 0; i < count; i++)
                for (std::uint64_t word : rcu_dereference(store.all[which[i]])->words) all += word;
            rcu_read_unlock();
            return all;
        }
        void transfer(std::uint32_t from, std::uint32_t to) {
            object *news[2] = {new object, new object}, *olds[2];
            {
                guard held(store.writers);
                olds[0] = store.all[from], olds[1] = store.all[to];
                for (unsigned i = 0; i < 2; i++) std::memcpy(news[i]->words, olds[i]->words, sizeof olds[i]->words);
                news[0]->words[0]--, news[1]->words[0]++;
                rcu_assign_pointer(store.all[from], news[0]);
                rcu_assign_pointer(store.all[to], news[1]);
            }
            free_later(olds[0]), free_later(olds[1]);
        }
        reader registered;
        objects &store;
    };

    object *all[bench::object_count];
    pthread_mutex_t writers = PTHREAD_MUTEX_INITIALIZER;
};

/* A key of a list or a table. */
struct node {
    rcu_head head;
    cds_list_head in_list;
    cds_lfht_node in_table;
    std::uint32_t key;
    std::uint64_t value;
};

unsigned long hash(std::uint32_t key) { return key * 0x9e3779b97f4a7c15ull >> 20; }

struct table_key {
    static int matches(cds_lfht_node *at, const void *key) {
        return caa_container_of(at, node, in_table)->key == *static_cast<const std::uint32_t *>(key);
    }
};

struct sets {
    sets(const bench::row &row, unsigned) : is_table(row.kind == bench::kind::table) {
        CDS_INIT_LIST_HEAD(&list);
        if (is_table) table = cds_lfht_new(64, 64, 0, CDS_LFHT_AUTO_RESIZE, nullptr);
    }
    ~sets() {
        reader registered;
        node *at, *next;
        cds_list_for_each_entry_safe(at, next, &list, in_list) delete at;
        if (is_table) empty_table();
        rcu_barrier();
    }

    void empty_table() {
        cds_lfht_iter walk;
        node *at;
        rcu_read_lock();
        cds_lfht_for_each_entry(table, &walk, at, in_table) {
            cds_lfht_del(table, &at->in_table);
            free_later(at);
        }
        rcu_read_unlock();
        cds_lfht_destroy(table, nullptr);
    }

    /* The first node of the list whose key isn't below this one, or null. */
    node *seek(std::uint32_t key) {
        node *at;
        cds_list_for_each_entry_rcu(at, &list, in_list) if (at->key >= key) return at;
        return nullptr;
    }

    node *find_in_table(std::uint32_t key) {
        cds_lfht_iter walk;
        cds_lfht_lookup(table, hash(key), table_key::matches, &key, &walk);
        cds_lfht_node *at = cds_lfht_iter_get_node(&walk);
        return at == nullptr ? nullptr : caa_container_of(at, node, in_table);
    }

    struct user {
        user(sets &store, unsigned) : store(store) {}
        bool has(std::uint32_t key) {
            rcu_read_lock();
            node *at = store.is_table ? store.find_in_table(key) : store.seek(key);
            bool found = at != nullptr && at->key == key;
            rcu_read_unlock();
            return found;
        }
        bool add(std::uint32_t key) { return store.is_table ? add_to_table(key) : add_to_list(key); }
        bool del(std::uint32_t key) { return store.is_table ? del_of_table(key) : del_of_list(key); }
        bool move(std::uint32_t key, bool) { return del(key); } /* only where a set is filled: the second one is never asked */

        bool add_to_list(std::uint32_t key) {
            guard held(store.writers);
            node *at = store.seek(key);
            if (at != nullptr && at->key == key) return false;
            node *made = new node{};
            made->key = key;
            cds_list_add_rcu(&made->in_list, at == nullptr ? store.list.prev : at->in_list.prev);
            return true;
        }
        bool del_of_list(std::uint32_t key) {
            guard held(store.writers);
            node *at = store.seek(key);
            if (at == nullptr || at->key != key) return false;
            cds_list_del_rcu(&at->in_list);
            free_later(at);
            return true;
        }
        bool add_to_table(std::uint32_t key) {
            node *made = new node{};
            made->key = key;
            cds_lfht_node_init(&made->in_table);
            rcu_read_lock();
            bool is_new = cds_lfht_add_unique(store.table, hash(key), table_key::matches, &key, &made->in_table) == &made->in_table;
            rcu_read_unlock();
            if (!is_new) delete made;
            return is_new;
        }
        bool del_of_table(std::uint32_t key) {
            rcu_read_lock();
            node *at = store.find_in_table(key);
            bool taken = at != nullptr && cds_lfht_del(store.table, &at->in_table) == 0;
            if (taken) free_later(at);
            rcu_read_unlock();
            return taken;
        }
        reader registered;
        sets &store;
    };

    bool is_table;
    cds_list_head list;
    cds_lfht *table = nullptr;
    pthread_mutex_t writers = PTHREAD_MUTEX_INITIALIZER;
};

bool fits(const bench::row &row) { return row.kind != bench::kind::tree && row.moves == 0; }

} // namespace

const bench::store bench::urcu_store = {"liburcu", fits, run<objects, sets>};
