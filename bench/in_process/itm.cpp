/* GCC's transactional memory: an array of objects; sorted lists, tables of sixteen of them, and leaf-oriented trees. A node that was
 * taken out is spare for the thread that did it: it stays a node, so a reader whose transaction will fail still finds one there. */
#include "measure.hpp"

#include <deque>

#define SAFE __attribute__((transaction_safe)) inline

namespace {

struct objects {
    explicit objects(unsigned) {}

    struct user {
        user(objects &store, unsigned) : words(store.words) {}
        std::uint64_t sum(const std::uint32_t which[], unsigned count) {
            std::uint64_t all;
            __transaction_atomic {
                all = 0;
                for (unsigned i = 0; i < count; i++)
                    for (unsigned at = 0; at < 6; at++) all += words[which[i]][at];
            }
            return all;
        }
        void transfer(std::uint32_t from, std::uint32_t to) {
            __transaction_atomic {
                words[from][0]--;
                words[to][0]++;
            }
        }
        std::uint64_t (*words)[6];
    };

    std::uint64_t words[bench::object_count][6] = {};
};

/* A node of a list, whose next is `left`; or of a tree, a leaf or an inner one. */
struct node {
    std::uint32_t key, inner;
    std::uint64_t value;
    node *left, *right;
};

struct alignas(64) head {
    node *first = nullptr;
};

constexpr unsigned buckets = 16;

/* A set, whose shape says how many heads are in use. */
struct set {
    bench::kind kind;
    head heads[buckets];
};

SAFE node **seek(node **link, std::uint32_t key) {
    for (node *at = *link; at != nullptr && at->key < key; at = *link) link = &at->left;
    return link;
}

/* The link to the leaf where a search ends, and to its parent. */
SAFE node **descend(node **link, std::uint32_t key, node ***parent) {
    *parent = nullptr;
    for (node *at = *link; at != nullptr && at->inner; at = *link) {
        *parent = link;
        link = key < at->key ? &at->left : &at->right;
    }
    return link;
}

SAFE node **place(set *in, std::uint32_t key, node ***parent) {
    if (in->kind == bench::kind::tree) return descend(&in->heads[0].first, key, parent);
    return seek(&in->heads[in->kind == bench::kind::table ? key % buckets : 0].first, key);
}

SAFE bool has(set *in, std::uint32_t key) {
    node **parent, *at = *place(in, key, &parent);
    return at != nullptr && at->key == key;
}

/* Puts a key in that isn't there, and tells how many of both nodes it takes. */
SAFE unsigned put(set *in, std::uint32_t key, std::uint64_t value, node *leaf, node *inner) {
    node **parent, **link = place(in, key, &parent), *other = *link;
    leaf->key = key;
    leaf->inner = 0;
    leaf->value = value;
    leaf->left = in->kind == bench::kind::tree ? nullptr : other;
    if (in->kind != bench::kind::tree || other == nullptr) {
        *link = leaf;
        return 1;
    }
    inner->key = key < other->key ? other->key : key;
    inner->inner = 1;
    inner->left = key < other->key ? leaf : other;
    inner->right = key < other->key ? other : leaf;
    *link = inner;
    return 2;
}

/* Takes a key out that is there, and gives its nodes. (Inlined, it stops g++ 12.) */
__attribute__((transaction_safe, noinline)) std::uint64_t take(set *in, std::uint32_t key, node *gone[2]) {
    node **parent = nullptr, **link = place(in, key, &parent);
    gone[0] = *link;
    if (in->kind != bench::kind::tree) {
        *link = gone[0]->left;
    } else if (parent == nullptr) {
        *link = nullptr;
    } else {
        gone[1] = *parent;
        *parent = link == &gone[1]->left ? gone[1]->right : gone[1]->left;
    }
    return gone[0]->value;
}

struct sets {
    sets(const bench::row &row, unsigned threads) : spares(threads) {
        for (set &one : both) one.kind = row.kind;
    }

    struct alignas(128) spare {
        std::deque<node> all;
        std::vector<node *> nodes;
        node *take() {
            if (nodes.empty()) return &all.emplace_back();
            node *last = nodes.back();
            nodes.pop_back();
            return last;
        }
    };

    struct user {
        user(sets &store, unsigned thread) : both(store.both), spare(store.spares[thread]) {}
        bool has(std::uint32_t key) {
            bool found;
            __transaction_atomic { found = ::has(&both[0], key); }
            return found;
        }
        bool add(std::uint32_t key) {
            node *leaf = spare.take(), *inner = spare.take();
            unsigned used;
            __transaction_atomic { used = ::has(&both[0], key) ? 0 : put(&both[0], key, 0, leaf, inner); }
            if (used < 2) spare.nodes.push_back(inner);
            if (used < 1) spare.nodes.push_back(leaf);
            return used != 0;
        }
        bool del(std::uint32_t key) {
            node *gone[2] = {};
            __transaction_atomic {
                gone[0] = gone[1] = nullptr;
                if (::has(&both[0], key)) take(&both[0], key, gone);
            }
            return keep(gone);
        }
        bool move(std::uint32_t key, bool first) {
            set *from = &both[first ? 0 : 1], *to = &both[first ? 1 : 0];
            node *leaf = spare.take(), *inner = spare.take(), *gone[2] = {};
            unsigned used;
            __transaction_atomic {
                gone[0] = gone[1] = nullptr;
                used = 0;
                if (::has(from, key) && !::has(to, key)) used = put(to, key, take(from, key, gone), leaf, inner);
            }
            if (used < 2) spare.nodes.push_back(inner);
            if (used < 1) spare.nodes.push_back(leaf);
            return keep(gone);
        }
        bool keep(node *gone[2]) {
            for (unsigned i = 0; i < 2; i++)
                if (gone[i] != nullptr) spare.nodes.push_back(gone[i]);
            return gone[0] != nullptr;
        }
        set *both;
        sets::spare &spare;
    };

    set both[2];
    std::vector<spare> spares;
};

} // namespace

const bench::store bench::itm_store = {"libitm", is_small, run<objects, sets>};
