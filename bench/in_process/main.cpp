/* Measures all rows of the words on all stores, and prints tables in Markdown: in_process SECONDS ROUNDS WORD..
 * A word is objects, list, tree, table or million. Each run of a row on a store by 1, 2 or 4 threads takes SECONDS; it is made in each of the
 * ROUNDS, each of which has an order of its own, and the best one counts. */
#include "stores.hpp"

#include <algorithm>
#include <cmath>
#include <cstdio>
#include <cstdlib>
#include <cstring>
#include <random>
#include <vector>

namespace {

using namespace bench;

constexpr unsigned thread_counts[] = {1, 2, 4};
constexpr const char *words_of_rows[] = {"objects", "list", "tree", "table", "million"};
constexpr unsigned many_keys = 1000000;
constexpr double nearly = 0.05;  // how far apart the shares of yes may be
constexpr double enough = 10000; // of how many operations a share says something

const store *const stores[] = {
    &mvrlu_store, &mvrlu_unchecked_store, &locked_store, &itm_store, &hashed_store, &grown_store,
#ifdef WITH_URCU
    &urcu_store,
#endif
#ifdef WITH_LMDB
    &lmdb_store,
#endif
};
constexpr unsigned library = 0, locked = 2, itm = 3;

const char *name(kind kind) {
    switch (kind) {
        case kind::objects: return "objects";
        case kind::list: return "list";
        case kind::tree: return "tree";
        default: return "table";
    }
}

/* The rows of two sets of a kind with so many keys. */
void add_rows(std::vector<row> &rows, kind kind, unsigned keys) {
    for (auto [changes, moves] : {std::pair(0u, 0u), {10u, 0u}, {50u, 0u}, {0u, 50u}}) rows.push_back({kind, keys, changes, moves});
}

/* The rows of a word, in the order of the table. */
std::vector<row> rows_of(const char *word) {
    std::vector<row> rows;
    if (std::strcmp(word, "million") == 0) add_rows(rows, kind::tree, many_keys);
    for (kind kind : {kind::list, kind::tree, kind::table})
        if (std::strcmp(word, name(kind)) == 0)
            for (unsigned keys : {10u, 100u, 1000u}) add_rows(rows, kind, keys);
    if (std::strcmp(word, name(kind::objects)) == 0)
        rows = {{kind::objects, 1, 0, 0}, {kind::objects, 10, 0, 0}, {kind::objects, 100, 0, 0}, {kind::objects, 0, 0, 0}};
    return rows;
}

std::string title(const row &row) {
    if (row.kind == kind::objects) return row.size == 0 ? "a transfer between 2" : "a read of " + std::to_string(row.size);
    std::string keys = std::string(name(row.kind)) + " | " + std::to_string(row.size) + " | ";
    if (row.moves != 0) return keys + std::to_string(row.moves) + " % move";
    return keys + (row.changes == 0 ? "has" : std::to_string(row.changes) + " % add, del");
}

/* The best outcome of a row on a store by so many threads. */
struct cell {
    unsigned row, store, threads;
    outcome best{0, 0, 0};
};

std::vector<cell> cells_of(const std::vector<row> &rows) {
    std::vector<cell> cells;
    for (unsigned at = 0; at < rows.size(); at++)
        for (unsigned store = 0; store < std::size(stores); store++)
            if (stores[store]->fits(rows[at]))
                for (unsigned threads : thread_counts) cells.push_back({at, store, threads});
    return cells;
}

void measure_all(const std::vector<row> &rows, std::vector<cell> &cells, double seconds, unsigned rounds) {
    std::vector<unsigned> order(cells.size());
    for (unsigned i = 0; i < order.size(); i++) order[i] = i;
    std::mt19937 random(1);
    for (unsigned round = 0; round < rounds; round++) {
        std::shuffle(order.begin(), order.end(), random);
        for (unsigned i = 0; i < order.size(); i++) {
            cell &one = cells[order[i]];
            outcome now = stores[one.store]->run(rows[one.row], one.threads, seconds);
            if (now.rate > one.best.rate) one.best = now;
            if (i % 50 == 0) std::fprintf(stderr, "round %u of %u: %u of %zu runs\n", round + 1, rounds, i, order.size());
        }
    }
}

const cell *find(const std::vector<cell> &cells, unsigned row, unsigned store, unsigned threads) {
    for (const cell &one : cells)
        if (one.row == row && one.store == store && one.threads == threads) return &one;
    return nullptr;
}

/* Operations have the same replies on all stores, in so far as they are drawn alike. */
bool agree(const std::vector<row> &rows, const std::vector<cell> &cells) {
    bool all = true;
    for (const cell &one : cells) {
        const outcome &with_lock = find(cells, one.row, locked, one.threads)->best;
        if (std::abs(one.best.yes - with_lock.yes) <= nearly || std::min(one.best.count, with_lock.count) < enough) continue;
        std::fprintf(stderr, "bench/library: %s, %s, %u threads: %.2f of the replies are yes, and %.2f with the lock\n",
                     title(rows[one.row]).c_str(), stores[one.store]->name, one.threads, one.best.yes, with_lock.yes);
        all = false;
    }
    return all;
}

void print_cell(const std::vector<cell> &cells, unsigned row, unsigned store) {
    std::printf(" |");
    for (unsigned threads : thread_counts) {
        const cell *one = find(cells, row, store, threads);
        if (one == nullptr) return (void)std::printf(" -");
        std::printf(one->best.rate < 10 ? " %.2f" : " %.1f", one->best.rate);
    }
}

void print_table(const std::vector<row> &rows, const std::vector<cell> &cells, bool objects) {
    std::printf(objects ? "\n| Section" : "\n| Set | Keys | Mix");
    for (const store *one : stores) std::printf(" | %s", one->name);
    std::printf(objects ? " |\n|---" : " |\n|---|---|---");
    for (unsigned i = 0; i < std::size(stores); i++) std::printf("|---");
    std::printf("|\n");
    for (unsigned at = 0; at < rows.size(); at++) {
        if ((rows[at].kind == kind::objects) != objects) continue;
        std::printf("| %s", title(rows[at]).c_str());
        for (unsigned store = 0; store < std::size(stores); store++) print_cell(cells, at, store);
        std::printf(" |\n");
    }
}

/* What the library's rate is as a multiple of another store's: in the mean, and where it is below 1. */
void compare(const std::vector<row> &rows, const std::vector<cell> &cells, unsigned other, unsigned threads) {
    double logs = 0;
    unsigned count = 0;
    std::string behind;
    for (unsigned at = 0; at < rows.size(); at++) {
        const cell *own = find(cells, at, library, threads), *theirs = find(cells, at, other, threads);
        if (own == nullptr || theirs == nullptr) continue;
        double ratio = own->best.rate / theirs->best.rate;
        logs += std::log(ratio), count++;
        if (ratio >= 1) continue;
        std::string row = title(rows[at]);
        for (std::size_t bar; (bar = row.find(" | ")) != std::string::npos;) row.replace(bar, 3, " ");
        char told[16];
        std::snprintf(told, sizeof told, " (%.2f)", ratio);
        behind += (behind.empty() ? "" : "; ") + row + told;
    }
    if (count == 0) return;
    std::printf("%s beside %s, %u thread%s: %.2f times as fast in the geometric mean of %u rows; behind in %s\n", stores[library]->name,
                stores[other]->name, threads, threads == 1 ? "" : "s", std::exp(logs / count), count, behind.empty() ? "none" : behind.c_str());
}

std::vector<row> rows_of_words(int count, char **words) {
    std::vector<row> rows;
    for (const char *word : words_of_rows)
        for (int i = 0; i < count; i++)
            if (std::strcmp(words[i], word) == 0)
                for (const row &one : rows_of(word)) rows.push_back(one);
    return rows;
}

} // namespace

int main(int count, char **words) {
    std::vector<row> rows = rows_of_words(count - 3, words + 3);
    std::vector<cell> cells = cells_of(rows);
    measure_all(rows, cells, std::atof(words[1]), static_cast<unsigned>(std::atoi(words[2])));
    for (bool objects : {true, false})
        if (std::any_of(rows.begin(), rows.end(), [&](const row &one) { return (one.kind == kind::objects) == objects; }))
            print_table(rows, cells, objects);
    std::printf("\n");
    for (unsigned other : {locked, itm})
        for (unsigned threads : thread_counts) compare(rows, cells, other, threads);
    return agree(rows, cells) ? 0 : 1;
}
