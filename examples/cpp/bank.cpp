/* The bank of examples/c/bank.c in C++: threads move money between accounts while others add all accounts up. Each sum is that
 * of one state, so each is the whole. docs/C.md says how the library is installed; then, at the top of the repository:
 *     c++ -std=c++17 -O2 examples/cpp/bank.cpp $(pkg-config --cflags --libs mvrlu) -o bank */
#include <mvrlu.hpp>

#include <atomic>
#include <cstdint>
#include <cstdio>
#include <cstdlib>
#include <optional>
#include <system_error>
#include <thread>
#include <vector>

namespace {

constexpr std::uint32_t accounts = 64;
constexpr std::uint64_t opening = 1000;
constexpr int transfers = 50000, tellers = 2, auditors = 2;
constexpr unsigned tries = 1000;
constexpr std::size_t balance = 0; // the word of an account that is its balance

std::atomic<int> working{tellers};

/* Moves an amount, where the giver has it. No time: others came first at each of the tries, and nothing was done. */
std::optional<mvrlu::time> transfer(mvrlu::seat &seat, std::uint32_t from, std::uint32_t to, std::uint64_t amount) {
    return seat.transact(tries, [=](mvrlu::section &section) -> std::error_code {
        if (auto refused = section.lock(from)) return refused;
        if (auto refused = section.lock(to)) return refused;
        mvrlu::words giver = section.read(from), taker = section.read(to);
        if (giver[balance] >= amount) {
            giver[balance] -= amount;
            taker[balance] += amount;
        }
        section.write(from, giver);
        section.write(to, taker);
        return {};
    });
}

/* Adds all accounts up, in one section. */
std::uint64_t sum(mvrlu::seat &seat) {
    mvrlu::section section = seat.enter();
    std::uint64_t all = 0;
    for (std::uint32_t account = 0; account < accounts; account++) all += section.read(account)[balance];
    return all;
}

void tell(mvrlu::seat seat, unsigned random) {
    for (int done = 0; done < transfers;) {
        random = random * 1664525u + 1013904223u;
        std::uint32_t from = (random >> 8) % accounts, to = (from + 1 + (random >> 20) % (accounts - 1)) % accounts;
        if (transfer(seat, from, to, random >> 28)) done++;
    }
    working--;
}

void audit(mvrlu::seat seat) {
    do {
        std::uint64_t all = sum(seat);
        if (all != accounts * opening) {
            std::fprintf(stderr, "a sum of %llu\n", static_cast<unsigned long long>(all));
            std::exit(1);
        }
    } while (working > 0);
}

void deposit(mvrlu::seat &seat, std::uint32_t account, std::uint64_t amount) {
    auto made = seat.transact(1, [=](mvrlu::section &section) -> std::error_code {
        if (auto refused = section.lock(account)) return refused;
        mvrlu::words words{};
        words[balance] = amount;
        section.write(account, words);
        return {};
    });
    if (!made) std::abort(); // nobody else is there
}

} // namespace

int main() {
    mvrlu::options options;
    options.objects = accounts;
    mvrlu::seats seats = mvrlu::open(options, tellers + auditors);
    for (std::uint32_t account = 0; account < accounts; account++) deposit(seats[0], account, opening);
    std::vector<std::thread> threads;
    for (int i = 0; i < tellers; i++) threads.emplace_back(tell, std::move(seats[i]), 99u + static_cast<unsigned>(i));
    for (int i = 0; i < auditors; i++) threads.emplace_back(audit, std::move(seats[tellers + i]));
    for (std::thread &thread : threads) thread.join();
    std::printf("transfers %d, each sum %d\n", tellers * transfers, static_cast<int>(accounts * opening));
}
