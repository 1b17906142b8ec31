/* Each allocation refused in turn, those of C++ and those of the library: an opening throws, and then nothing is open and nothing taken. Linked
 * with -Wl,--wrap=malloc,--wrap=realloc,--wrap=free. Prints how many were refused, and ends with 1 at a fault. */
#include <mvrlu_sets.hpp>
#include <mvrlu_table.hpp>

#include <cstdio>
#include <cstdlib>
#include <new>

namespace {

constexpr std::size_t SEATS = 3;

unsigned long asked, refused_at;
long taken;

/* Whether this request is the one to be refused. */
bool is_refused() { return ++asked == refused_at; }

/* Hands on what was taken, and counts it. */
void *count(void *block) {
    taken += block != nullptr;
    return block;
}

} // namespace

extern "C" {

void *__real_malloc(std::size_t size);
void *__real_realloc(void *block, std::size_t size);
void __real_free(void *block);

void *__wrap_malloc(std::size_t size) { return is_refused() ? nullptr : count(__real_malloc(size)); }

void *__wrap_realloc(void *block, std::size_t size) {
    if (is_refused()) return nullptr;
    void *other = __real_realloc(block, size);
    return block == nullptr ? count(other) : other;
}

void __wrap_free(void *block) {
    taken -= block != nullptr;
    __real_free(block);
}

} // extern "C"

void *operator new(std::size_t size) {
    void *block = __wrap_malloc(size);
    if (block == nullptr) throw std::bad_alloc();
    return block;
}

void *operator new(std::size_t size, std::align_val_t alignment) {
    void *block = nullptr;
    if (is_refused() || posix_memalign(&block, static_cast<std::size_t>(alignment), size) != 0) throw std::bad_alloc();
    return count(block);
}

void operator delete(void *block) noexcept { __wrap_free(block); }
void operator delete(void *block, std::size_t) noexcept { __wrap_free(block); }
void operator delete(void *block, std::align_val_t) noexcept { __wrap_free(block); }
void operator delete(void *block, std::size_t, std::align_val_t) noexcept { __wrap_free(block); }

namespace {

[[noreturn]] void fail(const char *of, const char *what) {
    std::printf("refused.cpp: %s: %s (request %lu)\n", of, what, refused_at);
    std::exit(1);
}

/* Whether an opening went through. */
template <class Open>
bool opens(const char *of, const Open &open) {
    try {
        if (open() != SEATS) fail(of, "other seats");
        return true;
    } catch (const mvrlu::error &why) {
        if (why.code() != mvrlu::errc::no_memory) fail(of, why.what());
    } catch (const std::bad_alloc &) {
    }
    return false;
}

/* Refuses one request after another until none is left to refuse, and tells how many there were. */
template <class Open>
unsigned long refuse_each(const char *of, const Open &open) {
    for (refused_at = 1;; refused_at++) {
        asked = 0;
        bool through = opens(of, open);
        if (taken != 0) fail(of, "blocks that are left");
        if (through != (asked < refused_at)) fail(of, "it went through, or did not");
        if (through) return refused_at - 1;
    }
}

} // namespace

int main() {
    std::setvbuf(stdout, nullptr, _IONBF, 0);
    unsigned long objects = refuse_each("objects", [] { return mvrlu::open({}, SEATS).size(); });
    unsigned long sets = refuse_each("sets", [] { return mvrlu::open_sets({}, SEATS).size(); });
    unsigned long tables = refuse_each("a table", [] { return mvrlu::open_table({MVRLU_TABLE_OBJECTS_MIN}, SEATS).size(); });
    std::printf("refused to C++: %lu of objects, %lu of sets, %lu of a table\n", objects, sets, tables);
    return objects <= SEATS || sets <= SEATS || tables <= SEATS;
}
