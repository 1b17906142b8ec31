/* What the tests of the headers for C++ ask by: an answer that is wrong is told with its place, and ends the program with 1. */
#ifndef WANT_HPP
#define WANT_HPP
#include <mvrlu.hpp>

#include <cstdio>
#include <cstdlib>
#include <system_error>

namespace {

unsigned long asked = 0;

void want(bool holds, const char *what, const char *file, int line) {
    asked++;
    if (holds) return;
    std::printf("%s:%d: not so: %s\n", file, line, what);
    std::exit(1);
}
#define WANT(what) want((what), #what, __FILE__, __LINE__)
#define WANT_THROWN(call, status) want(thrown([&] { (void)(call); }) == (status), #call " throws " #status, __FILE__, __LINE__)

/* The code of what is thrown, and none where nothing is. */
template <class Call>
std::error_code thrown(Call &&call) {
    try {
        call();
    } catch (const mvrlu::error &why) {
        return why.code();
    }
    return {};
}

} // namespace
#endif
