# The pages, and programs of C and C++ that are built by what was installed.

# Each call and status of the header stands on the page of the library, and each subcommand of the program on its page.
rows_of_pages() {
    local word page
    for word in $(sed -n 's/^static inline [^(]*\b\(mvrlu_[a-z_]*\)(.*/\1/p' include/mvrlu.h | sort -u); do
        case $word in mvrlu_begin_call | mvrlu_end_call) continue ;; esac
        grep -q "^\.BR $word ()" docs/man/mvrlu.3 || fail "the page has no $word"
    done
    for word in $(sed -n '/enum mvrlu_status/,/^}/s/^ *\(MVRLU_[A-Z_]*\) = .*/\1/p' include/mvrlu.h); do
        grep -q "^\.B $word$" docs/man/mvrlu.3 || fail "the page has no $word"
        [ "$word" = MVRLU_OK ] || grep -q " = $word\b" include/mvrlu.hpp || fail "mvrlu.hpp has no $word"
    done
    for word in run gen work block pool grow replay; do
        grep -q "^\.B $word$" docs/man/mvrlu.1 || fail "the page of the program has no $word"
    done
    command -v groff >/dev/null || { echo "install: groff isn't there, not run"; return; }
    for page in docs/man/*; do
        [ -z "$(groff -man -Tutf8 -ww "$page" 2>&1 >/dev/null)" ] || fail "$page: $(groff -man -Tutf8 -ww "$page" 2>&1 >/dev/null)"
    done
}

# What pkg-config says of the prefix, or its file by hand where that isn't there.
words_of_prefix() {
    if command -v pkg-config >/dev/null; then
        PKG_CONFIG_PATH=$prefix/lib/pkgconfig pkg-config --cflags --libs mvrlu
    else
        sed -n 's/^\(Cflags\|Libs\): //p' "$prefix/lib/pkgconfig/mvrlu.pc" |
            sed "s|\${includedir}|$prefix/include|; s|\${libdir}|$prefix/lib|; s|\"||g" | xargs
    fi
}

# Builds a program by these words of a compiler, in a folder elsewhere, and runs it; what it prints has to begin with this.
expect() {
    local wanted=$1 said
    shift
    command -v "$1" >/dev/null || { echo "install: $1 isn't there, not run"; return; }
    # shellcheck disable=SC2046
    (cd "$room" && "$@" $(words_of_prefix) -o program) >"$room/log" 2>&1 || { fail "$* does not build: $(cat "$room/log")"; return; }
    said=$("$room/program" 2>&1) || fail "$* failed: $said"
    [[ $said == "$wanted"* ]] || fail "$* says something else: $said"
}

# Whether a program of nothing runs with these words of a compiler: not every kernel carries each sanitizer.
carries() {
    echo 'int main() { return 0; }' >"$room/nothing.cpp"
    "$@" "$room/nothing.cpp" -o "$room/nothing" >/dev/null 2>&1 && "$room/nothing" >/dev/null 2>&1 && return
    echo "install: $* doesn't run here, not run"
    return 1
}

# What each example says, by the name that CMake gives its program.
declare -A says_of_example=(
    [c_bank]='transfers 100000, each sum 64000'
    [c_list]='changes 40000, each walk 64 keys'
    [c_sessions]='renewals 40000, sessions 64 in the index'
    [cpp_bank]='transfers 100000, each sum 64000'
)

# Each example by the line that its head says, at a place that has nothing but the examples.
rows_of_examples() {
    local example said line name
    command -v pkg-config >/dev/null || { echo "install: pkg-config isn't there, so the lines in the heads of the examples aren't run"; return; }
    mkdir -p "$room/heads"
    ln -sfn "$top/examples" "$room/heads/examples"
    for example in "${!says_of_example[@]}"; do
        name=${example#*_}
        line=$(sed -n 's/^ \*     \(c[c+]* .* -o '"$name"'\).*/\1/p' examples/"${example%_*}/$name".c*)
        [ -n "$line" ] || { fail "the head of $example has no line that builds it"; continue; }
        (cd "$room/heads" && PKG_CONFIG_PATH=$prefix/lib/pkgconfig bash -c "$line") >"$room/log" 2>&1 ||
            { fail "$line: it does not build: $(cat "$room/log")"; continue; }
        said=$("$room/heads/$name" 2>&1) && [ "$said" = "${says_of_example[$example]}" ] || fail "$example says something else: $said"
    done
}

rows_of_programs() {
    local compiler tests example bank=${says_of_example[c_bank]}
    local strict=(-std=c++17 -Wall -Wextra -Werror) sanitized=(-g -fsanitize='address,undefined')
    command -v pkg-config >/dev/null || echo "install: pkg-config isn't there, not run: its file is read by hand"
    [[ $(words_of_prefix) == *-pthread*-lmvrlu*-pthread* ]] || fail "other words of pkg-config: $(words_of_prefix)"
    rows_of_examples
    for example in list sessions; do
        expect "${says_of_example[c_$example]}" cc -std=c11 -Wall -Wextra -Werror -O2 "$top/examples/c/$example.c"
    done
    for compiler in g++ clang++; do
        for tests in calls sets table; do expect "$tests: " "$compiler" "${strict[@]}" "$top/tests/install/$tests.cpp"; done
        carries "$compiler" "${sanitized[@]}" || continue
        expect "$bank" "$compiler" "${strict[@]}" "${sanitized[@]}" "$top/examples/cpp/bank.cpp"
        for tests in calls sets table; do expect "$tests: " "$compiler" "${strict[@]}" "${sanitized[@]}" "$top/tests/install/$tests.cpp"; done
    done
    mv "$prefix" "$room/moved"
    prefix=$room/moved
    expect "$bank" cc "$top/examples/c/bank.c"
}

# The same examples by CMake, of a copy of the prefix elsewhere, and the versions that it finds there.
rows_of_cmake() {
    local built=$room/built-by-cmake by said version major cmake=(cmake "-DCMAKE_PREFIX_PATH=$room/a copy")
    command -v cmake >/dev/null || { echo "install: cmake isn't there, not run"; return; }
    cp -a "$prefix" "$room/a copy"
    "${cmake[@]}" -S examples -B "$built" >"$room/log" 2>&1 && cmake --build "$built" >>"$room/log" 2>&1 ||
        { fail "the examples aren't built by cmake: $(cat "$room/log")"; return; }
    for by in "${!says_of_example[@]}"; do
        said=$("$built/$by" 2>&1) && [ "$said" = "${says_of_example[$by]}" ] || fail "$by by cmake says something else: $said"
    done
    version=$(sed -n 's/^Version: //p' "$prefix/lib/pkgconfig/mvrlu.pc")
    major=${version%.*}
    for by in '' "$major" "$version" "$version EXACT"; do
        finds_by_cmake "$by" || fail "cmake doesn't find version $by: $(cat "$room/log")"
    done
    for by in "$((major - 1)).9" "$major.$((${version#*.} + 1))" "$((major + 1))" "$major.99 EXACT"; do
        ! finds_by_cmake "$by" || fail "cmake finds a version $by"
        grep -q "mvrlu-config.cmake, version: $version" "$room/log" || fail "cmake doesn't say which version is there: $(cat "$room/log")"
    done
}

# Whether cmake finds the library there, of so much of a version.
finds_by_cmake() {
    mkdir -p "$room/finds"
    printf 'cmake_minimum_required(VERSION 3.13)\nproject(finds C)\nfind_package(mvrlu %s REQUIRED)\n' "$1" >"$room/finds/CMakeLists.txt"
    rm -rf "$room/finds/built"
    "${cmake[@]}" -S "$room/finds" -B "$room/finds/built" >"$room/log" 2>&1
}

# The program beside the library, where its proved binary is current; and the library alone behind it.
rows_of_the_program() {
    if ! is_program_current; then
        echo "install: the proved program isn't current, not run"
    else
        says 0 'the program and the library for C and C++ are installed in' install "$prefix"
        cmp -s crates/mvrlu_main/out/mvrlu_main "$prefix/bin/mvrlu" && [ -e "$prefix/share/man/man1/mvrlu.1" ] || fail "no program: $(find "$prefix")"
        printf 'add l0 5\nhas l0 5\n' >"$room/a"
        [ "$(env -i "$prefix/bin/mvrlu" run "$room/a" | head -n 2 | xargs)" = '0.1 c1 yes 0.2 r1 yes' ] || fail 'the program says something else'
        run install --library "$prefix"
        [ ! -e "$prefix/bin" ] && [ ! -e "$prefix/share/man/man1" ] || fail 'the program stays where the library alone is installed'
    fi
    run uninstall "$prefix"
    [ "$status" = 0 ] && [ -z "$(ls -A "$prefix")" ] || fail "uninstall leaves $(find "$prefix")"
}

is_program_current() {
    local crate=mvrlu_main made=mvrlu_main
    (. tools/front/sources.sh; is_current)
}
