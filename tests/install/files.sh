# What stands below a prefix after an install, after a second one, and after an uninstall.

library_files='include/mvrlu.h include/mvrlu.hpp include/mvrlu_replies.hpp include/mvrlu_sets.hpp include/mvrlu_table.hpp'
library_files+=' lib/cmake/mvrlu/mvrlu-config-version.cmake lib/cmake/mvrlu/mvrlu-config.cmake lib/libmvrlu.a lib/pkgconfig/mvrlu.pc'
library_files+=' share/man/man3/mvrlu.3 share/mvrlu/files'

rows_of_what_is_installed() {
    says 0 'the library for C and C++ is installed in' install --library "$prefix"
    [ "$(cd "$prefix" && find . -type f -printf '%P\n' | sort | xargs)" = "$library_files" ] || fail "other files: $(find "$prefix")"
    [ "$(grep -v '/$' "$prefix/share/mvrlu/files" | xargs)" = "$library_files" ] || fail "another list: $(cat "$prefix/share/mvrlu/files")"
    [ -z "$(find "$prefix" -type f ! -perm 644)" ] || fail "other modes: $(list "$prefix")"
    diff -r include "$prefix/include" >"$room/out" || fail "other headers: $(cat "$room/out")"
    [ "$(ar t "$prefix/lib/libmvrlu.a")" = "$(ar t "$room/libmvrlu.a")" ] || fail 'another archive'
    cmp -s "$prefix/lib/libmvrlu.a" "$room/libmvrlu.a" || fail 'other bytes in the archive'
    ! grep -rq '@[a-z]*@' "$prefix/lib/pkgconfig" "$prefix/lib/cmake" || fail 'a file of the package has a word that was to be filled in'
    nm "$prefix/lib/libmvrlu.a" 2>/dev/null | grep -q ' T rattle_alloc$' || fail 'the archive has no heap functions'
    (cd "$room" && "$top/mvrlu" install --library 'a relative one' 2>"$room/err") || fail "a relative prefix: $(cat "$room/err")"
    [ "$(cd "$room/a relative one" && find . | sort)" = "$(cd "$prefix" && find . | sort)" ] || fail 'a relative prefix has other files'
}

# It replaces the first whole: what the first had beside it goes, files of others stay, and nothing is done twice.
rows_of_a_second_install() {
    printf 'lib/old.a\nold/deep/one\nold/\nold/deep/\n' >>"$prefix/share/mvrlu/files"
    mkdir -p "$prefix/old/deep"
    touch "$prefix/lib/old.a" "$prefix/old/deep/one" "$prefix/include/theirs.h"
    echo changed >"$prefix/include/mvrlu.h"
    run install --library "$prefix"
    [ "$status" = 0 ] || fail "a second install ends with $status: $(cat "$room/err")"
    [ ! -e "$prefix/lib/old.a" ] && [ ! -e "$prefix/old" ] || fail 'a second install leaves files of the first'
    [ -e "$prefix/include/theirs.h" ] || fail 'a second install takes a file of others away'
    cmp -s include/mvrlu.h "$prefix/include/mvrlu.h" || fail 'a second install keeps an old header'
    [ "$(grep -v '/$' "$prefix/share/mvrlu/files" | xargs)" = "$library_files" ] || fail "a second list: $(cat "$prefix/share/mvrlu/files")"
    rm "$prefix/include/theirs.h"
}

# It takes away what was installed and the folders made for it, and nothing else.
rows_of_uninstall() {
    says 0 'nothing of ./mvrlu install is left in' uninstall "$room/a relative one"
    [ -z "$(ls -A "$room/a relative one")" ] || fail "uninstall leaves $(find "$room/a relative one")"
    says 1 'has no share/mvrlu/files' uninstall "$room/a relative one"
    local other=$room/other
    mkdir -p "$other/bin" "$other/lib/pkgconfig"
    touch "$other/bin/mvrlu.sh"
    run install --library "$other"
    touch "$other/share/theirs"
    rm "$other/include/mvrlu.h"
    run uninstall "$other"
    [ "$(cd "$other" && find . -mindepth 1 | sort | xargs)" = './bin ./bin/mvrlu.sh ./lib ./lib/pkgconfig ./share ./share/theirs' ] ||
        fail "uninstall with files of others leaves $(find "$other")"
    mkdir -p "$other/share/mvrlu"
    touch "$room/far"
    for line in ../far "$room/far" bin/../../far; do
        echo "$line" >"$other/share/mvrlu/files"
        says 1 "this list isn't one of ./mvrlu install" uninstall "$other"
        [ -e "$room/far" ] || fail "uninstall takes away $line"
    done
}
