# Words and prefixes that are refused by one line, and failures in the midst: nothing is left behind, and nothing is changed.

rows_of_bad_prefixes() {
    local words
    for words in 'install' 'install --library' 'install a b' 'install --library a b' 'install --all a' 'uninstall' 'uninstall --library a'; do
        # shellcheck disable=SC2086
        says 2 'with one folder' $words
    done
    says 2 'with one folder' install ''
    local bad=$room/bad before
    mkdir -p "$bad/away" "$bad/links" "$bad/foreign/include" "$bad/lying/lib"
    touch "$bad/file" "$bad/foreign/include/mvrlu.h"
    ln -s "$bad/away" "$bad/links/lib"
    ln -s "$bad/nowhere" "$bad/dangling"
    touch "$bad/lying/lib/pkgconfig"
    before=$(list "$bad")
    says 1 'Not a directory' install --library "$bad/file"
    says 1 'Not a directory' install --library "$bad/file/below/it"
    says 1 'File exists' install --library "$bad/dangling"
    says 1 "include/mvrlu.h is there, and isn't one of ./mvrlu install" install --library "$bad/foreign"
    says 1 'links/lib: a link leads out of the prefix' install --library "$bad/links"
    says 1 'lying/lib/pkgconfig' install --library "$bad/lying"
    says 1 'No such file' install --library /proc/mvrlu/prefix
    says 1 'has no share/mvrlu/files' uninstall "$bad/file"
    says 1 'has no share/mvrlu/files' uninstall "$bad/absent"
    says 1 'has no share/mvrlu/files' uninstall "$bad/foreign"
    (flock -x 9 && says 1 'another ./mvrlu install or uninstall is under way' install --library "$bad/away"; exit "$failed") 9<"$bad/away" || failed=1
    rows_of_prefixes_without_leave "$bad"
    [ "$(list "$bad")" = "$before" ] || fail "something is left behind: $(list "$bad")"
}

# A folder in which nobody may write. The superuser may, and so is called without that right, where it can be given up.
rows_of_prefixes_without_leave() {
    if [ "$(id -u)" = 0 ]; then
        as=(setpriv --bounding-set=-all --inh-caps=-all)
        "${as[@]}" true 2>/dev/null || { echo 'install: the rights of the superuser stay, not run'; as=(); return; }
    fi
    mkdir "$1/closed"
    chmod 555 "$1/closed"
    says 1 'closed/below: Permission denied' install --library "$1/closed/below"
    says 1 'closed/.mvrlu-install: Permission denied' install --library "$1/closed"
    chmod 755 "$1/closed"
    run install --library "$1/closed"
    chmod 555 "$1/closed/lib"
    says 1 "closed/lib can't be written" uninstall "$1/closed"
    chmod 755 "$1/closed/lib"
    [ "$(find "$1/closed" -type f | wc -l)" = "$(wc -w <<<"$library_files")" ] || fail 'an uninstall that is refused takes something away'
    run uninstall "$1/closed"
    rmdir "$1/closed" || fail 'uninstall leaves something'
    as=()
}

# A move that fails in the midst, and a kit that doesn't answer: the first install is as it was, and an absent prefix is absent.
rows_of_failures() {
    local before page=$prefix/share/man/man3/mvrlu.3
    echo old >"$prefix/include/mvrlu.h"
    rm "$page"
    mkdir -p "$page"
    touch "$page/theirs"
    before=$(list "$prefix")
    says 1 'mvrlu.3' install --library "$prefix"
    [ "$(list "$prefix")" = "$before" ] || fail "a failed install changes files: $(diff <(echo "$before") <(list "$prefix"))"
    rm -r "$page"
    run install --library "$prefix"
    [ "$status" = 0 ] && cmp -s include/mvrlu.h "$prefix/include/mvrlu.h" || fail "an install behind a failed one: $(cat "$room/err")"
    mkdir "$room/no"
    printf '#!/bin/sh\nexit 1\n' >"$room/no/rt"
    chmod +x "$room/no/rt"
    as=(env "PATH=$room/no:$PATH")
    says 1 "rt doc doesn't answer: this needs the Rattle kit, with rt on the path" install --library "$room/absent/prefix"
    [ ! -e "$room/absent" ] || fail 'a failed install leaves its prefix'
    as=()
}
