# Whether what was built of a crate, the proved program or the library for C, is that of the sources as they are. To be read by
# bash, with $top set, and $crate and $made, the crate and the name of the file in its folder out.
#
# Beside the binary stands its stamp: in the first line the folders of the crates that the program stands on, and then size and
# time of each of their sources and of the binary, which are those of the moment before the proof began.
made=crates/$crate/out/$made
binary=$top/$made
stamp=${binary%/*}/sources

# Prints the folders of a crate of crates.txt, and of all that it stands on, relative to the top: also those that aren't there yet.
list_folders() {
    local -A uses=() seen=()
    local line name left=("$1") used folder
    while IFS= read -r line; do
        [[ $line == \#* || $line != *:* ]] || uses[${line%%[ :]*}]=${line#*:}
    done <"$top/crates.txt"
    while [ "${#left[@]}" -gt 0 ]; do
        name=${left[0]}
        left=("${left[@]:1}")
        [ -n "${uses[$name]+there}" ] && [ -z "${seen[$name]-}" ] || continue
        seen[$name]=1
        for used in ${uses[$name]}; do left+=("$used"); done
    done
    for name in "${!seen[@]}"; do
        for folder in src specs proofs; do echo "crates/$name/$folder"; done
    done
}

# Prints the folders, and then a line for each source in them, with its size and time, and for the binary. It ends the shell.
list_sources() {
    echo "$*"
    cd "$top" && exec find "$@" crates.txt HANDLES "$made" -type f -printf '%s %T@ %p\n' 2>/dev/null
}

# Whether a source in the folders is newer than the binary.
has_newer() {
    [ -n "$(cd "$top" && find "$@" crates.txt HANDLES -type f -newer "$made" -print -quit 2>/dev/null)" ]
}

# Writes the stamp, where that can be: these lines.
write_stamp() {
    echo "$1" 2>/dev/null >"$stamp.$$" && mv -f "$stamp.$$" "$stamp"
}

# Prints the sources of the crate, without the binary.
list_program() {
    # shellcheck disable=SC2046
    list_sources $(list_folders "$crate") | grep -vF "/${made#crates/}"
}

# Writes the stamp of the sources and the binary as they are.
stamp_program() {
    # shellcheck disable=SC2046
    write_stamp "$(list_sources $(list_folders "$crate"))"
}

# Whether the stamp is that of the binary as it is.
is_of_binary() {
    grep -qxF "$(cd "$top" && find "$made" -printf '%s %T@ %p')" "$stamp"
}

# Whether the binary is there and its stamp is that of the sources. A binary without a stamp of its own was left by `rt` itself,
# and is current where no source is newer. In `state` stands why it isn't: `absent` or `older`.
is_current() {
    local folders='' listed
    state=absent
    [ -x "$binary" ] || [[ $binary == *.a && -f $binary ]] || return
    state=older
    if read -r folders 2>/dev/null <"$stamp"; then
        # shellcheck disable=SC2086
        listed=$(list_sources $folders)
        [ "$listed" != "$(<"$stamp")" ] || return 0
        # Another order of a folder's files isn't a change.
        [ "$(sort <<<"$listed")" != "$(sort "$stamp")" ] || return 0
        ! is_of_binary || return
    fi
    folders=$(list_folders "$crate")
    # shellcheck disable=SC2086
    ! has_newer $folders || return
    stamp_program
    return 0
}
