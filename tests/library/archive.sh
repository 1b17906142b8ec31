#!/bin/bash
# Builds the library for C, where it isn't current, and one archive of it and of the kit's heap functions, so that a program links one
# file: archive.sh FILE. What the library stands on is not proved again where `rt ci` proved it on this machine.
top=$(cd "$(dirname "$0")/../.." && pwd) || exit 1
crate=mvrlu_c made=libmvrlu_c.a
# shellcheck source=tools/front/sources.sh
. "$top/tools/front/sources.sh"
is_current || "$top/build" mvrlu_c || exit 1
printf 'create %s\naddlib %s\naddlib %s\nsave\nend\n' "$1" "$binary" "$(dirname "$(rt doc)")/c/liblibc_c.a" | ar -M
