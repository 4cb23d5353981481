#!/bin/sh
# Measures how many bytes of stack each function of the library needs (see stack.c): the numbers of NARDIPLEX_STACK_.. .
#
#     stack.sh [LIBRARY [BESIDE]..]
set -eu
here=$(cd "$(dirname "$0")" && pwd)
root=$(dirname "$(dirname "$here")")
if [ $# = 0 ]; then
    "$root/library" > /dev/null
    set -- "$root/target/staticlib/libnardiplex.a"
fi
mkdir -p "$root/target/c"
# Bound at the start: the first call of memcpy would else bind it, on this stack.
cc -std=c99 -Wl,-z,now -Wall -Wextra -Werror -O1 -I"$root/include" -o "$root/target/c/stack" "$here/stack.c" "$@" -lpthread
"$root/target/c/stack"
