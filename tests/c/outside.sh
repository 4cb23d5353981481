#!/bin/sh
# Holds the library to what the header says of it: "calls nothing but memcpy and the like". What it needs from outside is memcpy
# and memset, which every C library and every bare board has.
#
#     outside.sh [LIBRARY]
set -eu
here=$(cd "$(dirname "$0")" && pwd)
root=$(dirname "$(dirname "$here")")
if [ $# = 0 ]; then
    "$root/library" > /dev/null
    set -- "$root/target/staticlib/libnardiplex.a"
fi
needs=$(nm -u "$1" | awk '$1 == "U" { print $2 }' | sort -u | tr '\n' ' ')
echo "the library needs from outside: $needs"
[ "$needs" = "memcpy memset " ] || { echo "it may need memcpy and memset alone"; exit 1; }
