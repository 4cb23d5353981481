#!/bin/sh
# Builds and runs the example in C and in Rust, and compares what they print with expected.txt.
#
#     run.sh [LIBRARY [BESIDE]..]
#
# LIBRARY is the path of libnardiplex.a, with what is to be linked beside it; without one, rt builds it.
set -eu
here=$(cd "$(dirname "$0")" && pwd)
root=$(dirname "$here")
if [ $# = 0 ]; then
    "$root/library" > /dev/null
    set -- "$root/target/staticlib/libnardiplex.a"
fi
out=$root/target/examples
mkdir -p "$out"
cc -std=c99 -pedantic -Wall -Wextra -Werror -O2 -I"$root/include" -o "$out/angle_then_mark_c" "$here/c/angle_then_mark.c" "$@"
links=
for file; do
    links="$links -C link-arg=$file"
done
# shellcheck disable=SC2086
rustc --edition 2021 -O -D warnings $links -o "$out/angle_then_mark_rust" "$here/rust/angle_then_mark.rs"
for program in angle_then_mark_c angle_then_mark_rust; do
    "$out/$program" > "$out/$program.txt" || { cat "$out/$program.txt"; echo "$program failed"; exit 1; }
    diff "$here/expected.txt" "$out/$program.txt" || { echo "$program prints something else"; exit 1; }
done
cat "$here/expected.txt"
echo "both examples print this"
