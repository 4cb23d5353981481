#!/bin/sh
# Builds the second program.
#
#     build.sh [--out FOLDER] [LIBRARY [BESIDE]..]
#
# vectors: runs the vectors and the known answers against the model. compare_self: the comparison without the library.
# With the path of libnardiplex.a, and of what is to be linked beside it, also vectors_library: the vectors and the known
# answers against the library, and compare: the comparison with the library. With the word plain in its place: the same
# two with the plain baseline of the benchmark, vectors_plain and compare_plain. What is built goes into
# FOLDER, else into target/second.
set -eu
here=$(dirname "$0")
out=target/second
if [ "${1:-}" = "--out" ]; then
    out=$2
    shift 2
fi
linked="--cfg linked"
mkdir -p "$out"
compile() {
    rustc --edition 2021 -O "$@"
}
compile -o "$out/vectors" "$here/vectors.rs"
compile --cfg self_only -o "$out/compare_self" "$here/compare.rs"
[ $# -gt 0 ] || exit 0
name=library
compare=compare
if [ "$1" = "plain" ]; then
    compile --crate-type staticlib -C panic=abort -o "$out/libplain.a" "$here/../bench/plain_c.rs"
    set -- "$out/libplain.a"
    name=plain
    compare=compare_plain
fi
for file; do
    linked="$linked -C link-arg=$file"
done
# shellcheck disable=SC2086
compile $linked -o "$out/vectors_$name" "$here/vectors.rs"
# shellcheck disable=SC2086
compile $linked -o "$out/$compare" "$here/compare.rs"
