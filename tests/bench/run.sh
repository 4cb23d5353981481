#!/bin/sh
# Builds the plain baseline and the library, and times one against the other (see bench.rs). The baseline is compiled in
# three ways, one run each: where code happens to be placed shifts a ratio by more than the noise within a run, so the last
# table has the smallest and the largest ratio of the three.
#
#     run.sh [SECONDS [LIBRARY [BESIDE]..]]
#
# SECONDS for each row, 0.5 without it. LIBRARY is the path of libnardiplex.a, with what is to be linked beside it; without
# one, rt builds it.
set -eu
here=$(cd "$(dirname "$0")" && pwd)
root=$(dirname "$(dirname "$here")")
out=$root/target/bench
flags=
seconds=${1:-0.5}
[ $# = 0 ] || shift
if [ $# = 0 ]; then
    "$root/library" > /dev/null
    set -- "$root/target/staticlib/libnardiplex.a"
fi
for file; do
    flags="$flags -C link-arg=$file"
done
mkdir -p "$out"
compile() {
    rustc --edition 2021 -C opt-level=3 "$@"
}
# The name of a way, then its flags.
timed() {
    way=$1
    shift
    compile --crate-type rlib --crate-name plain "$@" -o "$out/libplain.rlib" "$here/plain.rs"
    # shellcheck disable=SC2086
    compile -C codegen-units=1 --extern plain="$out/libplain.rlib" $flags -o "$out/bench" "$here/bench.rs"
    printf '\n## Baseline with %s\n' "$way"
    "$out/bench" "$seconds" > "$out/$way.txt" || { cat "$out/$way.txt"; exit 1; }
    cat "$out/$way.txt"
}
timed "one unit" -C codegen-units=1
timed "sixteen units" -C codegen-units=16
timed "aligned blocks" -C codegen-units=1 -C llvm-args=-align-all-nofallthru-blocks=5

printf '\n## All three\n\n| work | library / plain, smallest | largest |\n|---|---|---|\n'
awk -F ' *[|] *' '
    $4 == "library" { head = $2; next }
    NF > 7 && $5 + 0 > 0 {
        row = head ": " $2
        if (!(row in low)) { order[++rows] = row; low[row] = high[row] = $5 }
        if ($5 + 0 < low[row] + 0) low[row] = $5
        if ($5 + 0 > high[row] + 0) high[row] = $5
    }
    END { for (i = 1; i <= rows; i++) print "| " order[i] " | " low[order[i]] " | " high[order[i]] " |" }
' "$out/one unit.txt" "$out/sixteen units.txt" "$out/aligned blocks.txt"
