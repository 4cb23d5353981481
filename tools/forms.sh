#!/bin/sh
# Counts the places of docs/DESIGN-PASS.md in the sources: one line for each pattern, with how many lines it finds. With -l it lists them.
cd "$(dirname "$0")/.." || exit 1
list=$1

find_in() {
    found=$(grep -nE "$2" crates/*/src/*.rt)
    printf '%5s  %s\n' "$(printf '%s' "$found" | grep -c .)" "$1"
    if [ "$list" = -l ]; then printf '%s\n' "$found" | sed 's/^/       /'; fi
}

find_in '1 types: enums and structs' '^(pub )?(enum|struct) '
find_in '1 a flag beside a value' '^ +(pub )?(ok|there|full|stopped): bool,'
find_in '1 a variant for nothing' '^ +(Nothing|Not|Junk|Full|Fine|Accepted|NotAGraph),'
find_in '1 a number for a model, a kind or an operation' '\b(model|kind|op|o): u32\b'
find_in '2 constants' '^ *(pub )?const '
find_in '2 four of a kind: t0.. or e0.. or n0.. in a signature' '\b(t0|e0|n0): &'
find_in '3 loops that count by hand: while and loop' '\b(while .*|loop) \{'
find_in '3 loops over what they go through: for' '\bfor .* in .*\{'
find_in '4 numbers under line and node compared' '\.0 (==|!=) |(==|!=) (line|node|q)\.0'
find_in '4 conversions and comparisons by hand' 'fn (instr_of|op_numbers|op_named|op_of|model_of|kind_of|later_kind|number_of|place_of|edge_of|same)\b'
find_in '5 facts that callers prove: requires' 'requires \{'
find_in '6 arrays in structs' '^ +(pub )?[a-z_]+: \[(Line|u32|Generated|ThreadState|bool); '
