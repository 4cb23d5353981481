#!/bin/sh
# Prints every text of tests/vectors/graph by the program graph, and compares with what it should print.
#     graphs.sh PROGRAM
bad=0 all=0
here=$(dirname "$0")
for text in "$here"/vectors/graph/*.in; do
    all=$((all + 1))
    "$1" < "$text" | cmp -s - "${text%.in}.out" || {
        echo "differs: $text"
        bad=$((bad + 1))
    }
done
echo "$all texts printed, $bad bad"
[ "$bad" = 0 ]
