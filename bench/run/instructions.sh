#!/bin/sh
# instructions.sh PROGRAM: how many instructions PROGRAM, the built delos_sim, takes for a command of `run` and of `make`, at 1,000, 5,000 and
# 15,000 logged lines, by callgrind; those of a run that does as little as can be are left out. Nodes work in turn (in_turn.c stands in front of the
# program), so they are the same in each run but for some hundreds, whatever else the machine does. gcc is needed.
set -eu
program=$1
. "$(dirname "$0")/../work.sh"
. "$(dirname "$0")/lines.sh"
gcc -O2 -shared -fPIC -o "$work/in_turn.so" "$(dirname "$0")/in_turn.c"

# count FILE WORD..: the instructions of a run
count() {
    file=$1
    shift
    LD_PRELOAD="$work/in_turn.so" valgrind --tool=callgrind --callgrind-out-file="$work/calls" "$program" "$@" < "$file" 2> "$work/told" > "$work/text"
    awk '/ refs:/ { gsub(",", "", $NF); print $NF }' "$work/told"
}

# row COMMAND SHELF NODES LINES FILE LEAST EMPTY: one row
row() {
    # shellcheck disable=SC2046 # the words are split here
    all=$(($(count "$5" $(words "$1" "$2" "$3" "$4")) - $(count "$7" $(words "$1" "$2" "$3" "$6"))))
    echo "| $1 | $2 | $3 | $4 | $all | $((all / $4)) |"
}

echo "| command | shelf | nodes | lines | instructions | a command |"
echo "|---|---|---|---|---|---|"
each_row row file native3 striped2
