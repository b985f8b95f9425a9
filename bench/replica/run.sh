#!/bin/sh
# How many instructions a node's replica takes for a command, by callgrind. They are the same in each run, whatever else the machine does.
#
# usage: bench/replica/run.sh PROGRAM
#
# PROGRAM is the built `benches`.
set -eu

program=$1
. "$(dirname "$0")/../work.sh"

# count ENTRIES: the instructions of a run, which must print how many commands acted
count() {
    valgrind --tool=callgrind --callgrind-out-file="$work/calls" "$program" replica "$1" 2>"$work/told" >"$work/out"
    [ "$(cat "$work/out")" = "$((16 * $1))" ] || { echo "$1 entries printed $(cat "$work/out")" >&2; exit 1; }
    awk '/ refs:/ { gsub(",", "", $NF); print $NF }' "$work/told"
}

none=$(count 0)
echo "| commands | instructions a command |"
echo "|---|---|"
for entries in 100 1000 5000; do
    all=$(($(count $entries) - none))
    echo "| $((16 * entries)) | $((all / (16 * entries))) |"
done
