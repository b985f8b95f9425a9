#!/bin/sh
# Turns a second of the pass lock, and of std's Mutex in Rust, with 1, 2, 4 and 8 threads.
#
# usage: bench/pass_lock/run.sh PROGRAM [TURNS [RUNS]]
#
# PROGRAM is the built `benches`. TURNS is the number of turns of all threads together (2,000,000), RUNS how often each is measured (7).
set -eu

program=$1
turns=${2:-2000000}
runs=${3:-7}
here=$(dirname "$0")
. "$here/../rates.sh"
rustc -O -o "$work/mutex" "$here/mutex.rs"

# locked TURNS THREADS, in_mutex TURNS THREADS: one run, in which each thread has so many turns
locked() {
    "$program" lock "$2" "$1"
}
in_mutex() {
    "$work/mutex" "$2" "$1"
}

# measure NAME RUN THREADS: one row
measure() {
    each=$((turns / $3))
    echo "| $1 | $3 | $(rates $((each * $3)) "$2" "$each" "$3") |"
}

echo "| lock | threads | turns a second, best | median |"
echo "|---|---|---|---|"
for threads in 1 2 4 8; do
    measure "pass lock" locked $threads
    measure "std Mutex" in_mutex $threads
done
