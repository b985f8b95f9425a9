#!/bin/sh
# side_by_side.sh PROGRAM [LINES [RUNS [SHELF]]]: commands a second of PROGRAM, the built delos_sim, with 1, 2, 4 and 8 nodes: in turn, where no
# thread can be started (in_turn.c stands in front of the program); side by side, each node in a thread of its own, where the system has them run; and
# apart, where each thread has a processor of its own, as far as there are enough (apart.c). How many times as fast as in turn the last two are
# stands behind them. `run` has a barrier behind each hundredth line, behind each thousandth, and behind the last. gcc is needed.
#
# LINES is how many lines a script logs (15,000), RUNS how often each is measured (9): by turns, so that a while in which the machine is slow
# spoils none. SHELF is the shelf (native3). A rate is that of the least time, less the least of as many runs that do as little as can be.
set -eu
program=$1
lines=${2:-15000}
rounds=${3:-9}
shelf=${4:-native3}
runs=1
. "$(dirname "$0")/../times.sh"
. "$(dirname "$0")/lines.sh"
here=$(dirname "$0")
gcc -O2 -shared -fPIC -o "$work/in_turn.so" "$here/in_turn.c"
gcc -O2 -shared -fPIC -o "$work/apart.so" "$here/apart.c" -ldl

# timed COMMAND NODES LINES FILE: the microseconds of one run
timed() {
    # shellcheck disable=SC2046 # the words are split here
    microseconds 0 "$4" $(words "$1" "$shelf" "$2" "$3")
}

# one_round COMMAND NODES LEAST: the microseconds of a run and of one that does as little as can be
one_round() {
    echo "$(timed "$1" "$2" "$lines" "$work/script") $(timed "$1" "$2" "$3" "$work/empty")"
}

# least PLACE FILE: the least number of that column
least() {
    awk -v place="$1" '{ print $place }' "$2" | sort -n | head -1
}

# rate WAY: commands a second
rate() {
    echo $((lines * 1000000 / ($(least 1 "$work/$1") - $(least 2 "$work/$1"))))
}

# ratio A B: how many times A is of B, with two digits
ratio() {
    printf '%d.%02d' $(($1 / $2)) $(($1 * 100 / $2 % 100))
}

# row COMMAND NODES BARRIER: one row of the table
row() {
    case $1 in
        run) script "$lines" "$2" "$3" > "$work/script"; fewest=0 ;;
        make) : > "$work/script"; fewest=1 ;;
    esac
    for way in in_turn side apart; do : > "$work/$way"; done
    for _ in $(seq "$rounds"); do
        (export LD_PRELOAD="$work/in_turn.so"; one_round "$1" "$2" "$fewest") >> "$work/in_turn"
        one_round "$1" "$2" "$fewest" >> "$work/side"
        (export LD_PRELOAD="$work/apart.so"; one_round "$1" "$2" "$fewest") >> "$work/apart"
    done
    turn=$(rate in_turn)
    side=$(rate side)
    apart=$(rate apart)
    echo "| $1 | $3 | $2 | $turn | $side | $(ratio "$side" "$turn") | $apart | $(ratio "$apart" "$turn") |"
}

: > "$work/empty"
echo "| command | lines to a barrier | nodes | in turn | side by side | times | apart | times |"
echo "|---|---|---|---|---|---|---|---|"
for barrier in 100 1000 "$lines"; do
    for nodes in 1 2 4 8; do row run "$nodes" "$barrier"; done
done
for nodes in 1 2 4 8; do row make "$nodes" ""; done
