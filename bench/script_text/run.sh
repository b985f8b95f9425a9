#!/bin/sh
# run.sh PROGRAM [RUNS]: the least and the median time of PROGRAM, the built delos_sim, on scripts of 1,000, 5,000 and
# 20,000 lines, in microseconds.
#   empty: no line, so the program's start alone
#   parse: the last line breaks a rule, so that the script is parsed and nothing is run
#   reads: each line is a get, so that rows are made and printed over an empty log
#   whole: puts, adds, gets and barriers
set -eu
program=$1
runs=${2:-7}
. "$(dirname "$0")/../times.sh"

lines() {
    awk -v n="$1" -v kind="$2" 'BEGIN {
        for (i = 1; i <= n; i++) {
            if (kind == "parse" && i == n) print "what"
            else if (kind == "reads") print "on n1 s" i % 60 " get key-" i % 1000
            else if (i % 100 == 0) print "barrier"
            else if (i % 4 == 0) print "on n1 s" i % 60 " get key-" i % 1000
            else if (i % 4 == 1) print "on n1 s" i % 60 " add sum-" i % 50 " " i
            else print "on n1 s" i % 60 " put key-" i % 1000 " value-" i
        }
    }'
}

# measure STATUS SCRIPT: the least and the median time of the runs, in microseconds
measure() {
    microseconds "$1" "$2" run | awk '{ t[NR] = $1 } END { printf "%d | %d", t[1], t[int((NR + 1) / 2)] }'
}

echo "| script | lines | least | median | bytes printed |"
echo "|---|---|---|---|---|"
: > "$work/script"
echo "| empty | 0 | $(measure 0 "$work/script") | $(wc -c < "$work/text") |"
for kind in parse reads whole; do
    for n in 1000 5000 20000; do
        lines "$n" "$kind" > "$work/script"
        ends=$([ "$kind" = parse ] && echo 2 || echo 0)
        echo "| $kind | $n | $(measure "$ends" "$work/script") | $(wc -c < "$work/text") |"
    done
done
