#!/bin/sh
# run.sh [PROGRAM [RUNS [ROUNDS]]]: commands a second, peak memory and growth of PROGRAM, which is delos_sim as it is built; without PROGRAM it
# is built here. Both `run` and `make` are measured, at 1,000, 5,000 and 15,000 logged lines, over four shelves, with 1, 4 and 8 nodes.
#
# A time is that of a whole process: the least of the runs of all rounds, less the least of as many that do as little as can be: an empty
# script, or a made one of one line. Each round measures every row, so that a while in which the machine is slow spoils no row. Growth is the
# time of a line, as a ratio of that in the first row of the same command, shelf and nodes.
#
# The table goes to standard output and to bench/results/rates.md, and a plot of it to bench/results/rates.svg.
set -eu
here=$(cd "$(dirname "$0")" && pwd)
top=$here/../..
if [ $# -eq 0 ]; then
    (cd "$top/crates/delos_sim" && rt run < /dev/null > /dev/null)
    set -- "$top/crates/delos_sim/out/delos_sim"
fi
program=$1
runs=${2:-5}
rounds=${3:-3}
. "$here/../times.sh"
. "$here/lines.sh"

# least FILE WORD..: the least time of the runs, in microseconds
least() {
    microseconds 0 "$@" | head -1
}

# peak FILE WORD..: the greatest resident size, in KiB
peak() {
    file=$1
    shift
    /usr/bin/time -f %M -o "$work/peak" "$program" "$@" < "$file" > "$work/text"
    cat "$work/peak"
}

# measured COMMAND SHELF NODES LINES FILE LEAST EMPTY: what one round measures of a row
measured() {
    all=$(words "$1" "$2" "$3" "$4")
    none=$(words "$1" "$2" "$3" "$6")
    # shellcheck disable=SC2086 # the words are split here
    echo "$1 $2 $3 $4 $(least "$5" $all) $(least "$7" $none) $(peak "$5" $all)"
}

# rows: the table of what all rounds measured, in the order of the first
rows() {
    awk '
        {
            row = $1 " | " $2 " | " $3 " | " $4
            if (!(row in time)) { order[++count] = row; group[row] = $1 " " $2 " " $3; lines[row] = $4; time[row] = $5; least[row] = $6 }
            if ($5 < time[row]) time[row] = $5
            if ($6 < least[row]) least[row] = $6
            if ($7 > peak[row]) peak[row] = $7
        }
        END {
            for (i = 1; i <= count; i++) {
                row = order[i]
                took = time[row] - least[row]
                if (!(group[row] in first)) first[group[row]] = took / lines[row]
                printf "| %s | %d | %d | %d | %.2f |\n", row, took, lines[row] * 1000000 / took, peak[row], took / lines[row] / first[group[row]]
            }
        }' "$work/measured"
}

for _ in $(seq "$rounds"); do
    each_row measured file native3 striped2 "$default_shelf" >> "$work/measured"
done

table() {
    echo "| command | shelf | nodes | lines | microseconds | commands a second | peak KiB | growth |"
    echo "|---|---|---|---|---|---|---|---|"
    rows
}

mkdir -p "$here/../results"
table | tee "$here/../results/rates.md"
awk -f "$here/plot.awk" "$here/../results/rates.md" > "$here/../results/rates.svg"
