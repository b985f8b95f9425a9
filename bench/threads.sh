#!/bin/sh
# threads.sh PROGRAM ROWS [RUNS]: runs scripts whose nodes play side by side, again and again, and compares what comes of each run with what
# may come of it. PROGRAM is the built delos_sim, and ROWS the built worked_runs. The status is 0 where each run came to one of its texts, in a
# minute at most.
#
# It prints a table of how often each text came: of two nodes that replace the loglet in one phase, of a read behind a barrier, of two nodes of
# which one is held, of made scripts by 1, 2, 4 and 8 nodes, and of eight nodes that add to one key, five times as often as the others.
set -eu
program=$(realpath "$1")
rows=$(realpath "$2")
runs=${3:-200}
. "$(dirname "$0")/work.sh"

say() {
    echo "$*" >&2
    exit 1
}

# in_a_minute WHAT COMMAND..: runs it, from $work/script to $work/text; it has to end with status 0
in_a_minute() {
    what=$1
    shift
    timeout 60 "$@" < "$work/script" > "$work/text" && status=0 || status=$?
    [ "$status" -ne 124 ] || say "$what: it hangs"
    [ "$status" -eq 0 ] || say "$what: status $status: $(cat "$work/text")"
}

# lines LINE..: each on a line of its own
lines() {
    printf '%s\n' "$@"
}

# of_texts WHAT FOLDER WORD..: runs the program so often, and counts how often each text of the folder came of $work/script
of_texts() {
    what=$1
    texts=$2
    shift 2
    : > "$work/came"
    for _ in $(seq "$runs"); do
        in_a_minute "$what" "$program" "$@"
        came=
        for text in "$texts"/*; do
            cmp -s "$text" "$work/text" && came=$(basename "$text")
        done
        [ -n "$came" ] || say "$what: $(cat "$work/text")"
        echo "$came" >> "$work/came"
    done
    for text in "$texts"/*; do
        came=$(basename "$text")
        echo "| $what | $(echo "$came" | tr _ ' ') | $(grep -cx "$came" "$work/came" || true) |"
    done
}

# Two nodes extend in one phase: one does, and the other finds the chain moved, or extends it once more, or would have and finds that the first
# one has finished that as its phase ended.
extended() {
    mkdir "$work/extended"
    for first in 1 2; do
        second=$((3 - first))
        texts=$work/extended/n$first
        lines "$first n$first extended v=2 at 0" "$second n$second moved v=2" | sort > "${texts}_first,_n${second}_moved_by_2"
        lines "end 0" "chain v=2 trim=0" "seg 0 file 0 0" "seg 1 file 0 open" >> "${texts}_first,_n${second}_moved_by_2"
        for row in "extended v=3 at 0" "moved v=3"; do
            text="${texts}_first,_n${second}_$(echo "$row" | sed 's/ v=3.*/ by 3/' | tr ' ' _)"
            lines "$first n$first extended v=2 at 0" "$second n$second $row" | sort > "$text"
            lines "end 0" "chain v=3 trim=0" "seg 0 file 0 0" "seg 1 file 0 0" "seg 2 file 0 open" >> "$text"
        done
    done
    lines "on n1 extend" "on n2 extend" > "$work/script"
    of_texts "two nodes extend" "$work/extended" run --nodes 2 --shelf file,file,file
}

# What a node wrote before a barrier another one reads behind it.
read_behind() {
    mkdir "$work/read"
    lines "1 a @0.0 ok" "3 b >1 = 1" "end 1" "chain v=1 trim=0" "seg 0 file 0 open" > "$work/read/the_value"
    lines "on n1 a put x 1" "barrier" "on n2 b get x" > "$work/script"
    of_texts "a read behind a barrier" "$work/read" run --nodes 2 --shelf file
}

# held NODE OTHER: a case of worked_runs
held() {
    lines "held: n$1 appending until n$2 placed" '$ delos_sim run --nodes 2 --shelf file' "on n1 a put x 1" "on n2 b put y 2" ----
}

# came PLACE PLACE: what comes of it
came() {
    lines ---- "1 a @$1.0 ok" "2 b @$2.0 ok" "end 2" "chain v=1 trim=0" "seg 0 file 0 open" "status 0"
}

# Each of two nodes is held in turn before it appends, until the other one's entry has its place. Nodes that take turns can't do both. What a held
# node waits for must come while it waits, else worked_runs ends with an error.
side_by_side() {
    mkdir "$work/rows"
    # worked_runs reads all of its files.
    for file in "$here"/../crates/worked_runs/data/*.txt; do
        : > "$work/rows/$(basename "$file")"
    done
    { held 1 2; held 2 1; } > "$work/rows/nodes.txt"
    { came 1 0; came 0 1; } > "$work/wanted"
    : > "$work/script"
    for _ in $(seq "$runs"); do
        (cd "$work/rows" && in_a_minute "a node is held" "$rows")
        sed -n '/^----$/,/^status/p' "$work/text" > "$work/came"
        cmp -s "$work/wanted" "$work/came" || say "a node is held: $(cat "$work/text")"
    done
    echo "| n1 is held, and then n2 | each comes behind the other | $runs |"
}

# A made script puts the same four lines by however many nodes.
made() {
    : > "$work/script"
    for run in $(seq $((runs / 4))); do
        for nodes in 1 2 4 8; do
            in_a_minute "made by $nodes" "$program" make --seed "$run" --lines 200 --nodes "$nodes"
            [ "$nodes" -ne 1 ] || cp "$work/text" "$work/wanted"
            [ "$(wc -l < "$work/text")" -eq 4 ] || say "seed $run by $nodes nodes: $(cat "$work/text")"
            cmp -s "$work/wanted" "$work/text" || say "seed $run by $nodes nodes: $(cat "$work/wanted" "$work/text")"
        done
    done
    echo "| 200 made lines by 1, 2, 4 and 8 nodes | the same four lines | $((runs / 4 * 4)) |"
}

# Eight nodes add to one key, three times in each of four phases; in the second one n1 and n5 replace the loglet too. At the end each reads the key.
adding() {
    for phase in 1 2 3 4; do
        for node in 1 2 3 4 5 6 7 8; do
            echo "on n$node s$node add sum $((phase * node))"
            [ "$phase" -ne 2 ] || case $node in 1|5) echo "on n$node extend" ;; esac
            lines "on n$node s$node add sum 1" "on n$node s$node add sum $node"
        done
        echo barrier
    done
    for node in 1 2 3 4 5 6 7 8; do
        echo "on n$node s$node get sum"
    done
}

# Each command is told at a place of its own, and replies the sum of all at its place and below; the last lines read the sum of all, and in a phase no place
# is below one of an earlier phase.
is_summed() {
    awk '
        BEGIN { phase = 0; phase_of = 0 }
        FNR == NR { if ($1 == "barrier") phase++; if ($4 == "add") { adds[FNR] = $6; of[FNR] = phase; total += $6; count++ } if ($4 == "get") reads++; next }
        $3 ~ /^@/ { split(substr($3, 2), at, "."); rank = at[1] * 100 + at[2]; if (rank in line) exit bad = 1; line[rank] = $1; reply[rank] = $5; if (rank > most) most = rank; told++ }
        $3 ~ /^>/ { if ($5 != total) exit bad = 1; read++ }
        END {
            for (rank = 0; rank <= most; rank++) if (rank in line) {
                sum += adds[line[rank]]
                if (reply[rank] != sum || of[line[rank]] < phase_of) bad = 1
                phase_of = of[line[rank]]
            }
            exit (bad || told != count || read != reads)
        }' "$work/script" "$work/text"
}

eight() {
    adding > "$work/script"
    for _ in $(seq $((runs * 5))); do
        in_a_minute "eight nodes" "$program" run --nodes 8
        is_summed || say "eight nodes: $(cat "$work/text")"
    done
    echo "| eight nodes add to one key, and two extend | each reply is the sum so far | $((runs * 5)) |"
}

here=$(cd "$(dirname "$0")" && pwd)
echo "| script | what came of it | runs |"
echo "|---|---|---|"
extended
read_behind
side_by_side
made
eight
