#!/bin/sh
# threads.sh PROGRAM [RUNS]: 1, 2, 4 and 8 readers look in threads of their own while one publishes 2,000 positions, RUNS times (200) each. PROGRAM is the
# built `snap_rows`. It prints a table. The status is 0 where in each run nothing was torn or went back, and each reader saw the last position.
set -eu
program=$(realpath "$1")
runs=${2:-200}
here=$(cd "$(dirname "$0")" && pwd)
. "$here/../work.sh"

echo "| readers | runs | torn | back | positions seen in a run by a reader, median (least to most) | looks in a run by a reader, median (least to most) |"
echo "|---|---|---|---|---|---|"
for readers in 1 2 4 8; do
    : > "$work/came"
    for _ in $(seq "$runs"); do
        timeout 60 "$program" threads "$readers" > "$work/text" || { echo "$readers readers: status $?" >&2; exit 1; }
        grep -q "^published 2000, torn 0, back 0, saw the last $readers, " "$work/text" || { cat "$work/text" >&2; exit 1; }
        sed 's/.*positions \([0-9]*\), looks \([0-9]*\)$/\1 \2/' "$work/text" >> "$work/came"
    done
    # spread COLUMN: its median, least and most, for each reader
    spread() {
        awk -v at="$1" -v by="$readers" '{ print int($at / by) }' "$work/came" | sort -n |
            awk '{ all[NR] = $1 } END { print all[int((NR + 1) / 2)] " (" all[1] " to " all[NR] ")" }'
    }
    echo "| $readers | $runs | 0 | 0 | $(spread 1) | $(spread 2) |"
done
