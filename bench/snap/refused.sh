#!/bin/sh
# refused.sh PROGRAM: has each allocation of `snap_rows memory` find no memory, one in each run, and prints how often a run ended which way. PROGRAM is
# the built `snap_rows`, which looks at the whole map after each position: a run in which something else is seen than what was shown ends with status 1.
set -eu
program=$(realpath "$1")
here=$(cd "$(dirname "$0")" && pwd)
. "$here/../work.sh"

cc -O2 -shared -fPIC -o "$work/refuse.so" "$here/refuse.c"
: > "$work/came"
nth=1
while :; do
    NTH=$nth LD_PRELOAD="$work/refuse.so" timeout 60 "$program" memory > "$work/text" 2> "$work/told" && status=0 || status=$?
    grep -q refused "$work/told" || break
    if [ "$status" -eq 0 ]; then
        cat "$work/text" >> "$work/came"
    else
        grep -v refused "$work/told" | sed "s/^/status $status: /" >> "$work/came"
    fi
    nth=$((nth + 1))
done
[ "$status" -eq 0 ] || { cat "$work/told" >&2; exit 1; }
echo "| how a run ended | runs |"
echo "|---|---|"
sort "$work/came" | uniq -c | awk '{ n = $1; $1 = ""; print "|" $0 " | " n " |" }'
echo
echo "Where none was refused: $(cat "$work/text")"
