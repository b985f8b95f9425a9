#!/bin/sh
# peer.sh PROGRAM [COMMANDS [RUNS]]: commands a second of a run of PROGRAM, the built delos_sim, over native3, and of SQLite doing the work
# of its nodes' state machines alone, in memory (peer.c): with 1, 4 and 8 nodes or databases. An entry of a run has up to 16 commands,
# and is kept by one transaction of each node's store; SQLite is measured with one command in a transaction, and with 16.
#
# COMMANDS is how many commands are taken (15,000), RUNS how often each is measured (7).
set -eu
program=$1
commands=${2:-15000}
runs=${3:-7}
here=$(dirname "$0")
. "$here/../rates.sh"
. "$here/lines.sh"
gcc -O2 -o "$work/peer" "$here/peer.c" -lsqlite3

# run COMMANDS NODES: a run of the script of so many lines, of which it prints how many rows are placed
run() {
    "$program" run --shelf native3 --nodes "$2" < "$work/script.$1" | grep -c ' @' || true
}

# sqlite COMMANDS DATABASES BATCH
sqlite() {
    "$work/peer" "$2" "$1" "$3"
}

: > "$work/script.0"
echo "| what | nodes | commands in a transaction | commands a second, best | median |"
echo "|---|---|---|---|---|"
for nodes in 1 4 8; do
    script "$commands" "$nodes" > "$work/script.$commands"
    echo "| delos_sim | $nodes | up to 16 | $(rates "$commands" run "$commands" "$nodes") |"
    for batch in 1 16; do
        echo "| SQLite | $nodes | $batch | $(rates "$commands" sqlite "$commands" "$nodes" "$batch") |"
    done
done
