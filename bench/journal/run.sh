#!/bin/sh
# Appends a second of a journal on a disk in memory: 10,000 records of 100 bytes, and more.
#
# usage: bench/journal/run.sh PROGRAM [RUNS]
#
# PROGRAM is the built `benches`. RUNS is how often each row is measured (7).
set -eu

program=$1
runs=${2:-7}
. "$(dirname "$0")/../rates.sh"

# append RECORDS BYTES: one run
append() {
    "$program" journal "$1" "$2"
}

# measure RECORDS BYTES: one row
measure() {
    echo "| $1 | $2 | $(rates "$1" append "$1" "$2") |"
}

echo "| records | bytes each | appends a second, best | median |"
echo "|---|---|---|---|"
measure 10000 100
measure 20000 100
measure 40000 100
measure 10000 1000
