#!/bin/sh
# run.sh [--anew] [NAME..]: runs the gate, `rt ci`, with these words, and times each process that it starts: user and system seconds of its whole
# tree, as the system tells them four times a second, so that a machine with other work beside it says nearly the same. Where the toolchain keeps
# what an earlier run on this machine proved of the same files, the gate takes that, and it isn't timed; --anew proves and tries all. With names,
# these crates and those below them are the gate's.
#
# run.sh --table: the table alone, of what was measured before.
#
# The raw figures stand in bench/results/gate.tsv as they come, so a run that is cut off loses none: of each part the newest one counts. The table
# goes to bench/results/gate.md. What the gate says goes to standard output, and its exit status is this script's.
set -eu
exec python3 "$(dirname "$0")/gate.py" "$@"
