#!/bin/sh
# audit.sh [--must-fail] [--whole] [--said FOLDER] [NAME..]: tries the wrong bodies of crates/NAME/audit/, of all crates that have any if no name is
# given, and with --must-fail those of must-fail/ too; NAME/EDIT is one of either. Each is tried in a scratch copy of the repository, over what
# `rt check` kept in this checkout. It prints for each what it came to:
#
#   a  a clause refuses it: the prover names a goal of the function in src/
#   b  a proof's shape alone: a hand-written answer in proofs/ no longer fits. The clause sees the change; whether it refuses it is
#      known once the answer is adapted
#   c  a name that is gone: a file of proofs/ cites what the edit took away, so nothing was tried
#   d  NOT REFUSED: the crate is still proved
#   -  nothing is known: it can't be applied, compiled or read, or the prover met a limit
#
# Then come the counts. The status is 1 where there is a d or a -.
#
# audit.sh --apply tries none, and says which edits of both folders can't be applied: each old text stands in its file exactly once.
#
# An edit inside functions is tried against these functions alone, by whose contracts all others go, and together with edits of other functions of
# the crate, so that the libraries below are read once; any other against the whole crate, as each is with --whole. Over libraries that are
# proved an edit takes about 10 processor seconds. What the prover said of each is left in FOLDER. RT_JOBS says how many crates are tried at once.
#
# It copies what `rt check` kept in this checkout (crates/*/out): begin with `rt all check`, or each crate that is tried, and those below it, is
# proved in the copy first.
set -eu
exec python3 "$(dirname "$0")/audit.py" "$@"
