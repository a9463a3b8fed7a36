#!/bin/sh
# Times solves at the median, by the program beside this script over the libraries of a gate. The two proofs that it needs are those of
# the same functions in `test_kit`. See README.md.
#
# usage: run.sh [FOLDER]    FOLDER keeps the program
set -eu
here=$(cd "$(dirname "$0")" && pwd)
work=${1:-$(mktemp -d)}
mkdir -p "$work/src"
cp "$here/solve_bench.txt" "$work/src/main.rt"
"$here/../take_proofs.sh" "$work" problems/has_costs/Invariants problems/is_negative/Answers
"$here/../over.sh" "$work" rational_laws frac_core loss_model pivot_model whole_inverse tableau_model whole_tableau tableau br_pivot anyhow
"$work/program"
