#!/bin/sh
# Times walks over a range, by the program beside this script over the libraries of a gate. The three proofs that it needs are those of
# the same functions in `test_kit`. Where R and its package quantreg stand on the machine, `rq.fit.br` has the same tables in
# the same run. See README.md.
#
# usage: run.sh [FOLDER]    FOLDER keeps the program
set -eu
here=$(cd "$(dirname "$0")" && pwd)
work=${1:-$(mktemp -d)}
mkdir -p "$work/src"
cp "$here/process_bench.txt" "$work/src/main.rt"
"$here/../take_proofs.sh" "$work" problems/has_costs/Invariants problems/is_negative/Answers numbers/is_ordered/Answers
"$here/../over.sh" "$work" rational_laws frac_core loss_model pivot_model lambda_path whole_inverse tableau_model whole_tableau tableau tau_process anyhow
uptime
"$work/program"
if command -v Rscript >/dev/null && Rscript -e 'quit(status = !requireNamespace("quantreg", quietly = TRUE))'; then
    Rscript "$here/process.R"
else
    echo 'R: skipped, for R with its package quantreg was not found'
fi
uptime
