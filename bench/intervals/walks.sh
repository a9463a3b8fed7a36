#!/bin/sh
# Times the rank intervals of all columns at the median in whole numbers alone, in seconds of a processor, by the program beside this script over
# the libraries of a gate.
# The proofs that it needs are those of the same functions in `test_kit`. Where R and its package quantreg stand on the
# machine, `rq.fit.br(ci = TRUE)` has the same tables in the same run. See README.md.
#
# usage: walks.sh [FOLDER]    FOLDER keeps the program
set -eu
here=$(cd "$(dirname "$0")" && pwd)
work=${1:-$(mktemp -d)}
mkdir -p "$work/src"
cp "$here/intervals_bench.txt" "$work/src/main.rt"
"$here/../take_proofs.sh" "$work" problems/are_data/Invariants problems/is_data/Answers numbers/is_less/Answers numbers/is_ordered/Answers
"$here/../over.sh" "$work" rational_laws frac_core loss_model rank_inversion anyhow
uptime
with_r=$(command -v Rscript >/dev/null && Rscript -e 'quit(status = !requireNamespace("quantreg", quietly = TRUE))' >/dev/null 2>&1 && echo yes || true)
# The seconds of a processor of so many runs.
seconds() {
    /usr/bin/time -q -o "$work/time" -f '%U' "$work/program" "$@" >"$work/answered"
    cat "$work/time"
}
for size in "100 4 16 99" "100 4 1000 99" "1000 4 16 9" "1000 4 1000 9" "1000 5 16 9" "1000 5 1000 9" "2000 4 16 9" "2000 9 16 3" "2000 9 1000 3" "16384 4 16 1" "16384 4 1000 1"; do
    set -- $size
    none=$(seconds "$1" "$(($2 + 1))" "$3" 0)
    all=$(seconds "$1" "$(($2 + 1))" "$3" "$4")
    printf '%s x %s, below %s: %s, %s s' "$1" "$(($2 + 1))" "$3" "$(head -1 "$work/answered")" "$(awk -v a="$all" -v b="$none" -v n="$4" 'BEGIN { printf "%.4f", (a - b) / n }')"
    if [ -n "$with_r" ]; then
        awk -v number=1 -v rows="$1" -v columns="$2" -f "$here/../whole/make_table.awk" |
            awk -F , -v OFS=, -v below="$3" 'NR > 1 { for (i = 1; i <= NF; i++) $i %= below } 1' >"$work/table.csv"
        printf ', %s' "$(Rscript "$here/intervals.R" "$work/table.csv")"
    fi
    printf '\n'
done
uptime
