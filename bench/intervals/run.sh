#!/usr/bin/env bash
# Times rank intervals of all columns at the median on generated tables of numbers below 16 and below 1,000: the fit alone, and with
# the intervals, each the best of three runs in seconds of a processor. Where R stands with its package quantreg, what rq.fit.br(ci = TRUE) takes on the same table follows,
# reading not counted.
#
# usage: run.sh PROGRAM
set -eu
program=$1
here=$(cd "$(dirname "$0")" && pwd)
work=$(mktemp -d)
trap 'rm -rf "$work"' EXIT

# The least seconds of a processor of three runs of the words on the table, and the last status.
seconds() {
  local status
  : > "$work/seconds"
  for _ in 1 2 3; do
    status=0
    /usr/bin/time -q -o "$work/time" -f '%U' "$program" "$@" < "$work/table.csv" > "$work/out" 2> "$work/err" || status=$?
    cat "$work/time" >> "$work/seconds"
  done
  printf '%s s (status %s)' "$(sort -g "$work/seconds" | head -1)" "$status"
}

with_r=$(command -v Rscript > "$work/nothing" && Rscript -e 'quit(status = !requireNamespace("quantreg", quietly = TRUE))' \
  > "$work/nothing" 2>&1 && echo yes || true)

for size in "100 4 16" "1000 4 16" "1000 4 1000" "1000 5 16" "1000 5 1000" "2000 4 16" "2000 4 1000" "2000 9 16" "2000 9 1000" "16384 4 16" "16384 4 1000"; do
  read -r rows columns below <<< "$size"
  awk -v number=1 -v rows="$rows" -v columns="$columns" -f "$here/../whole/make_table.awk" |
    awk -F , -v OFS=, -v below="$below" 'NR > 1 { for (i = 1; i <= NF; i++) $i %= below } 1' > "$work/table.csv"
  fit=(process --formula "y ~ ." --lo 1/2 --hi 1/2)
  printf '%s rows, %s columns, below %s: fit %s, ' "$rows" "$((columns + 1))" "$below" "$(seconds "${fit[@]}")"
  printf 'with intervals %s, ' "$(seconds "${fit[@]}" --crit 2.7055 --rank-at 1/2)"
  printf '%s intervals' "$(grep -c '^interval ' "$work/out" || true)"
  [ -z "$with_r" ] || printf ', %s' "$(Rscript "$here/intervals.R" "$work/table.csv")"
  printf '\n'
done
