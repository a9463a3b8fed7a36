#!/usr/bin/env bash
# Times the program from bytes to bytes, at the median and over all quantiles: on stackloss, on engel,
# whose cells have 15 digits, and on generated tables.
# Prints for each the best of three runs, in seconds that passed and in seconds of a processor, the most memory that one of them
# held, the status, and the pivots and the segments, or the line of the fault. Where R stands with its package quantreg, the line over
# all quantiles ends with the time of rq.fit.br on the same table, reading not counted.
#
# usage: run.sh PROGRAM
set -eu
program=$1
here=$(cd "$(dirname "$0")" && pwd)
work=$(mktemp -d)
trap 'rm -rf "$work"' EXIT

# The least and the greatest number of a file.
least() { sort -g "$1" | head -1; }
greatest() { sort -g "$1" | tail -1; }

# What a run came to.
outcome() {
  if [ -s "$work/err" ]; then
    cat "$work/err"
  else
    printf '%s, segments %s\n' "$(grep '^pivots ' "$work/out")" "$(grep -c '^segment ' "$work/out")"
  fi
}

# That of a job whose numbers are of any size: how many characters the longest line has.
longest() {
  if [ -s "$work/err" ]; then
    cat "$work/err"
  else
    printf '%s, longest line %s\n' "$(grep '^pivots ' "$work/out")" "$(awk '{ if (length > most) most = length } END { print most }' "$work/out")"
  fi
}

# What R takes for the same table over all quantiles, or nothing where it doesn't stand.
with_r=$(command -v Rscript > "$work/nothing" && Rscript -e 'quit(status = !requireNamespace("quantreg", quietly = TRUE))' \
  > "$work/nothing" 2>&1 && echo yes || true)
beside() { [ "$1" != "0 1" ] || [ -z "$with_r" ] || printf ', %s' "$(Rscript "$here/process.R" "$2")"; }

# The least time of three runs over a table, and the most memory: timed TABLE WORD.., which sets the status.
timed() {
  local table=$1
  shift
  : > "$work/elapsed"
  : > "$work/processor"
  : > "$work/memory"
  for _ in 1 2 3; do
    status=0
    /usr/bin/time -q -o "$work/time" -f '%e %U %M' "$program" "$@" < "$table" > "$work/out" 2> "$work/err" || status=$?
    cut -d ' ' -f 1 "$work/time" >> "$work/elapsed"
    cut -d ' ' -f 2 "$work/time" >> "$work/processor"
    cut -d ' ' -f 3 "$work/time" >> "$work/memory"
  done
}

# What was timed: its name, and what it came to.
tell() {
  printf '%-32s %5s s, of a processor %5s s, %s kB, status %s, %s\n' "$1:" "$(least "$work/elapsed")" "$(least "$work/processor")" \
    "$(greatest "$work/memory")" "$status" "$2"
}

# One case: its name, the range of quantiles, the formula, and the table.
measure() {
  local lo hi
  read -r lo hi <<< "$2"
  timed "$4" process --formula "$3" --lo "$lo" --hi "$hi"
  tell "$1 $lo to $hi" "$(outcome)$(beside "$2" "$4")"
}

# A generated table of so many rows and regressors, over a range of quantiles.
measure_generated() {
  awk -v number=1 -v rows="$1" -v columns="$2" -f "$here/make_table.awk" > "$work/table.csv"
  measure "$1 rows, $(($2 + 1)) columns" "$3" "y ~ ." "$work/table.csv"
}

for range in "1/2 1/2" "0 1"; do
  measure "stackloss" "$range" "stack.loss ~ ." "$here/../../examples/stackloss.csv"
  measure "engel" "$range" "foodexp ~ income" "$here/../../examples/engel.csv"
done
for size in "1000 4" "1000 5" "4000 4" "16384 4" "16384 9"; do
  read -r rows columns <<< "$size"
  measure_generated "$rows" "$columns" "1/2 1/2"
done
for size in "1000 2" "1000 4" "4000 2"; do
  read -r rows columns <<< "$size"
  measure_generated "$rows" "$columns" "0 1"
done

# 1,000 rows and 5 columns, and the same with two rows of high leverage; beside the process of the same table.
awk -v number=1 -v rows=1000 -v columns=4 -f "$here/make_table.awk" > "$work/plain"
awk -F, -v OFS=, 'NR > 1 && NR < 4 { for (j = 2; j <= NF; j++) $j = 1000 * $j } { print }' "$work/plain" > "$work/leverage"
for table in plain leverage; do
  measure "$table, 5 columns" "0 1" "y ~ ." "$work/$table"
  timed "$work/$table" ranks --formula "y ~ ."
  tell "$table, 5 columns, ranks" "$(longest)"
  timed "$work/$table" test --formula "y ~ ." --tested 5
  tell "$table, 5 columns, test" "$(longest)"
done

# A factor of 120 levels with three records of each, one of whose columns is tested.
awk 'BEGIN { print "y,x"; for (i = 0; i < 360; i++) printf "%d,level%d\n", (i * i * 31 + i * 7) % 997, i % 120 }' > "$work/levels"
timed "$work/levels" test --formula "y ~ factor(x)" --tested 5
tell "a factor of 120 levels, test" "$(longest)"
