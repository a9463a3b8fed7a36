#!/usr/bin/env bash
# Times 20 rank intervals of 1,000 rows, of five columns at four quantiles, on all processors and on one of them: the wall time of
# the whole run, the best of three, and the load of the machine before.
#
# usage: jobs.sh PROGRAM
set -eu
program=$1
here=$(cd "$(dirname "$0")" && pwd)
work=$(mktemp -d)
trap 'rm -rf "$work"' EXIT

awk -v number=1 -v rows=1000 -v columns=4 -f "$here/../whole/make_table.awk" |
  awk -F , -v OFS=, 'NR > 1 { for (i = 1; i <= NF; i++) $i %= 16 } 1' > "$work/table.csv"
words=(process --formula "y ~ ." --lo 1/2 --hi 1/2 --crit 2.7055 --rank-at 1/5,2/5,3/5,4/5)

# The least wall time of three runs under the words that are handed in.
seconds() {
  : > "$work/seconds"
  for _ in 1 2 3; do
    /usr/bin/time -q -o "$work/time" -f '%e' "$@" "$program" "${words[@]}" < "$work/table.csv" > "$work/out"
    cat "$work/time" >> "$work/seconds"
  done
  sort -g "$work/seconds" | head -1
}

printf 'load %s, %s processors\n' "$(cut -d ' ' -f 1 /proc/loadavg)" "$(nproc)"
one=$(seconds taskset -c 0)
all=$(seconds env)
printf '%s intervals: %s s on one processor, %s s on all, %s times\n' \
  "$(grep -c '^interval ' "$work/out")" "$one" "$all" "$(awk -v a="$all" -v b="$one" 'BEGIN { printf "%.2f", a / b }')"
