#!/usr/bin/env bash
# Times what a certificate costs beside the fit, in one run: `process` and `certify` on one processor, `check` on one and on all, and the
# plain checker in Python, on generated tables over all quantiles, and with all rank intervals at three. The figures are wall time, the
# least of three runs, or of one for Python, which is left out beyond 2,000 records. A certificate that isn't accepted ends with its line.
#
# usage: jobs.sh PROGRAM
set -eu
program=$1
here=$(cd "$(dirname "$0")" && pwd)
work=$(mktemp -d)
trap 'rm -rf "$work"' EXIT
formula=(--formula "y ~ .")

# The least wall time of so many runs of the words that are handed in, from a file.
seconds() {
  local runs=$1 from=$2
  shift 2
  : > "$work/seconds"
  for _ in $(seq "$runs"); do
    /usr/bin/time -q -o "$work/time" -f '%e' "$@" < "$from" > "$work/out" 2>> "$work/told" || true
    tail -1 "$work/time" >> "$work/seconds"
  done
  sort -g "$work/seconds" | head -1
}

# What all of that takes for a table, with what is asked beside the formula.
measure() {
  local name=$1 rows=$2
  shift 2
  : > "$work/told"
  one=(taskset -c 0 "$program")
  fit=$(seconds 3 "$work/table.csv" "${one[@]}" process "${formula[@]}" "$@")
  write=$(seconds 3 "$work/table.csv" "${one[@]}" certify "${formula[@]}" "$@")
  cp "$work/out" "$work/certificate.json"
  single=$(seconds 3 "$work/certificate.json" "${one[@]}" check)
  all=$(seconds 3 "$work/certificate.json" "$program" check)
  grep -q '^accepted$' "$work/out" || echo 'not accepted' >> "$work/told"
  plain=
  if [ "$rows" -le 2000 ] && command -v python3 > "$work/nothing"; then
    plain=", quantreg_check.py $(seconds 1 "$work/certificate.json" python3 "$here/../../checker/quantreg_check.py") s"
  fi
  printf '%s: process %s s, certify %s s, %s bytes; check %s s, on all processors %s s, %s times process%s\n' "$name" "$fit" "$write" \
    "$(wc -c < "$work/certificate.json")" "$single" "$all" "$(awk -v a="$single" -v b="$fit" 'BEGIN { printf "%.1f", a / b }')" "$plain"
  tail -1 "$work/told"
}

printf 'load %s, %s processors\n' "$(cut -d ' ' -f 1 /proc/loadavg)" "$(nproc)"
for size in "1000 4" "2000 9" "16384 4"; do
  read -r rows columns <<< "$size"
  awk -v number=1 -v rows="$rows" -v columns="$columns" -f "$here/../whole/make_table.awk" > "$work/table.csv"
  measure "$rows records, $((columns + 1)) columns, 0 to 1" "$rows" --lo 0 --hi 1
done
awk -v number=1 -v rows=1000 -v columns=4 -f "$here/../whole/make_table.awk" |
  awk -F , -v OFS=, 'NR > 1 { for (i = 1; i <= NF; i++) $i %= 16 } 1' > "$work/table.csv"
measure "1000 records, 5 columns, intervals at three quantiles" 1000 --lo 1/2 --hi 1/2 --crit 2.7055 --rank-at 1/4,1/2,3/4
